/* Waitable timers. What the library hasn't is a routine, which a timer queues to a thread each time its moment comes.
 * https://learn.microsoft.com/windows/win32/sync/waitable-timer-objects */
#include "host.h"

#include <stdlib.h>

/* It is kept at the timer's object. */
typedef struct routine {
    kept kept;
    struct routine *next;
    om_object timer;
    uint64_t moment; /* at which it is queued next */
    PTIMERAPCROUTINE code;
    void *argument;
    thread *by; /* who set the timer */
} routine;

static routine *routines;

/* One that is queued isn't called any more. */
static void routine_goes(kept *self) {
    routine *gone = (routine *)self, **at = &routines;
    while (*at != gone) {
        at = &(*at)->next;
    }
    *at = gone->next;
    drop_calls(gone->by, gone);
    let_go(gone->by);
    free(gone);
}

static void NTAPI call_routine(ULONG_PTR code, ULONG_PTR argument, ULONG_PTR moment) {
    ((PTIMERAPCROUTINE)code)((LPVOID)argument, (DWORD)moment, (DWORD)(moment >> 32));
}

/* Queues those whose moments have come, by the time that the manager was told. One that is still queued isn't queued twice. */
void queue_routines(void) {
    for (routine *r = routines; r != NULL; r = r->next) {
        om_object_state state;
        if (r->moment <= om_now(&om)) {
            queue_call(r->by, call_routine, (ULONG_PTR)r->code, (ULONG_PTR)r->argument, r->moment, r);
            om_state(&om, r->timer.slot, r->timer.generation, &state);
            r->moment = state.has_due ? state.due : NEVER;
        }
    }
}

/* What a timer is to do goes with its moment. */
static void drop_routine(const om_handle_info *timer) {
    kept *old = (kept *)(uintptr_t)timer->data;
    if (old != NULL) {
        om_set_object_data(&om, timer->object.slot, timer->object.generation, 0);
        routine_goes(old);
    }
}

/* Under the lock. A moment below 0 is so many units from now. */
uint32_t set_timer(uint32_t handle, int64_t due, int32_t period, PTIMERAPCROUTINE code, void *argument) {
    om_handle_info timer;
    tell_time();
    uint32_t status = om_set_periodic_timer(&om, me->number, handle, due, period);
    if (status != OM_SUCCESS || (status = om_query_handle(&om, me->of->number, handle, &timer)) != OM_SUCCESS) {
        return status;
    }
    drop_routine(&timer);
    if (code != NULL) {
        uint64_t told = om_now(&om), moment = due < 0 ? told - (uint64_t)due : (uint64_t)due < told ? told : (uint64_t)due;
        routine *r = malloc(sizeof *r);
        if (r == NULL || om_set_object_data(&om, timer.object.slot, timer.object.generation, (uintptr_t)r) != OM_SUCCESS) {
            free(r);
            return OM_ERROR_NOT_ENOUGH_MEMORY;
        }
        *r = (routine){{routine_goes}, routines, timer.object, moment, code, argument, me};
        me->users++;
        routines = r;
        queue_routines();
    }
    return OM_SUCCESS;
}

/* Under the lock. */
uint32_t cancel_timer(uint32_t handle) {
    om_handle_info timer;
    tell_time();
    uint32_t status = om_cancel_timer(&om, me->number, handle);
    if (status == OM_SUCCESS && (status = om_query_handle(&om, me->of->number, handle, &timer)) == OM_SUCCESS) {
        drop_routine(&timer);
    }
    return status;
}

BOOL WINAPI CancelWaitableTimer(HANDLE timer) {
    enter();
    return done(cancel_timer(number_of(timer)));
}

BOOL WINAPI SetWaitableTimer(HANDLE timer, const LARGE_INTEGER *due, LONG period, PTIMERAPCROUTINE code, LPVOID argument, BOOL resume) {
    (void)resume;
    enter();
    return done(due == NULL ? ERROR_NOACCESS : set_timer(number_of(timer), due->QuadPart, period, code, argument));
}

BOOL WINAPI SetWaitableTimerEx(HANDLE timer, const LARGE_INTEGER *due, LONG period, PTIMERAPCROUTINE code, LPVOID argument, void *context,
                               ULONG tolerance) {
    (void)context, (void)tolerance;
    return SetWaitableTimer(timer, due, period, code, argument, FALSE);
}
