/* Waits, procedure calls and sleep. https://learn.microsoft.com/windows/win32/sync/wait-functions */
#include "host.h"

#include <sched.h>
#include <stdlib.h>

/* ---- Procedure calls. https://learn.microsoft.com/windows/win32/sync/asynchronous-procedure-calls ---- */

/* A wait that is alertable ends for such a call. One that was answered already stays so. */
static void alert(thread *t) {
    uint32_t wait = t->is_alertable ? om_wait_of(&om, t->number) : 0;
    if (wait != 0) {
        om_alert(&om, wait);
    }
}

/* Queues a call for a thread, behind those that are; that of a timer only once. Without memory it is lost, as it is at a thread's end. */
void queue_call(thread *t, PNTAPCFUNC routine, ULONG_PTR one, ULONG_PTR two, ULONG_PTR three, const void *timer) {
    call **at = &t->calls, *c;
    for (; *at != NULL; at = &(*at)->next) {
        if (timer != NULL && (*at)->timer == timer) {
            return;
        }
    }
    if (!t->has_ended && (c = malloc(sizeof *c)) != NULL) {
        *c = (call){.routine = routine, .arguments = {one, two, three}, .timer = timer};
        *at = c;
        alert(t);
    }
}

/* Drops the call of a timer, or all calls. */
void drop_calls(thread *t, const void *timer) {
    for (call **at = &t->calls, *c; (c = *at) != NULL;) {
        if (timer == NULL || c->timer == timer) {
            *at = c->next;
            free(c);
        } else {
            at = &c->next;
        }
    }
}

/* ---- Waits: whole calls, which take the lock and give it back. They last until a moment as the library takes it. ---- */

/* What satisfies a wait at once goes before a call that is queued, and that before the moment. */
static int64_t until(int64_t due, bool alertable) {
    return alertable && me->calls != NULL ? 0 : due;
}

/* Ends a call that waits: 0 and the wait's code, or why it is refused. */
static uint32_t waited_for(uint32_t status, bool alertable, uint32_t *code) {
    if (status == OM_ERROR_IO_PENDING) {
        me->is_alertable = alertable;
        *code = sleep_until_answered();
        if (!alertable) {
            return OM_SUCCESS;
        }
        enter();
        status = OM_SUCCESS;
    }
    if (status == OM_SUCCESS && alertable && me->calls != NULL && (*code == WAIT_TIMEOUT || *code == WAIT_IO_COMPLETION)) {
        *code = WAIT_IO_COMPLETION;
        run_calls();
    }
    return answered(status);
}

/* How a wait is answered at first. Where nothing is due the time counts only for one that nothing satisfies at once. */
static uint32_t begun(bool all, int64_t due, const uint32_t *numbers, size_t count, uint32_t *code) {
    if (is_nothing_due()) {
        bool has_time = due != 0 && due != OM_FOREVER;
        uint32_t status = om_wait_until(&om, me->number, all, has_time ? 0 : due, numbers, count, code);
        if (!has_time || status != OM_SUCCESS || *code != WAIT_TIMEOUT) {
            return status;
        }
    }
    tell_time();
    return om_wait_until(&om, me->number, all, due, numbers, count, code);
}

/* One handle may be what stands for the caller itself: it waits by a handle of its own for that. */
static uint32_t wait_behind(const HANDLE *signal, HANDLE handle, int64_t due, bool alertable, uint32_t *code) {
    uint32_t by = enter(), number = number_of(handle), status = OM_SUCCESS;
    bool is_own = number == 0 && (handle == GetCurrentProcess() || handle == GetCurrentThread());
    if (is_own) {
        status = given(handle == GetCurrentProcess() ? &me->of->own : &me->own, me->of, SYNCHRONIZE, false, &handle);
        number = number_of(handle);
    }
    if (status != OM_SUCCESS) {
        return unlocked(status);
    }
    due = until(due, alertable);
    if (signal == NULL) {
        status = begun(false, due, &number, 1, code);
    } else {
        tell_time();
        status = om_signal_and_wait(&om, by, number_of(*signal), number, due, code);
    }
    status = waited_for(status, alertable, code);
    if (is_own) {
        unlocked(om_close(&om, enter(), number));
    }
    return status;
}

uint32_t wait_for_one(HANDLE handle, int64_t due, bool alertable, uint32_t *code) {
    return wait_behind(NULL, handle, due, alertable, code);
}

uint32_t signal_and_wait(HANDLE signal, HANDLE handle, int64_t due, bool alertable, uint32_t *code) {
    return wait_behind(&signal, handle, due, alertable, code);
}

uint32_t wait_for(const HANDLE *handles, DWORD count, bool all, int64_t due, bool alertable, uint32_t *code) {
    uint32_t numbers[MAXIMUM_WAIT_OBJECTS];
    if (count > MAXIMUM_WAIT_OBJECTS) {
        return OM_ERROR_INVALID_PARAMETER;
    }
    for (DWORD i = 0; i < count; i++) {
        numbers[i] = number_of(handles[i]);
    }
    enter();
    return waited_for(begun(all, until(due, alertable), numbers, count, code), alertable, code);
}

/* 0 when the moment has come, or WAIT_IO_COMPLETION. */
uint32_t sleep_for(int64_t due, bool alertable) {
    uint32_t code = WAIT_TIMEOUT;
    enter();
    tell_time();
    waited_for(om_sleep(&om, me->number, until(due, alertable), &code), alertable, &code);
    return code == WAIT_TIMEOUT ? 0 : code;
}

/* What a call says that has waited. */
static DWORD waited(uint32_t status, uint32_t code) {
    return succeeded(status) ? code : WAIT_FAILED;
}

static void NTAPI call_user(ULONG_PTR routine, ULONG_PTR argument, ULONG_PTR unused) {
    (void)unused;
    ((PAPCFUNC)routine)(argument);
}

DWORD WINAPI QueueUserAPC(PAPCFUNC routine, HANDLE handle, ULONG_PTR argument) {
    thread *t;
    enter();
    uint32_t status = thread_by(handle, THREAD_SET_CONTEXT, &t);
    if (status == OM_SUCCESS && t->has_ended) {
        status = ERROR_GEN_FAILURE;
    }
    if (status == OM_SUCCESS) {
        queue_call(t, call_user, (ULONG_PTR)routine, argument, 0, NULL);
    }
    return (DWORD)done(status);
}

DWORD WINAPI SignalObjectAndWait(HANDLE signal, HANDLE wait, DWORD milliseconds, BOOL alertable) {
    uint32_t code = 0;
    uint32_t status = signal_and_wait(signal, wait, om_due_in(milliseconds), alertable, &code);
    return waited(status, code);
}

void WINAPI Sleep(DWORD milliseconds) { SleepEx(milliseconds, FALSE); }

DWORD WINAPI SleepEx(DWORD milliseconds, BOOL alertable) {
    uint32_t code = sleep_for(om_due_in(milliseconds), alertable);
    if (milliseconds == 0) {
        sched_yield();
    }
    return code;
}

DWORD WINAPI WaitForMultipleObjects(DWORD count, const HANDLE *handles, BOOL all, DWORD milliseconds) {
    return WaitForMultipleObjectsEx(count, handles, all, milliseconds, FALSE);
}

DWORD WINAPI WaitForMultipleObjectsEx(DWORD count, const HANDLE *handles, BOOL all, DWORD milliseconds, BOOL alertable) {
    uint32_t code = 0;
    uint32_t status = wait_for(handles, count, all, om_due_in(milliseconds), alertable, &code);
    return waited(status, code);
}

DWORD WINAPI WaitForSingleObject(HANDLE handle, DWORD milliseconds) { return WaitForSingleObjectEx(handle, milliseconds, FALSE); }

DWORD WINAPI WaitForSingleObjectEx(HANDLE handle, DWORD milliseconds, BOOL alertable) {
    uint32_t code = 0;
    uint32_t status = wait_for_one(handle, om_due_in(milliseconds), alertable, &code);
    return waited(status, code);
}
