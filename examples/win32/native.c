/* The calls of ntdll for what threads wait for. Most are what the call of kernel32 does, with another form of names, moments and refusals.
 * https://learn.microsoft.com/windows-hardware/drivers/ddi/ntifs/ */
#include "host.h"

#include <sched.h>

/* ---- Refusals ---- */

NTSTATUS native(uint32_t status) {
    switch (status) {
    case ERROR_PRIVILEGE_NOT_HELD: return STATUS_PRIVILEGE_NOT_HELD;
    case ERROR_NOT_SAME_OBJECT: return STATUS_NOT_SAME_OBJECT;
    default: return (NTSTATUS)om_nt_status(status);
    }
}

/* Ends a call that has to have a handle of one kind: where it is refused with 6 and there is such a handle, that is of another. */
static NTSTATUS ended(uint32_t status, HANDLE handle) {
    om_handle_info info;
    bool is_other = status == OM_ERROR_INVALID_HANDLE && query(handle, &info) == OM_SUCCESS;
    unlocked(status);
    return is_other ? STATUS_OBJECT_TYPE_MISMATCH : native(status);
}

/* Ends a call that tells the state before, where it isn't refused. */
static NTSTATUS ended_with(uint32_t status, HANDLE handle, PLONG previous, LONG before) {
    if (status == OM_SUCCESS && previous != NULL) {
        *previous = before;
    }
    return ended(status, handle);
}

/* What a call with a handle of the caller's tells as the state before. */
static LONG before_of(HANDLE handle) {
    return om_previous(&om, me->of->number, number_of(handle));
}

/* ---- Making and opening ---- */

/* The arguments of the kind are tested before the name. Without OBJ_OPENIF a name that is there is refused. */
NTSTATUS made_native(PHANDLE handle, ACCESS_MASK access, const OBJECT_ATTRIBUTES *attributes, body b, bool is_good) {
    ULONG flags = attributes != NULL ? attributes->Attributes : 0;
    om_opening made;
    name n;
    if (!is_there(handle, sizeof *handle)) {
        return STATUS_ACCESS_VIOLATION;
    }
    *handle = NULL;
    if (!is_good) {
        return STATUS_INVALID_PARAMETER;
    }
    enter();
    NTSTATUS refused = native_name(attributes, true, &n);
    if (refused != STATUS_SUCCESS) {
        unlocked(OM_SUCCESS);
        return refused;
    }
    om_handle_info there;
    if (n.is_given && (flags & OBJ_OPENIF) == 0 && om_find(&om, SESSION, n.bytes, n.length, &there) == OM_SUCCESS) {
        unlocked(OM_SUCCESS);
        return there.kind == b.kind ? STATUS_OBJECT_NAME_COLLISION : STATUS_OBJECT_TYPE_MISMATCH;
    }
    uint32_t status = make(&b, &n, access, (flags & OBJ_INHERIT) != 0, attributes != NULL ? attributes->SecurityDescriptor : NULL, &made);
    if (status == OM_SUCCESS || status == OM_ERROR_ALREADY_EXISTS) {
        *handle = (HANDLE)(uintptr_t)made.handle;
    }
    unlocked(status);
    return status == OM_ERROR_INVALID_HANDLE ? STATUS_OBJECT_TYPE_MISMATCH : native(status);
}

NTSTATUS opened_native(PHANDLE handle, ACCESS_MASK access, const OBJECT_ATTRIBUTES *attributes, uint32_t kind) {
    om_opening opened;
    name n;
    if (!is_there(handle, sizeof *handle)) {
        return STATUS_ACCESS_VIOLATION;
    }
    *handle = NULL;
    enter();
    NTSTATUS refused = native_name(attributes, false, &n);
    if (refused != STATUS_SUCCESS) {
        unlocked(OM_SUCCESS);
        return refused;
    }
    uint32_t status = open_named(kind, &n, access, (attributes->Attributes & OBJ_INHERIT) != 0, &opened);
    if (status == OM_SUCCESS) {
        *handle = (HANDLE)(uintptr_t)opened.handle;
    }
    unlocked(status);
    return status == OM_ERROR_INVALID_HANDLE ? STATUS_OBJECT_TYPE_MISMATCH : native(status);
}

/* ---- Queries: one class each, whose length has to be right ---- */

/* What state an object is in, and what it was created as. */
static NTSTATUS asked(HANDLE handle, uint32_t kind, ULONG what, size_t due, ULONG length, om_object_state *state, om_description *made) {
    om_handle_info info;
    if (what != 0 || length != due) {
        return what != 0 ? STATUS_INVALID_INFO_CLASS : STATUS_INFO_LENGTH_MISMATCH;
    }
    enter();
    tell_time();
    uint32_t status = query(handle, &info);
    if (status == OM_SUCCESS) {
        om_state(&om, info.object.slot, info.object.generation, state);
        om_card(&om, info.object.slot, info.object.generation, made);
    }
    unlocked(status);
    if (status != OM_SUCCESS) {
        return native(status);
    }
    return info.kind != kind ? STATUS_OBJECT_TYPE_MISMATCH : (info.access & EVENT_QUERY_STATE) == 0 ? STATUS_ACCESS_DENIED : STATUS_SUCCESS;
}

static NTSTATUS told_in_full(NTSTATUS status, size_t length, PULONG written) {
    if (status == STATUS_SUCCESS && written != NULL) {
        *written = (ULONG)length;
    }
    return status;
}

/* ---- Events ---- */

NTSTATUS NTAPI NtClearEvent(HANDLE event) { return NtResetEvent(event, NULL); }

NTSTATUS NTAPI NtCreateEvent(PHANDLE made, ACCESS_MASK access, const OBJECT_ATTRIBUTES *attributes, EVENT_TYPE type, BOOLEAN set) {
    body b = {.kind = OM_EVENT, .manual = type == NotificationEvent, .set = set};
    return made_native(made, access, attributes, b, type <= SynchronizationEvent);
}

NTSTATUS NTAPI NtOpenEvent(PHANDLE opened, ACCESS_MASK access, const OBJECT_ATTRIBUTES *attributes) {
    return opened_native(opened, access, attributes, OM_EVENT);
}

NTSTATUS NTAPI NtPulseEvent(HANDLE event, PLONG previous) {
    uint32_t by = enter();
    LONG before = before_of(event);
    return ended_with(om_pulse_event(&om, by, number_of(event)), event, previous, before);
}

NTSTATUS NTAPI NtQueryEvent(HANDLE event, ULONG what, PVOID told, ULONG length, PULONG written) {
    om_object_state state;
    om_description made;
    NTSTATUS status = asked(event, OM_EVENT, what, sizeof(EVENT_BASIC_INFORMATION), length, &state, &made);
    if (status == STATUS_SUCCESS) {
        *(EVENT_BASIC_INFORMATION *)told = (EVENT_BASIC_INFORMATION){made.manual ? NotificationEvent : SynchronizationEvent, state.signaled};
    }
    return told_in_full(status, length, written);
}

NTSTATUS NTAPI NtResetEvent(HANDLE event, PLONG previous) {
    uint32_t by = enter();
    LONG before = before_of(event);
    return ended_with(om_reset_event(&om, by, number_of(event)), event, previous, before);
}

NTSTATUS NTAPI NtSetEvent(HANDLE event, PLONG previous) {
    uint32_t by = enter();
    LONG before = before_of(event);
    return ended_with(om_set_event(&om, by, number_of(event)), event, previous, before);
}

/* ---- Mutants, whose count is 1 less how often they are owned ---- */

NTSTATUS NTAPI NtCreateMutant(PHANDLE made, ACCESS_MASK access, const OBJECT_ATTRIBUTES *attributes, BOOLEAN owned) {
    return made_native(made, access, attributes, (body){.kind = OM_MUTEX, .set = owned}, true);
}

NTSTATUS NTAPI NtOpenMutant(PHANDLE opened, ACCESS_MASK access, const OBJECT_ATTRIBUTES *attributes) {
    return opened_native(opened, access, attributes, OM_MUTEX);
}

NTSTATUS NTAPI NtQueryMutant(HANDLE mutant, ULONG what, PVOID told, ULONG length, PULONG written) {
    om_object_state state;
    om_description made;
    NTSTATUS status = asked(mutant, OM_MUTEX, what, sizeof(MUTANT_BASIC_INFORMATION), length, &state, &made);
    if (status == STATUS_SUCCESS) {
        *(MUTANT_BASIC_INFORMATION *)told = (MUTANT_BASIC_INFORMATION){1 - (LONG)state.count, state.owner == me->number, state.abandoned};
    }
    return told_in_full(status, length, written);
}

NTSTATUS NTAPI NtReleaseMutant(HANDLE mutant, PLONG previous) {
    uint32_t by = enter();
    LONG before = before_of(mutant);
    return ended_with(om_release_mutex(&om, by, number_of(mutant)), mutant, previous, before);
}

/* ---- Semaphores ---- */

NTSTATUS NTAPI NtCreateSemaphore(PHANDLE made, ACCESS_MASK access, const OBJECT_ATTRIBUTES *attributes, LONG initial, LONG most) {
    body b = {.kind = OM_SEMAPHORE, .initial = initial, .most = most};
    return made_native(made, access, attributes, b, most > 0 && initial >= 0 && initial <= most);
}

NTSTATUS NTAPI NtOpenSemaphore(PHANDLE opened, ACCESS_MASK access, const OBJECT_ATTRIBUTES *attributes) {
    return opened_native(opened, access, attributes, OM_SEMAPHORE);
}

NTSTATUS NTAPI NtQuerySemaphore(HANDLE semaphore, ULONG what, PVOID told, ULONG length, PULONG written) {
    om_object_state state;
    om_description made;
    NTSTATUS status = asked(semaphore, OM_SEMAPHORE, what, sizeof(SEMAPHORE_BASIC_INFORMATION), length, &state, &made);
    if (status == STATUS_SUCCESS) {
        *(SEMAPHORE_BASIC_INFORMATION *)told = (SEMAPHORE_BASIC_INFORMATION){state.count, state.max};
    }
    return told_in_full(status, length, written);
}

NTSTATUS NTAPI NtReleaseSemaphore(HANDLE semaphore, ULONG count, PULONG previous) {
    uint32_t before, status = om_release_semaphore(&om, enter(), number_of(semaphore), (int32_t)count, &before);
    return ended_with(status, semaphore, (PLONG)previous, (LONG)before);
}

/* ---- Timers ---- */

NTSTATUS NTAPI NtCancelTimer(HANDLE timer, PBOOLEAN previous) {
    enter();
    tell_time();
    LONG before = before_of(timer);
    uint32_t status = cancel_timer(number_of(timer));
    if (status == OM_SUCCESS && previous != NULL) {
        *previous = (BOOLEAN)before;
    }
    return ended(status, timer);
}

NTSTATUS NTAPI NtCreateTimer(PHANDLE made, ACCESS_MASK access, const OBJECT_ATTRIBUTES *attributes, TIMER_TYPE type) {
    return made_native(made, access, attributes, (body){.kind = OM_TIMER, .manual = type == NotificationTimer}, type <= SynchronizationTimer);
}

NTSTATUS NTAPI NtOpenTimer(PHANDLE opened, ACCESS_MASK access, const OBJECT_ATTRIBUTES *attributes) {
    return opened_native(opened, access, attributes, OM_TIMER);
}

NTSTATUS NTAPI NtQueryTimer(HANDLE timer, ULONG what, PVOID told, ULONG length, PULONG written) {
    om_object_state state;
    om_description made;
    NTSTATUS status = asked(timer, OM_TIMER, what, sizeof(TIMER_BASIC_INFORMATION), length, &state, &made);
    if (status == STATUS_SUCCESS) {
        TIMER_BASIC_INFORMATION *t = told;
        t->RemainingTime.QuadPart = state.has_due ? (LONGLONG)(state.due - now()) : 0;
        t->TimerState = state.signaled;
    }
    return told_in_full(status, length, written);
}

NTSTATUS NTAPI NtSetTimer(HANDLE timer, const LARGE_INTEGER *due, PTIMER_APC_ROUTINE routine, PVOID argument, BOOLEAN resume, LONG period,
                          PBOOLEAN previous) {
    (void)resume;
    enter();
    tell_time();
    LONG before = before_of(timer);
    uint32_t status = set_timer(number_of(timer), due->QuadPart, period, (PTIMERAPCROUTINE)routine, argument);
    if (status == OM_SUCCESS && previous != NULL) {
        *previous = (BOOLEAN)before;
    }
    return ended(status, timer);
}

/* ---- Waits, and procedure calls ---- */

/* Until when a wait lasts: a moment, or below 0 so many units from now. */
static int64_t due_at(const LARGE_INTEGER *until) {
    return until == NULL ? OM_FOREVER : until->QuadPart;
}

/* What a call answers that has waited: the code is a status. */
static NTSTATUS waited(uint32_t status, uint32_t code) {
    return status == OM_SUCCESS ? (NTSTATUS)code : native(status);
}

NTSTATUS NTAPI NtDelayExecution(BOOLEAN alertable, const LARGE_INTEGER *until) {
    return waited(OM_SUCCESS, sleep_for(due_at(until), alertable));
}

NTSTATUS NTAPI NtQuerySystemTime(PLARGE_INTEGER time) {
    FILETIME moment;
    GetSystemTimeAsFileTime(&moment);
    time->QuadPart = (LONGLONG)((uint64_t)moment.dwHighDateTime << 32 | moment.dwLowDateTime);
    return STATUS_SUCCESS;
}

NTSTATUS NTAPI NtQueueApcThread(HANDLE handle, PNTAPCFUNC routine, ULONG_PTR one, ULONG_PTR two, ULONG_PTR three) {
    thread *t;
    enter();
    uint32_t status = thread_by(handle, THREAD_SET_CONTEXT, &t);
    if (status != OM_SUCCESS) {
        return ended(status, handle);
    }
    bool has_ended = t->has_ended;
    if (routine != NULL) {
        queue_call(t, routine, one, two, three, NULL);
    }
    unlocked(OM_SUCCESS);
    return has_ended ? STATUS_UNSUCCESSFUL : STATUS_SUCCESS;
}

NTSTATUS NTAPI NtSignalAndWaitForSingleObject(HANDLE signal, HANDLE wait, BOOLEAN alertable, const LARGE_INTEGER *until) {
    uint32_t code = 0;
    uint32_t status = signal_and_wait(signal, wait, due_at(until), alertable, &code);
    return waited(status, code);
}

NTSTATUS NTAPI NtTestAlert(void) {
    enter();
    run_calls();
    unlocked(OM_SUCCESS);
    return STATUS_SUCCESS;
}

NTSTATUS NTAPI NtWaitForMultipleObjects(ULONG count, const HANDLE *handles, BOOLEAN any, BOOLEAN alertable, const LARGE_INTEGER *until) {
    uint32_t code = 0;
    uint32_t status = wait_for(handles, count, !any, due_at(until), alertable, &code);
    return waited(status, code);
}

NTSTATUS NTAPI NtWaitForSingleObject(HANDLE handle, BOOLEAN alertable, const LARGE_INTEGER *until) {
    uint32_t code = 0;
    uint32_t status = wait_for_one(handle, due_at(until), alertable, &code);
    return waited(status, code);
}

NTSTATUS NTAPI NtYieldExecution(void) {
    sched_yield();
    return STATUS_SUCCESS;
}
