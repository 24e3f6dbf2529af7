/* Waits. Each has its moment in the library: those for objects, and those for what the library doesn't know, which sleep there until the host alerts them. */
#include "nt.h"

#include <string.h>

/* ---- How they begin and end ---- */

/* Until when a call waits that is passed a pointer to a moment: since 1601, or below 0 from now; for good without one. */
int64_t until(uint64_t pointer) {
    return pointer == 0 ? OM_FOREVER : (int64_t)get(pointer, 8);
}

/* Whether an alertable wait isn't begun, since an APC is there: that runs first. */
bool has_apc(bool alertable) {
    current->has_apc = alertable && current->apcs != NULL;
    return current->has_apc;
}

/* What a wait that began answers, whose code is the same number as NT's status; where it is pending that is said when it ends. */
static uint32_t begun(uint32_t error, uint32_t code, waiting waits, bool alertable) {
    if (error == OM_ERROR_IO_PENDING) {
        current->waits = waits;
        current->alertable = alertable;
        return STATUS_PENDING;
    }
    ends_turn = ends_turn || (error == OM_SUCCESS && code == OM_WAIT_TIMEOUT); /* so that what it polls for can come */
    return error == OM_SUCCESS ? code : status_of(error, 0);
}

/* A wait of the library's for nothing, which the host or its moment ends. */
uint32_t sleep_for(waiting waits, int64_t due, bool alertable) {
    uint32_t code;
    tell_time();
    uint32_t error = om_sleep(&om, current->number, due, &code);
    return begun(error, code, waits, alertable);
}

/* The host ends a thread's wait, unless that has just ended otherwise. */
bool wake(thread *t, uint32_t status) {
    bool is_pending = om_alert(&om, t->number) == OM_SUCCESS;
    if (is_pending) {
        t->waits = WAKES;
        t->outcome = status;
    }
    return is_pending;
}

/* A thread's wait has ended. */
void answered(thread *t, uint32_t code) {
    if (t == NULL) {
        stop("an answer for no thread");
    }
    bool is_over = code == OM_WAIT_TIMEOUT && t->waits == FOR_TIME;
    uint32_t status = code == OM_WAIT_IO_COMPLETION ? t->outcome : is_over ? STATUS_SUCCESS : code;
    t->waits = RUNS;
    t->alertable = false;
    t->now.whole[RAX] = status;
    if (status == STATUS_USER_APC && t->apcs != NULL) {
        run_apc(t, status);
    }
}

/* ---- Objects ---- */

/* A handle for a wait: one that stands for the caller or its process names none, so the wait has one of its own, which is to be closed. */
static uint32_t waitable(uint64_t handle, bool *is_own) {
    *is_own = handle == THIS_THREAD || handle == THIS_PROCESS;
    return *is_own ? handle_of(given(handle == THIS_THREAD ? &current->own : &in->own, OM_SYNCHRONIZE, false)) : handle_of(handle);
}

/* A wait keeps its object without the handle. The host closes it, since a thread that waits can't. */
static void close_own(uint32_t handle) {
    om_opening none;
    om_duplicate(&om, host.thread, in->member.process, handle, 0, 0, false, OM_DUPLICATE_CLOSE_SOURCE, &none);
}

static uint32_t wait_for(const uint32_t *handles, size_t count, bool all, bool alertable, int64_t due) {
    uint32_t code;
    if (has_apc(alertable)) {
        return STATUS_USER_APC;
    }
    tell_time();
    uint32_t error = om_wait_until(&om, current->number, all, due, handles, count, &code);
    return begun(error, code, FOR_OBJECTS, alertable);
}

static uint32_t wait_for_one(uint64_t object, bool alertable, int64_t due) {
    bool is_own;
    uint32_t handle = waitable(object, &is_own);
    uint32_t status = wait_for(&handle, 1, false, alertable, due);
    if (is_own) {
        close_own(handle);
    }
    return status;
}

uint32_t NtWaitForSingleObject(void) {
    int64_t due = until(arg(2));
    return wait_for_one(arg(0), (uint8_t)arg(1) != 0, due);
}

uint32_t NtWaitForMultipleObjects(void) {
    uint32_t handles[OM_MAXIMUM_WAIT_OBJECTS], count = (uint32_t)arg(0);
    bool any = (uint8_t)arg(2) != 0, alertable = (uint8_t)arg(3) != 0;
    int64_t due = until(arg(4));
    if (count == 0 || count > OM_MAXIMUM_WAIT_OBJECTS) {
        return STATUS_INVALID_PARAMETER_1;
    }
    if (count == 1) {
        return wait_for_one(get(arg(1), 8), alertable, due); /* which is how Wine's kernelbase waits for one */
    }
    for (uint32_t i = 0; i < count; i++) {
        handles[i] = handle_of(get(arg(1) + 8 * i, 8));
    }
    return wait_for(handles, count, !any, alertable, due);
}

uint32_t NtSignalAndWaitForSingleObject(void) {
    bool is_own, alertable = (uint8_t)arg(2) != 0;
    uint32_t code, signal = handle_of(arg(0));
    int64_t due = until(arg(3));
    if (alertable && current->apcs != NULL) {
        due = 0; /* the signal is given, and the APC ends the wait */
    }
    uint32_t handle = waitable(arg(1), &is_own);
    tell_time();
    uint32_t error = om_signal_and_wait(&om, current->number, signal, handle, due, &code);
    om_handle_info info;
    bool is_there = om_query_handle(&om, in->member.process, handle, &info) == OM_SUCCESS;
    uint32_t status = error == OM_ERROR_INVALID_HANDLE ? status_of(error, is_there ? signal : 0) : begun(error, code, FOR_OBJECTS, alertable);
    if (status == STATUS_TIMEOUT && has_apc(alertable)) {
        status = STATUS_USER_APC;
    }
    if (is_own) {
        close_own(handle);
    }
    return status;
}

/* ---- Moments and alerts ---- */

uint32_t NtDelayExecution(void) {
    bool alertable = (uint8_t)arg(0) != 0;
    int64_t due = until(arg(1));
    ends_turn = true;
    if (has_apc(alertable)) {
        return STATUS_USER_APC;
    }
    uint32_t status = sleep_for(FOR_TIME, due, alertable);
    return status == STATUS_TIMEOUT ? STATUS_SUCCESS : status;
}

uint32_t NtYieldExecution(void) {
    ends_turn = true;
    return STATUS_SUCCESS;
}

uint32_t NtWaitForAlertByThreadId(void) {
    int64_t due = until(arg(1));
    if (current->alerted) {
        current->alerted = false;
        return STATUS_ALERTED;
    }
    current->key = arg(0);
    return sleep_for(FOR_ALERT, due, false);
}

uint32_t NtAlertThreadByThreadId(void) {
    thread *t = arg(0) % THREAD_NUMBER == 0 && arg(0) / THREAD_NUMBER <= THREADS + 1 ? thread_numbered((uint32_t)(arg(0) / THREAD_NUMBER)) : NULL;
    if (t == NULL || t->of != in) {
        return STATUS_INVALID_CID;
    }
    if (t->waits != FOR_ALERT || !wake(t, STATUS_ALERTED)) {
        t->alerted = true;
    }
    return STATUS_SUCCESS;
}

/* ---- Keyed events: each wait meets a release of the same key in the same process, and the one that came first waits for the other (Learn has no page of
 * them) ---- */

uint32_t NtCreateKeyedEvent(void) {
    kept *k;
    return new_named(A_KEYED_EVENT, "", (uint32_t)arg(1), arg(2), arg(0), &k);
}

static uint32_t meet(waiting mine, waiting other) {
    int64_t due = until(arg(3));
    uint32_t status = arg(1) % 2 != 0 ? STATUS_INVALID_PARAMETER_1
                      : arg(0) == 0   ? STATUS_SUCCESS
                                      : named(arg(0), A_KEYED_EVENT, mine == FOR_RELEASE ? 1 : 2, NULL);
    if (status != STATUS_SUCCESS) {
        return status;
    }
    for (thread *t = threads; t < threads + threads_end; t++) {
        if (t->number != 0 && t->waits == other && t->of == in && t->key == arg(1) && wake(t, STATUS_SUCCESS)) {
            return STATUS_SUCCESS;
        }
    }
    current->key = arg(1);
    return sleep_for(mine, due, false);
}

static uint32_t open_keyed(om_manager *m, uint32_t by, uint32_t access, bool inherit, const char *name, size_t length, om_opening *opening) {
    return om_open_host(m, by, A_KEYED_EVENT, access, inherit, name, length, opening);
}

uint32_t NtOpenKeyedEvent(void) {
    return open_named(open_keyed, OM_HOST(A_KEYED_EVENT));
}

uint32_t NtWaitForKeyedEvent(void) {
    return meet(FOR_RELEASE, FOR_WAITER);
}

uint32_t NtReleaseKeyedEvent(void) {
    return meet(FOR_WAITER, FOR_RELEASE);
}
