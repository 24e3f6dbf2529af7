/* Threads and processes: how guests begin, name, suspend and end them. */
#include "nt.h"

#include <stdlib.h>
#include <string.h>

/* What is kept at the caller's own thread or process, which the host has a handle to. */
static uint32_t kept_own(const om_opening *own, kept **found) {
    om_handle_info info = {0};
    uint32_t status = om_query_handle(&om, host.process, own->handle, &info);
    *found = kept_at(info.data);
    return om_nt_status(status);
}

/* What is kept at a thread that a handle names with a right, and the thread where it lives, else NULL. */
uint32_t thread_by(uint64_t handle, uint32_t right, kept **k, thread **t) {
    kept *found;
    uint32_t status = handle == THIS_THREAD ? kept_own(&current->own, &found) : named(handle, A_THREAD, right, &found);
    if (status == STATUS_SUCCESS) {
        *t = found->has_ended ? NULL : thread_numbered(found->number);
        if (k != NULL) {
            *k = found;
        }
    }
    return status;
}

/* The same of a process, which is to live, unless what is kept is asked for. */
uint32_t process_by(uint64_t handle, uint32_t right, kept **k, process **p) {
    kept *found;
    uint32_t status = handle == THIS_PROCESS ? kept_own(&in->own, &found) : named(handle, A_PROCESS, right, &found);
    if (status != STATUS_SUCCESS) {
        return status;
    }
    *p = found->has_ended ? NULL : process_numbered(found->number);
    if (k != NULL) {
        *k = found;
    }
    return *p == NULL && k == NULL ? STATUS_PROCESS_IS_TERMINATING : STATUS_SUCCESS;
}

/* ---- Begin ---- */

/* NtCreateThreadEx (&MADE, ACCESS, ATTRIBUTES, PROCESS, ENTRY, WITH, FLAGS, ZERO BITS, COMMIT, RESERVE, LIST) */
uint32_t NtCreateThreadEx(void) {
    enum { SUSPENDED = 1 };
    uint64_t list = arg(10), entry = arg(4), with = arg(5), commit = arg(8), reserve = arg(9), client, block;
    uint32_t number, access = rights_of(OM_HOST(A_THREAD), (uint32_t)arg(1));
    process *of;
    uint32_t status = process_by(arg(3), 0x2, NULL, &of); /* PROCESS_CREATE_THREAD */
    if (status != STATUS_SUCCESS) {
        return status;
    }
    bytes_at(arg(0), 8);
    uint32_t error = om_thread(&om, of->member.process, &number);
    if (error != OM_SUCCESS) {
        return om_nt_status(error);
    }
    in = of;
    thread *t = begin_thread(number, entry, with, reserve, commit);
    in = current->of;
    if (t == NULL) {
        om_end_thread(&om, number);
        return STATUS_NO_MEMORY;
    }
    t->suspended = arg(6) & SUSPENDED ? 1 : 0;
    if ((client = attribute_of(list, LIST_CLIENT_ID, NULL)) != 0) {
        put(client, THREAD_NUMBER * (uint64_t)of->member.process, 8);
        put(client + 8, THREAD_NUMBER * (uint64_t)number, 8);
    }
    if ((block = attribute_of(list, LIST_TEB, NULL)) != 0) {
        put(block, t->block, 8);
    }
    return answer_handle(arg(0), given(&t->own, access, inherits(arg(2))));
}

/* A handle to a thread or process by the guest's number of it. */
static uint32_t open_numbered(const om_opening *own, type is) {
    uint32_t access = rights_of(OM_HOST(is), (uint32_t)arg(1));
    return own == NULL ? STATUS_INVALID_CID : answer_handle(arg(0), given(own, access, inherits(arg(2))));
}

/* A number of a guest's as the library's, or 0. */
static uint32_t number_of(uint64_t number) {
    return number / THREAD_NUMBER <= UINT16_MAX ? (uint32_t)(number / THREAD_NUMBER) : 0;
}

uint32_t NtOpenThread(void) {
    thread *t = thread_numbered(number_of(get(arg(3) + 8, 8)));
    return open_numbered(t == NULL ? NULL : &t->own, A_THREAD);
}

uint32_t NtOpenProcess(void) {
    process *p = process_numbered(number_of(get(arg(3), 8)));
    return open_numbered(p == NULL ? NULL : &p->own, A_PROCESS);
}

/* ---- End ---- */

/* Signals what stands for a thread or process, which ends. */
static void over(const om_opening *own, uint32_t code, int32_t priority) {
    kept *k = kept_at(om_object_data(&om, own->object.slot, own->object.generation));
    k->has_ended = true;
    k->code = code;
    k->priority = priority;
    set_signal(k, true);
    must(om_close(&om, host.thread, own->handle), "an end");
}

/* What the host has of a thread goes, but not the library's thread. */
static void drop(thread *t, uint32_t code) {
    process *before = in;
    in = t->of;
    region *r = region_at(t->stack);
    if (r != NULL && r->address == t->stack) {
        unmap(r);
    }
    if ((r = region_at(t->block)) != NULL) {
        unmap(r);
    }
    while (t->apcs != NULL) {
        apc *first = t->apcs;
        t->apcs = first->next;
        free(first);
    }
    if (in->loaded == t) {
        in->loaded = NULL;
    }
    drop_routines(t->number);
    end_ios(in->member.process, t->number);
    om_opening own = t->own;
    int32_t priority = t->priority;
    memset(t, 0, sizeof *t);
    over(&own, code, priority);
    in = before;
}

uint32_t exit_code;
bool has_first_ended;

static uint32_t live_threads(const process *p) {
    uint32_t count = 0;
    for (const thread *t = threads; t < threads + threads_end; t++) {
        count += t->number != 0 && t->of == p;
    }
    return count;
}

/* A thread ends, and with the last one its process. */
void end_thread(thread *t, uint32_t code) {
    if (live_threads(t->of) == 1) {
        end_process(t->of, code);
        return;
    }
    must(om_end_thread(&om, t->number), "the end of a thread");
    t->waits = RUNS;
    drop(t, code);
}

void end_process(process *p, uint32_t code) {
    must(om_exit(&om, p->member.process), "the end of a process");
    for (thread *t = threads; t < threads + threads_end; t++) {
        t->waits = t->of == p ? RUNS : t->waits; /* no wait of theirs is left */
    }
    for (thread *t = threads; t < threads + threads_end; t++) {
        if (t->number != 0 && t->of == p) {
            drop(t, code);
        }
    }
    end_ios(p->member.process, 0);
    over(&p->own, code, 0);
    end_memory(p);
    if (p == processes && !has_first_ended) {
        has_first_ended = true;
        exit_code = code;
    }
    memset(p, 0, sizeof *p);
}

/* The host ends: what is left goes. */
void end_all(void) {
    for (process *p = processes; p < processes + PROCESSES; p++) {
        if (p->member.process != 0) {
            end_process(p, 0);
        }
    }
    look_round();
    om_free(om);
}

uint32_t NtTerminateThread(void) {
    thread *t = current;
    uint32_t status = arg(0) == 0 ? STATUS_SUCCESS : thread_by(arg(0), 0x1, NULL, &t); /* THREAD_TERMINATE */
    if (status != STATUS_SUCCESS || t == NULL) {
        return status;
    }
    has_set_registers = t == current;
    end_thread(t, (uint32_t)arg(1));
    return STATUS_SUCCESS;
}

/* Without a process all other threads of the caller's end, as ExitProcess begins. */
uint32_t NtTerminateProcess(void) {
    process *p;
    uint32_t code = (uint32_t)arg(1);
    if (arg(0) == 0) {
        for (thread *t = threads; t < threads + threads_end; t++) {
            if (t->number != 0 && t != current && t->of == in) {
                end_thread(t, code);
            }
        }
        return STATUS_SUCCESS;
    }
    uint32_t status = process_by(arg(0), 0x1, NULL, &p); /* PROCESS_TERMINATE */
    if (status == STATUS_SUCCESS) {
        has_set_registers = p == in;
        end_process(p, code);
    }
    return status;
}

/* ---- Suspend ---- */

uint32_t NtSuspendThread(void) {
    enum { SUSPENDED_MOST = 127 };
    thread *t;
    uint32_t status = thread_by(arg(0), 0x2, NULL, &t); /* THREAD_SUSPEND_RESUME */
    if (status != STATUS_SUCCESS || t == NULL) {
        return status != STATUS_SUCCESS ? status : STATUS_THREAD_IS_TERMINATING;
    }
    if (t->suspended == SUSPENDED_MOST) {
        return STATUS_SUSPEND_COUNT_EXCEEDED;
    }
    put(arg(1), t->suspended++, 4);
    ends_turn = ends_turn || t == current;
    return STATUS_SUCCESS;
}

uint32_t NtResumeThread(void) {
    thread *t;
    uint32_t status = thread_by(arg(0), 0x2, NULL, &t);
    if (status == STATUS_SUCCESS) {
        put(arg(1), t == NULL ? 0 : t->suspended, 4);
        if (t != NULL && t->suspended > 0) {
            t->suspended--;
        }
    }
    return status;
}

uint32_t NtAlertResumeThread(void) {
    return NtResumeThread();
}
