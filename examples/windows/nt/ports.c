/* Completion ports (Learn: "I/O Completion Ports"). How many threads of one may run at a time isn't kept. */
#include "nt.h"

#include <stdlib.h>

uint64_t queued; /* packets and I/O, of all guests */

/* An object of the host's own is signaled, or not, unless it has ended. */
void set_signal(const kept *k, bool signaled) {
    om_signal_host(&om, k->object.slot, k->object.generation, signaled);
}

/* ---- Packets ---- */

/* A port's first packet goes where a call wants it. */
static void take_packet(kept *port, uint64_t key, uint64_t value, uint64_t status) {
    packet *first = port->packets;
    put_if(key, first->key);
    put_if(value, first->value);
    put_if(status, first->status);
    put_if(status + 8, first->count);
    port->packets = first->next;
    free(first);
    queued--;
    set_signal(port, port->packets != NULL);
}

/* The thread that began last to wait for a packet of a port, or NULL. */
static thread *last_waiter(const kept *port) {
    thread *last = NULL;
    for (thread *t = threads; t < threads + threads_end; t++) {
        bool waits = (t->waits == FOR_PACKET || t->waits == FOR_PACKETS) && t->key == port->object.slot + (uint64_t)1;
        last = waits && (last == NULL || t->began > last->began) ? t : last;
    }
    return last;
}

/* Ends the wait of one, unless its time has just been up. */
static bool wake_waiter(thread *t, uint32_t status) {
    bool is_woken = wake(t, status);
    t->waits = WAKES;
    return is_woken;
}

/* Leaves a packet at a port, for the thread that began last to wait there, if one does. */
static void leave_packet(kept *port, uint64_t key, uint64_t value, uint32_t status, uint64_t count) {
    packet *made = calloc(1, sizeof *made);
    if (made == NULL) {
        stop("no memory");
    }
    *made = (packet){.key = key, .value = value, .status = status, .count = count};
    *(port->packets == NULL ? &port->packets : &port->last_packet->next) = made;
    port->last_packet = made;
    queued++;
    for (thread *t; (t = last_waiter(port)) != NULL;) {
        const uint64_t *r = t->now.whole; /* the arguments of its call */
        bool is_one = t->waits == FOR_PACKET;
        if (wake_waiter(t, STATUS_SUCCESS)) {
            process *before = in;
            in = t->of;
            take_packet(port, r[RDX], is_one ? r[R8] : r[RDX] + 8, is_one ? r[R9] : r[RDX] + 16);
            in = before;
            return;
        }
    }
    set_signal(port, true);
}

uint32_t NtCreateIoCompletion(void) {
    kept *port;
    uint32_t status = new_named(A_PORT, "", (uint32_t)arg(1), arg(2), arg(0), &port);
    if (port != NULL) {
        set_signal(port, false);
    }
    return status;
}

static uint32_t open_port(om_manager *m, uint32_t by, uint32_t access, bool inherit, const char *name, size_t length, om_opening *opening) {
    return om_open_host(m, by, A_PORT, access, inherit, name, length, opening);
}

uint32_t NtOpenIoCompletion(void) {
    return open_named(open_port, OM_HOST(A_PORT));
}

/* NtSetIoCompletion (PORT, KEY, VALUE, STATUS, COUNT) */
uint32_t NtSetIoCompletion(void) {
    kept *port;
    uint64_t count = arg(4);
    uint32_t status = named(arg(0), A_PORT, 0x2, &port); /* IO_COMPLETION_MODIFY_STATE */
    if (status == STATUS_SUCCESS && queued >= QUEUED_MOST) {
        return STATUS_INSUFFICIENT_RESOURCES;
    }
    if (status == STATUS_SUCCESS) {
        leave_packet(port, arg(1), arg(2), (uint32_t)arg(3), count);
    }
    return status;
}

static uint32_t wait_for_packet(const kept *port, waiting as, bool alertable, int64_t due) {
    if (has_apc(alertable)) {
        return STATUS_USER_APC;
    }
    current->key = port->object.slot + (uint64_t)1;
    current->began = calls_count;
    return sleep_for(as, due, alertable);
}

/* NtRemoveIoCompletion (PORT, &KEY, &VALUE, &IO, &DUE) */
uint32_t NtRemoveIoCompletion(void) {
    kept *port;
    int64_t due = until(arg(4));
    uint32_t status = named(arg(0), A_PORT, 0x2, &port);
    bytes_at(arg(1), 8), bytes_at(arg(2), 8), bytes_at(arg(3), 16);
    if (status != STATUS_SUCCESS || port->packets == NULL) {
        return status != STATUS_SUCCESS ? status : wait_for_packet(port, FOR_PACKET, false, due);
    }
    take_packet(port, arg(1), arg(2), arg(3));
    return STATUS_SUCCESS;
}

/* NtRemoveIoCompletionEx (PORT, PACKETS, MOST, &COUNT, &DUE, ALERTABLE): each packet has 32 bytes. */
uint32_t NtRemoveIoCompletionEx(void) {
    kept *port;
    int64_t due = until(arg(4));
    uint32_t most = (uint32_t)arg(2), count = 0, status = named(arg(0), A_PORT, 0x2, &port);
    bool alertable = (uint8_t)arg(5) != 0;
    if (status != STATUS_SUCCESS || most == 0) {
        return status != STATUS_SUCCESS ? status : STATUS_INVALID_PARAMETER;
    }
    bytes_at(arg(1), 32 * (uint64_t)most), bytes_at(arg(3), 4);
    for (; count < most && port->packets != NULL; count++) {
        uint64_t to = arg(1) + 32 * (uint64_t)count;
        take_packet(port, to, to + 8, to + 16);
    }
    put(arg(3), count == 0 ? 1 : count, 4); /* the thread that waits gets one */
    return count > 0 ? STATUS_SUCCESS : wait_for_packet(port, FOR_PACKETS, alertable, due);
}

/* NtQueryIoCompletion (PORT, CLASS, TO, SIZE, &COUNT): how many packets there are. */
uint32_t NtQueryIoCompletion(void) {
    kept *port;
    uint32_t count = 0, status = named(arg(0), A_PORT, 0x1, &port); /* IO_COMPLETION_QUERY_STATE */
    if (status != STATUS_SUCCESS || (uint32_t)arg(1) != 0 || (uint32_t)arg(3) != 4) {
        return status != STATUS_SUCCESS ? status : (uint32_t)arg(1) != 0 ? STATUS_INVALID_INFO_CLASS : STATUS_INFO_LENGTH_MISMATCH;
    }
    for (const packet *one = port->packets; one != NULL; one = one->next) {
        count++;
    }
    put(arg(2), count, 4);
    put(arg(4), 4, 4);
    return STATUS_SUCCESS;
}

/* A port ends, whose waits end with it, or a file that has one. */
void end_port(kept *k) {
    for (thread *t; (t = last_waiter(k)) != NULL;) {
        wake_waiter(t, STATUS_ABANDONED);
    }
    while (k->packets != NULL) {
        packet *first = k->packets;
        k->packets = first->next;
        free(first);
        queued--;
    }
    if (k->port.handle != 0) {
        give_back(k->port.handle);
    }
}

/* ---- Files and their ports ---- */

uint32_t borrowed;

/* A handle of the host's to what a guest's handle names. */
uint32_t borrow(uint64_t handle, om_opening *made) {
    if (borrowed >= BORROWED_MOST) {
        return STATUS_INSUFFICIENT_RESOURCES;
    }
    uint32_t same = OM_DUPLICATE_SAME_ACCESS;
    uint32_t error = om_duplicate(&om, host.thread, in->member.process, handle_of(handle), host.process, 0, false, same, made);
    borrowed += error == OM_SUCCESS;
    return om_nt_status(error);
}

void give_back(uint32_t handle) {
    must(om_close(&om, host.thread, handle), "a handle for I/O");
    borrowed--;
}

/* FILE_COMPLETION_INFORMATION: a port, and its key. A file has one for good, and only one of overlapped I/O has one (Learn: CreateIoCompletionPort). */
uint32_t set_port(kept *k, uint64_t from) {
    uint64_t handle = get(from, 8), key = get(from + 8, 8);
    uint32_t status = named(handle, A_PORT, 0x2, NULL);
    if (status != STATUS_SUCCESS || !k->is_overlapped || k->port.handle != 0) {
        return status != STATUS_SUCCESS ? status : STATUS_INVALID_PARAMETER;
    }
    k->key = key;
    return borrow(handle, &k->port);
}

/* Tells a file's port, if it has one, of an I/O that has ended, with its value, unless that is 0 or its call has a routine. */
void post(const kept *k, uint64_t routine, uint64_t value, uint32_t status, uint64_t count) {
    if (k->port.handle != 0 && routine == 0 && value != 0) {
        leave_packet(kept_at(om_object_data(&om, k->port.object.slot, k->port.object.generation)), k->key, value, status, count);
    }
}
