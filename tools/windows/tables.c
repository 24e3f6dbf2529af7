#include "tables.h"

struct tables all;

process *process_of(uint32_t number) { return number - 1 < all.processes_given ? &all.processes[number - 1] : NULL; }

thread *thread_of(uint32_t number) { return number - 1 < all.threads_given ? &all.threads[number - 1] : NULL; }

process *home_of(const thread *of) { return &all.processes[of->process - 1]; }

thread *caller(uint32_t number) {
    thread *of = thread_of(number);

    return of && of->is_live && of->wait == 0 ? of : NULL;
}

entry *entry_of(process *of, uint32_t handle) {
    uint32_t at = handle / 4 - 1;

    return handle >= 4 && at < ENTRIES && of->entries[at].is_used ? &of->entries[at] : NULL;
}

HANDLE real_of(process *of, uint32_t handle) {
    entry *found = of ? entry_of(of, handle) : NULL;
    uintptr_t value = found ? (uintptr_t)found->real : handle < 4 ? 0 : NOWHERE;

    return (HANDLE)(value | (handle & 3));
}

uint32_t place(process *in, HANDLE real, uint32_t slot) {
    uint32_t at = 0;

    while (at < ENTRIES && in->entries[at].is_used)
        at++;
    if (at == ENTRIES)
        stop("too many handles");
    in->entries[at] = (entry){real, slot, true};
    if (slot != UNKNOWN)
        all.objects[slot].handles++;
    return 4 * at + 4;
}

void displace(entry *of) {
    if (of->is_used && of->slot != UNKNOWN)
        all.objects[of->slot].handles--;
    of->is_used = false;
}

uint32_t slot_named(uint64_t path) {
    uint32_t at;

    for (at = 0; at < SLOTS; at++)
        if (path != 0 && all.objects[at].is_there && all.objects[at].path == path)
            return at;
    return UNKNOWN;
}

static void forget_name(uint64_t path) {
    uint32_t at = slot_named(path);

    if (at != UNKNOWN)
        all.objects[at].path = 0;
}

uint32_t new_slot(uint64_t path) {
    uint32_t at = 0;

    forget_name(path);
    while (at < SLOTS && all.objects[at].is_there)
        at++;
    if (at == SLOTS)
        stop("too many objects");
    all.objects[at].is_there = true;
    all.objects[at].is_due = false;
    all.objects[at].is_host = false;
    all.objects[at].generation++;
    all.objects[at].path = path;
    return at;
}

uint32_t waits_for(uint32_t slot) {
    uint32_t of, at, places = 0;

    for (of = 0; of < all.threads_given; of++)
        for (at = 0; all.threads[of].is_pending && at < all.threads[of].count; at++)
            places += all.threads[of].slots[at] == slot;
    return places;
}

process *holder_of(uint32_t slot, HANDLE *real) {
    uint32_t of, at;

    for (of = 0; of < all.processes_given; of++)
        for (at = 0; all.processes[of].is_live && at < ENTRIES; at++)
            if (all.processes[of].entries[at].is_used && all.processes[of].entries[at].slot == slot) {
                *real = all.processes[of].entries[at].real;
                return &all.processes[of];
            }
    return NULL;
}
