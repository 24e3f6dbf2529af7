/* What can still come, as om_room_of tells it: as much as comes then, up to the last, and again what comes back; by om_new and by
 * om_new_reusing, and the same behind a savestate. It prints `all held`, or the line of the first thing that doesn't. */
#include "holding.h"

#define ROOM(process, slots, processes, threads, handles) \
    must(is_left(&m, process, (om_room){slots, processes, threads, handles, 0}), __FILE__, __LINE__)

enum { SLOTS = 3, PROCESSES = 4, THREADS = 70, HANDLES = 4 };

static bool is_left(om_manager *m, uint32_t process, om_room due) {
    om_room room = {77, 77, 77, 77, 77};
    return om_room_of(m, process, &room) == OM_SUCCESS && room.slots == due.slots && room.processes == due.processes
           && room.threads == due.threads && room.handles == due.handles;
}

/* Processes and threads come up to the last, and end, whose numbers come back or don't. */
static void numbers(bool reuse) {
    om_limits limits = OM_LIMITS_DEFAULT;
    om_manager m;
    om_member members[PROCESSES], more;
    uint32_t thread, back = reuse ? 1 : 0, left = THREADS;

    limits.slots = SLOTS;
    limits.processes = PROCESSES;
    limits.threads = THREADS;
    limits.handles = HANDLES;
    MUST((reuse ? om_new_reusing : om_new)(&limits, &m) == OM_SUCCESS);
    ROOM(0, SLOTS, PROCESSES, THREADS, 0);
    for (uint32_t i = 0; i < PROCESSES; i++) {
        MUST(om_spawn(&m, 1, &members[i]) == OM_SUCCESS);
        ROOM(members[i].process, SLOTS, PROCESSES - 1 - i, --left, HANDLES);
    }
    MUST(om_spawn(&m, 1, &more) == OM_ERROR_NO_SYSTEM_RESOURCES);

    /* one that ends leaves its numbers, and the number of each thread that it had; of the other two the last thread ends */
    MUST(om_thread(&m, members[1].process, &thread) == OM_SUCCESS);
    MUST(om_exit(&m, members[1].process) == OM_SUCCESS);
    left = left - 1 + 2 * back;
    ROOM(members[1].process, SLOTS, back, left, 0);
    MUST(om_end_thread(&m, members[2].thread) == OM_SUCCESS && om_end_thread(&m, members[3].thread) == OM_SUCCESS);
    left += 2 * back;
    ROOM(members[2].process, SLOTS, 3 * back, left, 0);
    m = reloaded(m);
    ROOM(members[0].process, SLOTS, 3 * back, left, HANDLES);
    MUST(om_spawn(&m, 1, &more) == (reuse ? OM_SUCCESS : OM_ERROR_NO_SYSTEM_RESOURCES));
    left -= back;

    for (; left > 0; left--) {
        ROOM(members[0].process, SLOTS, 2 * back, left, HANDLES);
        MUST(om_thread(&m, members[0].process, &thread) == OM_SUCCESS);
    }
    ROOM(members[0].process, SLOTS, 2 * back, 0, HANDLES);
    MUST(om_thread(&m, members[0].process, &thread) == OM_ERROR_NO_SYSTEM_RESOURCES);
    MUST(om_spawn(&m, 1, &more) == OM_ERROR_NO_SYSTEM_RESOURCES);
    MUST(om_exit(&m, members[0].process) == OM_SUCCESS);
    ROOM(members[0].process, SLOTS, 3 * back, (THREADS - 1) * back, 0);
    om_free(m);
}

/* A slot is used up by its object until it is taken back, and at its last generation for good; a handle until it is closed. */
static void slots(bool reuse) {
    om_limits limits = OM_LIMITS_DEFAULT;
    om_manager m;
    om_making plain = {0};
    om_member a;
    om_opening made[SLOTS], copy;
    om_reaping ended[SLOTS];
    size_t count;

    limits.slots = SLOTS;
    limits.handles = HANDLES;
    limits.processes = limits.threads = 1;
    limits.max_gen = 2;
    MUST((reuse ? om_new_reusing : om_new)(&limits, &m) == OM_SUCCESS && om_spawn(&m, 1, &a) == OM_SUCCESS);
    for (uint32_t life = 0; life < 2; life++) {
        for (uint32_t i = 0; i < SLOTS; i++) {
            ROOM(a.process, SLOTS - i, 0, 0, HANDLES - i);
            MUST(om_create_event(&m, a.thread, &plain, "", 0, false, false, &made[i]) == OM_SUCCESS);
        }
        ROOM(a.process, 0, 0, 0, HANDLES - SLOTS);
        MUST(om_create_event(&m, a.thread, &plain, "", 0, false, false, &copy) == OM_ERROR_NO_SYSTEM_RESOURCES);
        MUST(om_duplicate(&m, a.thread, a.process, made[1].handle, a.process, 0, false, OM_DUPLICATE_SAME_ACCESS, &copy) == OM_SUCCESS);
        ROOM(a.process, 0, 0, 0, 0);
        MUST(om_duplicate(&m, a.thread, a.process, made[1].handle, a.process, 0, false, OM_DUPLICATE_SAME_ACCESS, &copy)
             == OM_ERROR_NO_SYSTEM_RESOURCES);
        MUST(om_close(&m, a.thread, made[1].handle) == OM_SUCCESS && om_close(&m, a.thread, made[0].handle) == OM_SUCCESS);
        ROOM(a.process, 0, 0, 0, 2);
        m = reloaded(m);
        MUST(om_take_ended(&m, ended, SLOTS, &count) == OM_SUCCESS && count == 1);
        ROOM(a.process, 1 - life, 0, 0, 2);
        MUST(om_close(&m, a.thread, copy.handle) == OM_SUCCESS && om_close(&m, a.thread, made[2].handle) == OM_SUCCESS);
        MUST(om_take_ended(&m, ended, SLOTS, &count) == OM_SUCCESS && count == 2);
        MUST(ended[0].outcome == (life ? OM_RETIRED : OM_FREED));
    }
    ROOM(a.process, 0, 0, 0, HANDLES);
    m = reloaded(m);
    ROOM(a.process, 0, 0, 0, HANDLES);
    om_free(m);
}

/* A wait that becomes pending has a number for good, unless numbers come back. */
static void waits(bool reuse) {
    om_limits limits = OM_LIMITS_DEFAULT;
    om_manager m;
    om_making plain = {0};
    om_member a;
    om_opening made;
    om_room room;
    uint32_t answer;

    limits.waits = 3;
    MUST((reuse ? om_new_reusing : om_new)(&limits, &m) == OM_SUCCESS && om_spawn(&m, 1, &a) == OM_SUCCESS);
    MUST(om_create_event(&m, a.thread, &plain, "", 0, false, false, &made) == OM_SUCCESS);
    for (uint32_t left = 3; left > 0; left--) {
        MUST(om_room_of(&m, a.process, &room) == OM_SUCCESS && room.waits == (reuse ? UINT32_MAX : left));
        MUST(om_wait(&m, a.thread, false, OM_INFINITE, &made.handle, 1, &answer) == OM_ERROR_IO_PENDING);
        MUST(om_expire(&m, answer) == OM_SUCCESS && om_wait_result(&m, answer, &answer) == OM_SUCCESS);
    }
    MUST(om_room_of(&m, a.process, &room) == OM_SUCCESS && room.waits == (reuse ? UINT32_MAX : 0));
    answer = om_wait(&m, a.thread, false, OM_INFINITE, &made.handle, 1, &answer);
    MUST(answer == (reuse ? OM_ERROR_IO_PENDING : OM_ERROR_NO_SYSTEM_RESOURCES));
    om_free(m);
}

int main(void) {
    for (int reuse = 0; reuse < 2; reuse++) {
        numbers(reuse);
        slots(reuse);
        waits(reuse);
    }
    puts("all held");
    return 0;
}
