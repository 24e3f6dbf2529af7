/* Rounds of calls through the header, for callgrind to count: `ROUND N` makes N rounds of the one with that number, counted from 0, and
 * without words it names each. */
#include "timed.h"

enum { HANDLES = 64 };

static om_manager m;
static om_reader reader;
static const om_making plain;
static om_making named = {.named = true};
static uint32_t process, thread, waiter, events[HANDLES], manual[HANDLES], mutex, semaphore, timer;
static om_object pinned;
static uint64_t moment;

static void nothing(void) {}

static void pends(const uint32_t *handles, size_t count) {
    uint32_t wait, code;
    must(om_wait(&m, waiter, false, OM_INFINITE, handles, count, &wait), OM_ERROR_IO_PENDING);
    done(om_set_event(&m, thread, events[HANDLES - 1]));
    done(om_wait_result(&m, wait, &code));
}

static void one_pends(void) { pends(&events[HANDLES - 1], 1); }

static void any_pends(void) { pends(events, HANDLES); }

static void any_signaled(void) {
    uint32_t code;
    done(om_set_event(&m, thread, events[HANDLES - 1]));
    done(om_wait(&m, thread, false, 0, events, HANDLES, &code));
}

static void all_signaled(void) {
    uint32_t code;
    done(om_wait(&m, thread, true, 0, manual, HANDLES, &code));
}

static void comes_and_goes(const om_making *making, size_t length) {
    om_opening made;
    om_reaping reaping;
    done(om_create_event(&m, thread, making, "an event", length, false, false, &made));
    done(om_close(&m, thread, made.handle));
    done(om_reap(&m, made.object.slot, &reaping));
}

static void unnamed(void) { comes_and_goes(&plain, 0); }

static void with_a_name(void) { comes_and_goes(&named, 8); }

static void opened(void) {
    om_opening made;
    done(om_open_event(&m, thread, OM_SYNCHRONIZE, false, "there", 5, &made));
    done(om_close(&m, thread, made.handle));
}

static void duplicated(void) {
    om_opening made;
    done(om_duplicate(&m, thread, process, events[0], process, 0, false, OM_DUPLICATE_SAME_ACCESS, &made));
    done(om_close(&m, thread, made.handle));
}

static void set_and_reset(void) {
    done(om_set_event(&m, thread, events[0]));
    done(om_reset_event(&m, thread, events[0]));
}

static void owned(void) {
    uint32_t code;
    done(om_wait(&m, thread, false, 0, &mutex, 1, &code));
    done(om_release_mutex(&m, thread, mutex));
}

static void posted(void) {
    uint32_t code, previous;
    done(om_release_semaphore(&m, thread, semaphore, 1, &previous));
    done(om_wait(&m, thread, false, 0, &semaphore, 1, &code));
}

static void fires(void) {
    done(om_set_timer(&m, thread, timer, -1));
    done(om_tick(&m, ++moment));
}

static void pins(void) {
    done(om_reader_pin(&reader, pinned.slot, pinned.generation));
    done(om_reader_unpin(&reader, pinned.slot, pinned.generation));
}

static void found(void) {
    om_handle_info info;
    done(om_find(&m, 1, "there", 5, &info));
}

static void named_by_it(void) {
    char name[OM_NAME_MOST];
    om_row row;
    done(om_name_of(&m, pinned.slot, pinned.generation, name, sizeof name, &row));
}

static const struct {
    const char *name;
    void (*make)(void);
} rounds[] = {
    {"nothing: what the program itself takes", nothing},
    {"a wait that pends, its set and its answer", one_pends},
    {"a wait for any of 64 that pends, its set and its answer", any_pends},
    {"a set, and a wait for any of 64 with the last signaled", any_signaled},
    {"a wait for all of 64", all_signaled},
    {"an unnamed create, its close and its reap", unnamed},
    {"a named create, its close and its reap", with_a_name},
    {"an open and its close", opened},
    {"a duplicate and its close", duplicated},
    {"a set and a reset", set_and_reset},
    {"a wait for a mutex, and its release", owned},
    {"a release of a semaphore, and a wait for it", posted},
    {"a timer that is set, and the tick that fires it", fires},
    {"a pin and its release", pins},
    {"the object of a name", found},
    {"the name of an object", named_by_it},
};

static void begin(void) {
    static const om_limits limits = OM_LIMITS_MOST;
    om_member member;
    om_opening made;
    done(om_new(&limits, &m));
    done(om_spawn(&m, 1, &member));
    process = member.process;
    thread = member.thread;
    done(om_thread(&m, process, &waiter));
    for (uint32_t at = 0; at < HANDLES; at++) {
        done(om_create_event(&m, thread, &plain, "", 0, false, false, &made));
        events[at] = made.handle;
        done(om_create_event(&m, thread, &plain, "", 0, true, true, &made));
        manual[at] = made.handle;
    }
    done(om_create_mutex(&m, thread, &plain, "", 0, false, &made));
    mutex = made.handle;
    done(om_create_semaphore(&m, thread, &plain, "", 0, 0, 1, &made));
    semaphore = made.handle;
    done(om_create_timer(&m, thread, &plain, "", 0, true, &made));
    timer = made.handle;
    done(om_create_event(&m, thread, &named, "there", 5, false, false, &made));
    pinned = made.object;
    done(om_reader_new(&m, &reader));
}

int main(int argc, char **argv) {
    size_t count = sizeof rounds / sizeof rounds[0];
    if (argc < 3) {
        for (size_t at = 0; at < count; at++) puts(rounds[at].name);
        return 0;
    }
    size_t asked = strtoul(argv[1], NULL, 10);
    uint64_t left = strtoull(argv[2], NULL, 10);
    if (asked >= count) return 2;
    begin();
    for (void (*make)(void) = rounds[asked].make; left > 0; left--) make();
    om_reader_free(reader);
    om_free(m);
    return 0;
}
