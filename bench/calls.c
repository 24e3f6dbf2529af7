/* The rounds of bench/calls.rs through the header, and those that it hasn't: of time, where numbers come back
 * (`reusing`), and where the host keeps numbers at threads. Of each case it prints the line
 * `CASE, AMONG: ROUNDS in NANOSECONDS, SUM`: what the rounds gave adds up to the same in both. */
#include "timed.h"
#include <string.h>

/* How many objects a process makes before the next one does. */
#define HANDLES 15000u
/* Prime to each number of objects, so that a walk by it comes to each of them. */
#define STRIDE 7919u
/* The most objects or threads that a case is among. */
#define MOST 60000u
#define NAME_LENGTH 16
/* How many events come and go in a batch, and how many batches there are. */
#define BATCH 256u
#define BATCHES 1000u
/* How many rounds other cases have, those of time, and those of processes and threads in each of so many managers,
 * since their numbers are given once; and how many waits a herd has in all. */
#define ROUNDS 1000000u
#define MOMENTS 100000u
#define LIVES 1000u
#define MANAGERS 20u
#define WAITS 240000u
/* A moment to which no tick comes. */
#define LATER (INT64_C(1) << 60)
#define INLINED static inline __attribute__((always_inline))

typedef struct event {
    uint32_t process, thread, handle;
    om_object object;
    char name[NAME_LENGTH];
} event;

typedef struct spent {
    uint64_t taken, sum;
} spent;

/* The manager of a case, and among how many objects, handles, threads or waits it is. */
static om_manager m;
static uint32_t count;
/* Whether the numbers of the managers that begin come back. */
static bool reuses;
/* The last process, whose first thread makes the calls; who waits; and for what. */
static uint32_t process, thread, waiter, handle;
static event events[MOST];
static uint32_t handles[MOST], threads[MOST], waits[MOST];
/* Which round it is. */
static uint32_t turn;

static void report(const char *what, uint32_t rounds, spent all) {
    printf("%s, %u: %u in %" PRIu64 ", %" PRIu64 "\n", what, count, rounds, all.taken, all.sum);
}

/* Each round gives a number of its answers. The walk goes on behind the answer of the round before, as a caller's calls
 * do: the top bit of the sum stays 0. */
INLINED void add_rounds(spent *all, uint32_t rounds, uint32_t (*round)(uint32_t at)) {
    uint32_t among = count, step = among > 0 ? STRIDE % among : 0, at = 0;
    uint64_t sum = 0, started = now();
    for (turn = 0; turn < rounds; turn++) {
        sum += round(at);
        at += step + (uint32_t)(sum >> 63);
        if (at >= among) {
            at -= among;
        }
    }
    all->taken += now() - started;
    all->sum += sum;
}

INLINED void measure(const char *what, uint32_t rounds, uint32_t (*round)(uint32_t at)) {
    spent all = {0, 0};
    add_rounds(&all, rounds, round);
    report(what, rounds, all);
}

/* ---- Calls ---- */

/* One more process, which makes the calls from now on. */
static void spawn(void) {
    om_member member;
    done(om_spawn(&m, 1, &member));
    process = member.process;
    thread = member.thread;
}

/* A new manager with one process. */
static void begin(uint32_t among) {
    om_limits limits = OM_LIMITS_MOST;
    om_free(m);
    done((reuses ? om_new_reusing : om_new)(&limits, &m));
    spawn();
    count = among;
}

static inline uint32_t new_thread(uint32_t of) {
    uint32_t made;
    done(om_thread(&m, of, &made));
    return made;
}

static inline om_opening new_event(om_making making, const char *name, bool manual, bool set) {
    om_opening o;
    done(om_create_event(&m, thread, &making, name, making.named ? NAME_LENGTH : 0, manual, set, &o));
    return o;
}

static inline uint32_t new_unnamed(bool manual, bool set) {
    om_making making = {0};
    return new_event(making, "", manual, set).handle;
}

static inline uint32_t wait_for(uint32_t of, bool all, uint32_t milliseconds, const uint32_t *list, size_t length,
                                uint32_t due) {
    uint32_t answer;
    must(om_wait(&m, of, all, milliseconds, list, length, &answer), due);
    return answer;
}

/* The code of a wait that is satisfied at once, and the number of one that becomes pending. */
static inline uint32_t wait_now(uint32_t of, bool all, const uint32_t *list, size_t length) {
    return wait_for(of, all, 0, list, length, OM_SUCCESS);
}

static inline uint32_t wait_long(uint32_t of, bool all, const uint32_t *list, size_t length) {
    return wait_for(of, all, OM_INFINITE, list, length, OM_ERROR_IO_PENDING);
}

static inline uint32_t result(uint32_t wait) {
    uint32_t code;
    done(om_wait_result(&m, wait, &code));
    return code;
}

/* ---- Events that come and go, or stay ---- */

static char names[BATCH][NAME_LENGTH];
static uint32_t slots[BATCH];

static void text(char *name, uint32_t number) {
    char digits[11];
    snprintf(digits, sizeof digits, "%010u", number);
    memcpy(name, "event-", 6);
    memcpy(name + 6, digits, 10);
}

/* Events that stay, each with one handle. */
static void add_events(om_making making) {
    for (uint32_t i = 0; i < count; i++) {
        event *e = &events[i];
        if (i % HANDLES == 0) {
            spawn();
        }
        text(e->name, i);
        om_opening o = new_event(making, e->name, false, false);
        e->process = process;
        e->thread = thread;
        e->handle = o.handle;
        e->object = o.object;
    }
}

INLINED uint32_t come_and_go(om_making making) {
    om_opening o = new_event(making, names[turn], false, false);
    done(om_close(&m, thread, o.handle));
    slots[turn] = o.object.slot;
    return o.object.slot;
}

static uint32_t come_and_go_unnamed(uint32_t at) {
    om_making making = {0};
    return come_and_go(making);
}

static uint32_t come_and_go_named(uint32_t at) {
    return come_and_go(om_named());
}

static uint32_t reap(uint32_t at) {
    om_reaping r;
    done(om_reap(&m, slots[turn], &r));
    return r.object.slot;
}

INLINED void run_batches(const char *making, const char *reaping, uint32_t (*round)(uint32_t at)) {
    spent made = {0, 0}, reaped = {0, 0};
    for (uint32_t batch = 0; batch < BATCHES; batch++) {
        add_rounds(&made, BATCH, round);
        add_rounds(&reaped, BATCH, reap);
    }
    report(making, BATCHES * BATCH, made);
    report(reaping, BATCHES * BATCH, reaped);
}

static uint32_t open_and_close(uint32_t at) {
    event *e = &events[at];
    om_opening o;
    done(om_open_event(&m, e->thread, OM_MODIFY_STATE, false, e->name, NAME_LENGTH, &o));
    done(om_close(&m, e->thread, o.handle));
    return o.handle;
}

static uint32_t find(uint32_t at) {
    om_handle_info info;
    done(om_find(&m, 1, events[at].name, NAME_LENGTH, &info));
    return info.object.slot;
}

static uint32_t name_of(uint32_t at) {
    char name[OM_NAME_MOST];
    om_row row;
    done(om_name_of(&m, events[at].object.slot, events[at].object.generation, name, sizeof name, &row));
    return row.length;
}

static uint32_t set_and_reset(uint32_t at) {
    event *e = &events[at];
    done(om_set_event(&m, e->thread, e->handle));
    done(om_reset_event(&m, e->thread, e->handle));
    return 1;
}

static uint32_t counts(uint32_t at) {
    event *e = &events[at];
    om_references r;
    done(om_counts(&m, e->object.slot, e->object.generation, &r));
    return r.handles;
}

static uint32_t resolve(uint32_t at) {
    event *e = &events[at];
    om_object o;
    done(om_resolve(&m, e->process, e->handle, &o));
    return o.slot;
}

static uint32_t duplicate_and_close(uint32_t at) {
    event *e = &events[at];
    om_opening o;
    done(om_duplicate(&m, e->thread, e->process, e->handle, e->process, 0, false, OM_DUPLICATE_SAME_ACCESS, &o));
    done(om_close(&m, e->thread, o.handle));
    return o.handle;
}

static uint32_t set_and_wait(uint32_t at) {
    event *e = &events[at];
    done(om_set_event(&m, e->thread, e->handle));
    return wait_now(e->thread, false, &e->handle, 1) + 1;
}

static void run_events(uint32_t among) {
    begin(among);
    add_events(om_named());
    for (uint32_t i = 0; i < BATCH; i++) {
        text(names[i], among + i);
    }
    run_batches("create and close, unnamed", "reap, unnamed", come_and_go_unnamed);
    run_batches("create and close, named", "reap, named", come_and_go_named);
    measure("open and close", ROUNDS, open_and_close);
    measure("find", ROUNDS, find);
    measure("name of an object", ROUNDS, name_of);
    measure("set and reset", ROUNDS, set_and_reset);
    measure("counts", ROUNDS, counts);
    measure("resolve", ROUNDS, resolve);
    measure("duplicate and close", ROUNDS, duplicate_and_close);
    measure("set and wait", ROUNDS, set_and_wait);
}

/* ---- Waits ---- */

/* A process with so many events, which are set from a place on. */
static void begin_list(uint32_t among, bool manual, uint32_t from) {
    begin(among);
    for (uint32_t i = 0; i < among; i++) {
        handles[i] = new_unnamed(manual, i >= from);
    }
    waiter = new_thread(process);
}

static uint32_t wait_for_any(uint32_t at) {
    return wait_now(thread, false, handles, count) + 1;
}

static uint32_t wait_for_all(uint32_t at) {
    return wait_now(thread, true, handles, count) + 1;
}

static uint32_t wait_for_some(uint32_t at) {
    uint32_t wait = wait_long(waiter, false, handles, count);
    done(om_set_event(&m, thread, handles[count - 1]));
    return result(wait);
}

static uint32_t wait_and_set(uint32_t at) {
    uint32_t wait = wait_long(waiter, false, &handle, 1);
    done(om_set_event(&m, thread, handle));
    return result(wait) + 1;
}

/* So many threads wait, each for an event of its own, and one more doesn't yet. */
static void run_beside(const char *what, uint32_t among) {
    begin(among);
    for (uint32_t i = 0; i <= among; i++) {
        handle = new_unnamed(false, false);
        waiter = new_thread(process);
        if (i < among) {
            wait_long(waiter, false, &handle, 1);
        }
    }
    measure(what, ROUNDS, wait_and_set);
}

static uint32_t set_and_reset_it(uint32_t at) {
    done(om_set_event(&m, thread, handle));
    done(om_reset_event(&m, thread, handle));
    return 1;
}

/* So many threads wait for an event, each together with one of its own that is never set. */
static void run_busy(uint32_t among) {
    begin(among);
    handle = new_unnamed(false, false);
    for (uint32_t i = 0; i < among; i++) {
        uint32_t both[] = {handle, new_unnamed(false, false)};
        wait_long(new_thread(process), true, both, 2);
    }
    measure("set and reset, waits for all", WAITS / among, set_and_reset_it);
}

static void run_waits(void) {
    begin_list(64, true, 63);
    measure("wait for any", ROUNDS, wait_for_any);
    begin_list(64, true, 0);
    measure("wait for all", ROUNDS, wait_for_all);
    begin_list(64, false, 64);
    measure("wait for any, set and result", ROUNDS, wait_for_some);
    for (uint32_t among = 0; among <= 10000; among += 10000) {
        run_beside("wait, set and result, waits beside", among);
        reuses = true;
        run_beside("wait, set and result, waits beside, reusing", among);
        reuses = false;
    }
    run_busy(16);
    run_busy(1000);
}

/* ---- Herds: threads that all wait for one object, and are released one by one, or together ---- */

static enum { AT_EVENT, HALVES, AT_SEMAPHORE, AT_MUTEX, AT_MANUAL_EVENT, HERDS } herd;

static const char *const HERD_NAMES[] = {
    "herd at an event", "herd at an event, half for all", "herd at a semaphore", "herd at a mutex",
    "herd at a manual event",
};

static void gather(uint32_t among) {
    om_making making = {0};
    om_opening o;
    begin(among);
    switch (herd) {
    case AT_SEMAPHORE: done(om_create_semaphore(&m, thread, &making, "", 0, 0, INT32_MAX, &o)); break;
    case AT_MUTEX: done(om_create_mutex(&m, thread, &making, "", 0, true, &o)); break;
    default: o = new_event(making, "", herd == AT_MANUAL_EVENT, false);
    }
    handle = o.handle;
    for (uint32_t i = 0; i < among; i++) {
        threads[i] = new_thread(process);
    }
}

/* The thread at a place is released, by the one before it, or by the process's first. */
static inline void release(uint32_t at, uint32_t owner) {
    uint32_t previous;
    switch (herd) {
    case AT_SEMAPHORE: done(om_release_semaphore(&m, thread, handle, 1, &previous)); break;
    case AT_MUTEX: done(om_release_mutex(&m, owner, handle)); break;
    default:
        if (herd != AT_MANUAL_EVENT || at == 0) {
            done(om_set_event(&m, thread, handle));
        }
    }
}

/* All threads wait, and each is released and takes its result; then the object is as before. */
static uint32_t wait_and_release(uint32_t at) {
    uint32_t owner = thread, sum = 0;
    for (uint32_t i = 0; i < count; i++) {
        waits[i] = wait_long(threads[i], herd == HALVES && i % 2 == 1, &handle, 1);
    }
    for (uint32_t i = 0; i < count; i++) {
        release(i, owner);
        sum += result(waits[i]) + 1;
        owner = threads[i];
    }
    if (herd == AT_MUTEX) {
        done(om_release_mutex(&m, owner, handle));
        wait_now(thread, false, &handle, 1);
    } else if (herd == AT_MANUAL_EVENT) {
        done(om_reset_event(&m, thread, handle));
    }
    return sum;
}

static void run_herds(uint32_t among) {
    for (herd = AT_EVENT; herd < HERDS; herd++) {
        spent all = {0, 0};
        gather(among);
        add_rounds(&all, WAITS / among, wait_and_release);
        report(HERD_NAMES[herd], WAITS / among * among, all);
    }
}

/* ---- Processes and threads that come and go ---- */

static uint32_t child_and_exit(uint32_t at) {
    om_member child;
    done(om_child(&m, thread, true, &child));
    done(om_exit(&m, child.process));
    return child.process;
}

static uint32_t thread_and_end(uint32_t at) {
    uint32_t made = new_thread(process);
    done(om_end_thread(&m, made));
    return made;
}

static uint32_t owner_and_end(uint32_t at) {
    uint32_t made = new_thread(process);
    wait_now(made, false, &handle, 1);
    done(om_end_thread(&m, made));
    return made;
}

/* A process with so many handles that children inherit. */
static void begin_parent(uint32_t among) {
    begin(among);
    for (uint32_t i = 0; i < among; i++) {
        new_event(om_inherited(), "", false, false);
    }
}

/* Named events, and a mutex by the process of the last of them. */
static void begin_owner(uint32_t among) {
    om_making making = {0};
    om_opening o;
    begin(among);
    add_events(om_named());
    done(om_create_mutex(&m, thread, &making, "", 0, false, &o));
    handle = o.handle;
}

INLINED void run_lives(const char *what, uint32_t among, void (*fill)(uint32_t among), uint32_t (*round)(uint32_t at)) {
    spent all = {0, 0};
    for (uint32_t i = 0; i < MANAGERS; i++) {
        fill(among);
        add_rounds(&all, LIVES, round);
    }
    report(what, MANAGERS * LIVES, all);
}

/* ---- Guests of a host: each waits for an event of its own, in a process with a thread that never waits ---- */

/* By thread, where its guest stands. */
static uint32_t places[65537];

/* A guest's event is set, its answer is taken, and it waits again. */
INLINED uint32_t take_turns(uint32_t at, uint32_t (*place_of)(uint32_t of)) {
    om_answer answers[4];
    size_t length;
    uint32_t sum = 0;
    done(om_set_event(&m, events[at].thread, events[at].handle));
    done(om_take_answered(&m, answers, 4, &length));
    for (size_t i = 0; i < length; i++) {
        uint32_t place = place_of(answers[i].thread);
        wait_long(threads[place], false, &events[place].handle, 1);
        sum += answers[i].code + 1;
    }
    return sum;
}

static uint32_t place_in_table(uint32_t of) {
    return places[of];
}

static uint32_t place_at_thread(uint32_t of) {
    return (uint32_t)om_thread_data(&m, of);
}

static uint32_t take_turns_by_table(uint32_t at) {
    return take_turns(at, place_in_table);
}

static uint32_t take_turns_by_thread(uint32_t at) {
    return take_turns(at, place_at_thread);
}

static void run_guests(uint32_t among) {
    om_making making = {0};
    begin(among);
    add_events(making);
    for (uint32_t i = 0; i < among; i++) {
        threads[i] = new_thread(events[i].process);
        places[threads[i]] = i;
        wait_long(threads[i], false, &events[i].handle, 1);
    }
    measure("set, answer, wait again", ROUNDS, take_turns_by_table);
    for (uint32_t i = 0; i < among; i++) {
        done(om_set_thread_data(&m, threads[i], i));
    }
    measure("set, answer, wait again with the thread's number", ROUNDS, take_turns_by_thread);
}

/* ---- Time, among as many timers that are set for later and threads that wait with a deadline ---- */

static uint64_t moment;

static void set_timer(uint32_t at, int64_t due) {
    done(om_set_timer(&m, thread, handles[at], due));
}

static uint32_t tick(uint32_t at) {
    moment++;
    done(om_tick(&m, moment));
    return 0;
}

static uint32_t arm(uint32_t at) {
    set_timer(at, LATER + turn % 1000);
    return 0;
}

/* A timer is set for the next moment, which comes, and then for later. */
static uint32_t fire(uint32_t at) {
    set_timer(at, -1);
    tick(at);
    set_timer(at, LATER);
    return 0;
}

/* A thread waits for a millisecond, and time goes on past it. */
static uint32_t lapse(uint32_t at) {
    uint32_t wait = wait_for(thread, false, 1, &handle, 1, OM_ERROR_IO_PENDING);
    moment += 10000;
    done(om_tick(&m, moment));
    must(result(wait), OM_WAIT_TIMEOUT);
    return 0;
}

static void run_time(uint32_t among) {
    om_making making = {0};
    begin(among);
    moment = 0;
    handle = new_unnamed(true, false);
    for (uint32_t i = 0; i < among; i++) {
        om_opening o;
        wait_for(new_thread(process), false, OM_INFINITE - 1, &handle, 1, OM_ERROR_IO_PENDING);
        done(om_create_timer(&m, thread, &making, "", 0, true, &o));
        handles[i] = o.handle;
        set_timer(i, LATER + i * STRIDE % among);
    }
    measure("tick, nothing due", MOMENTS, tick);
    measure("set a timer", MOMENTS, arm);
    measure("set, tick that fires it, set", MOMENTS, fire);
    measure("wait, tick that is past it", MOMENTS, lapse);
}

int main(void) {
    static const uint32_t each[] = {16, 1000, 60000}, timers[] = {16, 1000, 10000};
    static const uint32_t herds[] = {1, 1000, 16000, 60000}, guests[] = {1, 16, 1000, 60000};
    for (int i = 0; i < 3; i++) {
        run_events(each[i]);
    }
    run_waits();
    for (int i = 0; i < 4; i++) {
        run_herds(herds[i]);
    }
    for (int i = 0; i < 2; i++) {
        run_lives("child and exit, handles", each[i], begin_parent, child_and_exit);
    }
    for (int i = 0; i < 4; i++) {
        run_guests(guests[i]);
    }
    for (int i = 0; i < 3; i += 2) {
        run_lives("thread and end", each[i], begin_owner, thread_and_end);
        reuses = true;
        run_lives("thread and end, reusing", each[i], begin_owner, thread_and_end);
        reuses = false;
        run_lives("thread, mutex and end", each[i], begin_owner, owner_and_end);
    }
    for (int i = 0; i < 3; i++) {
        run_time(timers[i]);
    }
    om_free(m);
    return 0;
}
