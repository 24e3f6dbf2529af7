/* The rounds of bench/pins.rs through the header: pins with their releases, by readers on threads of their own. Then
 * those of neighbouring Ids alone and beside calls, in the time that the readers have a processor: more threads than
 * processors share them. */
#include "timed.h"
#include <pthread.h>
#include <stdatomic.h>

enum { SLOTS = 257, READERS = 4, PAIRS = 40000, RUNS = 61 };

/* A reader, which pins one object again and again: when it begins and ends, and how long it has a processor. */
typedef struct pinner {
    om_reader reader;
    om_object object;
    pthread_t thread;
    uint64_t began, ended, worked;
} pinner;

static om_manager m;
static om_member caller;
/* By slot. */
static om_opening made[SLOTS];
/* How many readers there are in a run, how many of them have come, and how many are done. */
static uint32_t readers;
static _Atomic uint32_t ready, over;

static void *pin_all(void *given) {
    pinner *p = given;
    om_reader reader = p->reader; /* of its own: what is given lies beside what the calling thread writes */
    om_object object = p->object;
    ready++;
    while (ready < readers) {
    }
    p->began = now();
    p->worked = nanoseconds(CLOCK_THREAD_CPUTIME_ID);
    for (int i = 0; i < PAIRS; i++) {
        uint32_t answer;
        while ((answer = om_reader_pin(&reader, object.slot, object.generation)) == OM_ERROR_BUSY) {
        }
        done(answer);
        done(om_reader_unpin(&reader, object.slot, object.generation));
    }
    p->worked = nanoseconds(CLOCK_THREAD_CPUTIME_ID) - p->worked;
    p->ended = now();
    over++;
    return NULL;
}

static om_opening new_event(void) {
    om_making making = {0};
    om_opening o;
    done(om_create_event(&m, caller.thread, &making, "", 0, true, false, &o));
    return o;
}

/* Signals what a reader pins, and has an object come and go. */
static void call(uint32_t handle) {
    om_opening o = new_event();
    om_reaping r;
    done(om_set_event(&m, caller.thread, handle));
    done(om_reset_event(&m, caller.thread, handle));
    done(om_close(&m, caller.thread, o.handle));
    done(om_reap(&m, o.object.slot, &r));
}

static inline uint64_t less(uint64_t a, uint64_t b) {
    return a < b ? a : b;
}

static inline uint64_t more(uint64_t a, uint64_t b) {
    return a < b ? b : a;
}

enum how { TOGETHER, ALONE, BESIDE };

/* How long readers have a processor in a run; or, where they are timed together, what it takes from the first that
 * begins to the last that ends, and 0 where they weren't all at work for more than half of that. */
static uint64_t run(const uint32_t *slots, enum how how) {
    pinner all[READERS];
    uint64_t worked = 0, first_began = UINT64_MAX, last_began = 0, first_ended = UINT64_MAX, last_ended = 0;
    ready = over = 0;
    for (uint32_t i = 0; i < readers; i++) {
        done(om_reader_new(&m, &all[i].reader));
        all[i].object = made[slots[i]].object;
        must((uint32_t)pthread_create(&all[i].thread, NULL, pin_all, &all[i]), 0);
    }
    for (uint32_t i = 0; how == BESIDE && over < readers; i++) {
        call(made[slots[i % readers]].handle);
    }
    for (uint32_t i = 0; i < readers; i++) {
        must((uint32_t)pthread_join(all[i].thread, NULL), 0);
        om_reader_free(all[i].reader);
        worked += all[i].worked;
        first_began = less(first_began, all[i].began);
        last_began = more(last_began, all[i].began);
        first_ended = less(first_ended, all[i].ended);
        last_ended = more(last_ended, all[i].ended);
    }
    if (how != TOGETHER) {
        return worked;
    }
    return last_began + (last_ended - first_began) / 2 < first_ended ? last_ended - first_began : 0;
}

static int compare(const void *a, const void *b) {
    uint64_t x = *(const uint64_t *)a, y = *(const uint64_t *)b;
    return (x > y) - (x < y);
}

/* Prints the middle of the times that count. */
static void measure(const char *what, uint32_t count, const uint32_t *slots, enum how how) {
    uint64_t times[RUNS];
    uint32_t counted = 0;
    readers = count;
    for (int i = 0; i < RUNS; i++) {
        times[counted] = run(slots, how);
        counted += times[counted] > 0;
    }
    qsort(times, counted, sizeof *times, compare);
    printf("%s: %u in %" PRIu64 "\n", what, counted > 0 ? count * PAIRS : 0, counted > 0 ? times[counted / 2] : 0);
}

int main(void) {
    static const uint32_t same[] = {64, 64, 64, 64}, apart[] = {64, 128, 192, 256}, near[] = {8, 9, 10, 11};
    om_limits limits = OM_LIMITS_MOST;
    done(om_new(&limits, &m));
    done(om_spawn(&m, 1, &caller));
    for (uint32_t i = 0; i < SLOTS; i++) {
        made[i] = new_event();
        must(made[i].object.slot, i);
    }
    measure("one thread", 1, apart, TOGETHER);
    measure("two threads, one Id", 2, same, TOGETHER);
    measure("four threads, one Id", 4, same, TOGETHER);
    measure("two threads, Ids apart", 2, apart, TOGETHER);
    measure("four threads, Ids apart", 4, apart, TOGETHER);
    measure("two threads, neighbouring Ids", 2, near, TOGETHER);
    measure("four threads, neighbouring Ids", 4, near, TOGETHER);
    for (uint32_t count = 1; count <= READERS; count++) {
        char what[32];
        snprintf(what, sizeof what, "%u readers alone", count);
        measure(what, count, near, ALONE);
        snprintf(what, sizeof what, "%u readers beside calls", count);
        measure(what, count, near, BESIDE);
    }
    om_free(m);
    return 0;
}
