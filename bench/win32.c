/* Calls of Windows by the threads of one process, over examples/win32 or over the plain C of bench/win32_peer.c. Of each case it prints the line
 * `CASE, PROCESSORS: ROUNDS in NANOSECONDS`, by the least of its runs. */
#include "timed.h"
#include <pthread.h>
#include <sched.h>
#include <unistd.h>
#include <windows.h>

enum { RUNS = 50, ROUNDS = 20000, TURNS = 1000, EVENTS = 8, THREADS = 8 };

static HANDLE event, mutex, semaphore, there, back, events[EVENTS];
static uint64_t owned; /* how often the mutex was */

/* The processors that the program may run on, and the first so many of them. */
static cpu_set_t all;

static void stay_on(int processors) {
    cpu_set_t some;
    CPU_ZERO(&some);
    for (int i = 0; processors > 0 && i < CPU_SETSIZE; i++) {
        if (CPU_ISSET(i, &all)) {
            CPU_SET(i, &some);
            processors--;
        }
    }
    must((uint32_t)sched_setaffinity(0, sizeof some, &some), 0);
}

static void wait_for(HANDLE handle) {
    must(WaitForSingleObject(handle, INFINITE), WAIT_OBJECT_0);
}

static uint32_t wait_for_any(void) {
    return WaitForMultipleObjects(EVENTS, events, FALSE, INFINITE);
}

/* ---- One thread ---- */

static void set_and_wait(uint32_t rounds) {
    for (uint32_t i = 0; i < rounds; i++) {
        must((uint32_t)SetEvent(event), TRUE);
        wait_for(event);
    }
}

static void set_and_wait_for_a_second(uint32_t rounds) {
    for (uint32_t i = 0; i < rounds; i++) {
        must((uint32_t)SetEvent(event), TRUE);
        must(WaitForSingleObject(event, 1000), WAIT_OBJECT_0);
    }
}

static void take_and_release(uint32_t rounds) {
    for (uint32_t i = 0; i < rounds; i++) {
        wait_for(mutex);
        owned++;
        must((uint32_t)ReleaseMutex(mutex), TRUE);
    }
}

static void release_and_take(uint32_t rounds) {
    for (uint32_t i = 0; i < rounds; i++) {
        must((uint32_t)ReleaseSemaphore(semaphore, 1, NULL), TRUE);
        wait_for(semaphore);
    }
}

static void set_and_wait_for_any(uint32_t rounds) {
    for (uint32_t i = 0; i < rounds; i++) {
        must((uint32_t)SetEvent(events[EVENTS - 1]), TRUE);
        must(wait_for_any(), EVENTS - 1);
    }
}

/* ---- Several ---- */

static void run_beside(int count, void *(*other)(void *), uint32_t rounds, void (*own)(uint32_t)) {
    pthread_t threads[THREADS];
    for (int i = 0; i < count; i++) {
        must((uint32_t)pthread_create(&threads[i], NULL, other, &rounds), 0);
    }
    own(rounds);
    for (int i = 0; i < count; i++) {
        must((uint32_t)pthread_join(threads[i], NULL), 0);
    }
}

static void *answer(void *rounds) {
    for (uint32_t i = 0; i < *(uint32_t *)rounds; i++) {
        wait_for(there);
        must((uint32_t)SetEvent(back), TRUE);
    }
    return NULL;
}

static void ask(uint32_t rounds) {
    for (uint32_t i = 0; i < rounds; i++) {
        must((uint32_t)SetEvent(there), TRUE);
        wait_for(back);
    }
}

static void wake_in_turn(uint32_t rounds) {
    run_beside(1, answer, rounds, ask);
}

static void *answer_any(void *rounds) {
    for (uint32_t i = 0; i < *(uint32_t *)rounds; i++) {
        must(wait_for_any(), i % EVENTS);
        must((uint32_t)SetEvent(back), TRUE);
    }
    return NULL;
}

static void ask_any(uint32_t rounds) {
    for (uint32_t i = 0; i < rounds; i++) {
        must((uint32_t)SetEvent(events[i % EVENTS]), TRUE);
        wait_for(back);
    }
}

static void wake_by_any(uint32_t rounds) {
    run_beside(1, answer_any, rounds, ask_any);
}

static void *take_some(void *rounds) {
    take_and_release(*(uint32_t *)rounds / THREADS);
    return NULL;
}

static void take_last(uint32_t rounds) {
    take_and_release(rounds / THREADS);
}

static void take_together(uint32_t rounds) {
    uint64_t before = owned;
    run_beside(THREADS - 1, take_some, rounds, take_last);
    must((uint32_t)(owned - before), rounds);
}

/* ---- What is measured ---- */

static const struct {
    const char *what;
    void (*run)(uint32_t rounds);
    uint32_t rounds;
    int threads;
} cases[] = {
    {"an event set, and a wait for it", set_and_wait, ROUNDS, 1},
    {"the same, for a second at most", set_and_wait_for_a_second, ROUNDS, 1},
    {"a wait for a mutex, and its release", take_and_release, ROUNDS, 1},
    {"a semaphore released, and a wait for it", release_and_take, ROUNDS, 1},
    {"the last of 8 events set, and a wait for any of them", set_and_wait_for_any, ROUNDS, 1},
    {"two threads that wake each other in turn", wake_in_turn, TURNS, 2},
    {"the same, one of them by any of 8 events", wake_by_any, TURNS, 2},
    {"8 threads that each take a mutex and release it", take_together, TURNS, THREADS},
};

/* While a program has one thread the C library takes no lock in earnest: so there is another one. */
static void *sleep_throughout(void *unused) {
    for (;;) {
        pause();
    }
    return unused;
}

int main(void) {
    pthread_t other;
    must((uint32_t)sched_getaffinity(0, sizeof all, &all), 0);
    must((uint32_t)pthread_create(&other, NULL, sleep_throughout, NULL), 0);
    event = CreateEventA(NULL, FALSE, FALSE, NULL);
    there = CreateEventA(NULL, FALSE, FALSE, NULL);
    back = CreateEventA(NULL, FALSE, FALSE, NULL);
    mutex = CreateMutexA(NULL, FALSE, NULL);
    semaphore = CreateSemaphoreA(NULL, 0, 1000, NULL);
    for (int i = 0; i < EVENTS; i++) {
        events[i] = CreateEventA(NULL, FALSE, FALSE, NULL);
    }
    for (size_t i = 0; i < sizeof cases / sizeof *cases; i++) {
        for (int processors = 1; processors <= cases[i].threads && processors <= CPU_COUNT(&all); processors *= 2) {
            uint64_t least = UINT64_MAX;
            stay_on(processors);
            for (int run = 0; run < RUNS; run++) {
                uint64_t started = now();
                cases[i].run(cases[i].rounds);
                uint64_t taken = now() - started;
                least = taken < least ? taken : least;
            }
            printf("%s, %d: %u in %" PRIu64 "\n", cases[i].what, processors, cases[i].rounds, least);
        }
    }
    return 0;
}
