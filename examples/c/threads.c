/* A thread for each guest, one lock round the manager, a condition variable for each guest, and a monitor that reads what the guests'
 * objects are without taking the lock. */
#include <obman.h>
#include <pthread.h>
#include <stdatomic.h>
#include <stdio.h>
#include <stdlib.h>

enum { GUESTS = 4, ROUNDS = 1000, OBJECTS = 3 };

static pthread_mutex_t lock = PTHREAD_MUTEX_INITIALIZER;
static om_manager m;

/* Where the threads of guests sleep while their waits are pending, by thread number. */
static struct {
    pthread_cond_t answered;
    uint32_t code;
    bool is_asleep;
} sleepers[GUESTS + 2];


static om_opening mutex, semaphore, finished; /* each guest has inherited the three handles */
static uint32_t total;                        /* what the guests count, under the guests' own mutex */
static _Atomic bool is_over;

static void must(bool holds, const char *what) {
    if (!holds) {
        fprintf(stderr, "threads: %s\n", what);
        exit(1);
    }
}

/* Behind each call, under the lock: wakes just those whose waits it has answered. */
static void wake_answered(void) {
    om_answer answers[GUESTS + 1]; /* one for each that may wait */
    size_t count;
    om_take_answered(&m, answers, GUESTS + 1, &count);
    for (size_t i = 0; i < count; i++) {
        sleepers[answers[i].thread].code = answers[i].code;
        sleepers[answers[i].thread].is_asleep = false;
        pthread_cond_signal(&sleepers[answers[i].thread].answered);
    }
}

/* A guest's wait for one object: its thread sleeps here until the wait is answered. */
static uint32_t wait_for(uint32_t thread, uint32_t handle) {
    uint32_t answer;
    pthread_mutex_lock(&lock);
    uint32_t status = om_wait(&m, thread, false, OM_INFINITE, &handle, 1, &answer);
    must(status == OM_SUCCESS || status == OM_ERROR_IO_PENDING, "a wait");
    if (status == OM_ERROR_IO_PENDING) {
        sleepers[thread].is_asleep = true;
        while (sleepers[thread].is_asleep) {
            pthread_cond_wait(&sleepers[thread].answered, &lock);
        }
        answer = sleepers[thread].code;
    }
    pthread_mutex_unlock(&lock);
    return answer;
}

/* What a guest's call has answered, which was made under the lock. */
static void signals(uint32_t status) {
    must(status == OM_SUCCESS, "a signal");
    wake_answered();
    pthread_mutex_unlock(&lock);
}

static void *guest(void *number) {
    uint32_t thread = *(uint32_t *)number, before;
    for (int round = 0; round < ROUNDS; round++) {
        must(wait_for(thread, mutex.handle) == OM_WAIT_OBJECT_0, "the mutex");
        total++;
        pthread_mutex_lock(&lock);
        signals(om_release_mutex(&m, thread, mutex.handle));
    }
    pthread_mutex_lock(&lock);
    signals(om_release_semaphore(&m, thread, semaphore.handle, 1, &before));
    return NULL;
}

/* Beside all that: pins each object, reads what it is, and lets it go. It sees each at least once. */
static void *monitor(void *of) {
    om_reader *reader = of;
    const om_object objects[OBJECTS] = {mutex.object, semaphore.object, finished.object};
    static const char *const kinds[] = {"event", "mutex", "semaphore", "timer"};
    uint32_t seen[OBJECTS] = {0};
    do {
        for (int i = 0; i < OBJECTS; i++) {
            om_descriptor d;
            if (om_reader_pin(reader, objects[i].slot, objects[i].generation) != OM_SUCCESS) {
                continue; /* OM_ERROR_BUSY: the slot was just changed; OM_ERROR_INVALID_HANDLE: the object has ended */
            }
            must(om_reader_describe(reader, objects[i].slot, objects[i].generation, &d) == OM_SUCCESS, "what is pinned");
            must(om_reader_unpin(reader, objects[i].slot, objects[i].generation) == OM_SUCCESS, "what is held");
            seen[i] = d.kind + 1;
        }
    } while (!atomic_load(&is_over) || !seen[0] || !seen[1] || !seen[2]);
    for (int i = 0; i < OBJECTS; i++) {
        printf("s%u.%u is a kind of %s\n", (unsigned)objects[i].slot, (unsigned)objects[i].generation, kinds[seen[i] - 1]);
    }
    return NULL;
}

int main(void) {
    om_limits limits = OM_LIMITS_DEFAULT;
    om_making inherited = om_inherited();
    om_member host, members[GUESTS];
    om_reader reader;
    pthread_t threads[GUESTS], watching;

    for (int i = 0; i < GUESTS + 2; i++) {
        pthread_cond_init(&sleepers[i].answered, NULL);
    }
    must(om_new(&limits, &m) == OM_SUCCESS && om_spawn(&m, 1, &host) == OM_SUCCESS, "no manager");
    must(om_create_mutex(&m, host.thread, &inherited, "", 0, false, &mutex) == OM_SUCCESS, "no mutex");
    must(om_create_semaphore(&m, host.thread, &inherited, "", 0, 0, GUESTS, &semaphore) == OM_SUCCESS, "no semaphore");
    must(om_create_event(&m, host.thread, &inherited, "", 0, true, false, &finished) == OM_SUCCESS, "no event");
    must(om_reader_new(&m, &reader) == OM_SUCCESS && pthread_create(&watching, NULL, monitor, &reader) == 0, "no monitor");
    for (int i = 0; i < GUESTS; i++) {
        pthread_mutex_lock(&lock);
        must(om_child(&m, host.thread, true, &members[i]) == OM_SUCCESS, "no guest");
        pthread_mutex_unlock(&lock);
        must(pthread_create(&threads[i], NULL, guest, &members[i].thread) == 0, "no thread");
    }

    /* The host waits as a guest of its own, once for each that is done. */
    for (int i = 0; i < GUESTS; i++) {
        must(wait_for(host.thread, semaphore.handle) == OM_WAIT_OBJECT_0, "the semaphore");
    }
    for (int i = 0; i < GUESTS; i++) {
        pthread_join(threads[i], NULL);
    }
    printf("%d guests counted to %u\n", GUESTS, (unsigned)total);
    atomic_store(&is_over, true);
    pthread_join(watching, NULL);
    om_free(m);
    om_reader_free(reader);
    return 0;
}
