/* Numbers that come back, as a host has them: threads that begin and end far more often than there are numbers, waits that are called by
 * their threads, and both again behind a savestate. It prints `all held`, or the line of the first thing that doesn't. */
#include "holding.h"

enum { THREADS = 70000, WAITS = 1000 };

/* One thread more begins and ends, of the three that may live, again and again: it has always the least number that is free. */
static void threads(om_manager *m, uint32_t process, uint32_t due) {
    uint32_t thread;
    for (int i = 0; i < THREADS; i++) {
        MUST(om_thread(m, process, &thread) == OM_SUCCESS && thread == due && om_process_of(m, thread) == process);
        MUST(om_thread(m, process, &thread) == OM_ERROR_NO_SYSTEM_RESOURCES);
        MUST(om_end_thread(m, due) == OM_SUCCESS && om_process_of(m, due) == 0);
        MUST(om_end_thread(m, due) == OM_ERROR_INVALID_PARAMETER);
    }
}

/* One thread waits for an event again and again, and another sets it: in turn the answer is taken with those of all waits, it is asked
 * for, and the wait's time is up. */
static void waits(om_manager *m, uint32_t sleeper, uint32_t waker, uint32_t event) {
    for (int i = 0; i < WAITS; i++) {
        uint32_t wait, code, due = i % 3 == 2 ? OM_WAIT_TIMEOUT : OM_WAIT_OBJECT_0;
        om_object objects[1];
        om_pending pending;
        om_answer answers[2];
        size_t count;
        MUST(om_wait(m, sleeper, false, OM_INFINITE, &event, 1, &wait) == OM_ERROR_IO_PENDING && wait == sleeper);
        MUST(om_is_pending(m, wait) && om_wait_of(m, sleeper) == wait && !om_is_pending(m, waker));
        MUST(om_objects_waited_for(m, wait, &pending, objects, 1, &count) == OM_SUCCESS && count == 1 && pending.thread == sleeper);
        MUST(om_wait_result(m, wait, &code) == OM_ERROR_IO_PENDING && code == wait);
        MUST((i % 3 == 2 ? om_expire(m, wait) : om_set_event(m, waker, event)) == OM_SUCCESS);
        MUST(!om_is_pending(m, wait) && om_wait_of(m, sleeper) == wait);
        if (i % 3 == 1) {
            MUST(om_wait_result(m, wait, &code) == OM_SUCCESS && code == due);
        } else {
            MUST(om_take_answered(m, answers, 2, &count) == OM_SUCCESS && count == 1);
            MUST(answers[0].wait == sleeper && answers[0].thread == sleeper && answers[0].code == due);
        }
        MUST(om_wait_of(m, sleeper) == 0 && om_wait_result(m, wait, &code) == OM_ERROR_INVALID_PARAMETER);
        MUST(om_expire(m, wait) == OM_ERROR_INVALID_PARAMETER);
    }
}

/* Of two that wait for a semaphore the one that began first goes on first, though its number is the higher, and is told first. */
static void order(om_manager *m, uint32_t first, uint32_t second, uint32_t host, uint32_t semaphore) {
    om_answer answers[3];
    uint32_t wait, previous;
    size_t count;
    MUST(first > second);
    MUST(om_wait(m, first, false, OM_INFINITE, &semaphore, 1, &wait) == OM_ERROR_IO_PENDING && wait == first);
    MUST(om_wait(m, second, false, OM_INFINITE, &semaphore, 1, &wait) == OM_ERROR_IO_PENDING && wait == second);
    MUST(om_release_semaphore(m, host, semaphore, 1, &previous) == OM_SUCCESS);
    MUST(!om_is_pending(m, first) && om_is_pending(m, second));
    MUST(om_release_semaphore(m, host, semaphore, 1, &previous) == OM_SUCCESS);
    MUST(om_take_answered(m, answers, 3, &count) == OM_SUCCESS && count == 2);
    MUST(answers[0].thread == first && answers[1].thread == second);
}

int main(void) {
    om_limits limits = OM_LIMITS_DEFAULT, told;
    om_manager m = {0};
    om_making plain = {0};
    om_member a, b;
    om_opening event, semaphore;
    uint32_t third;

    limits.threads = 0;
    MUST(om_new_reusing(&limits, &m) == OM_ERROR_INVALID_PARAMETER && m.at == NULL);
    limits.threads = 3;
    limits.processes = 2;
    limits.waits = 1;
    MUST(om_new_reusing(&limits, &m) == OM_SUCCESS);
    MUST(om_spawn(&m, 1, &a) == OM_SUCCESS && a.process == 1 && a.thread == 1);
    MUST(om_create_event(&m, a.thread, &plain, "", 0, false, false, &event) == OM_SUCCESS);
    MUST(om_create_semaphore(&m, a.thread, &plain, "", 0, 0, 2, &semaphore) == OM_SUCCESS);

    /* a process that ends gives both its numbers back, whether it is ended or its last thread is */
    for (int i = 0; i < WAITS; i++) {
        MUST(om_spawn(&m, 2, &b) == OM_SUCCESS && b.process == 2 && b.thread == 2);
        MUST(om_spawn(&m, 2, &b) == OM_ERROR_NO_SYSTEM_RESOURCES && b.process == 2);
        MUST((i % 2 ? om_exit(&m, b.process) : om_end_thread(&m, b.thread)) == OM_SUCCESS && om_next_process(&m, a.process) == 0);
    }
    for (int life = 0; life < 2; life++) {
        MUST(om_thread(&m, a.process, &third) == OM_SUCCESS && third == 2);
        threads(&m, a.process, 3);
        waits(&m, third, a.thread, event.handle);
        /* the numbers above and below one that lives: the lower one is free, and given first */
        MUST(om_thread(&m, a.process, &third) == OM_SUCCESS && third == 3);
        order(&m, third, 2, a.thread, semaphore.handle);
        MUST(om_end_thread(&m, 2) == OM_SUCCESS);
        threads(&m, a.process, 2);
        MUST(om_end_thread(&m, third) == OM_SUCCESS);
        m = reloaded(m);
    }
    MUST(om_limits_of(&m, &told) == OM_SUCCESS && told.threads == 3 && told.processes == 2 && told.waits == 1);
    MUST(told.max_recursion == limits.max_recursion && told.max_gen == limits.max_gen && told.slots == limits.slots);
    om_free(m);
    puts("all held");
    return 0;
}
