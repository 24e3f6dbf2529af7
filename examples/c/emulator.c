/* A host whose guests are state machines that take turns. A step of a guest is one call; where that would wait, the guest sleeps until
 * its wait is answered. The time is virtual: when no guest can run it goes to the next moment at which something is due. */
#include <obman.h>
#include <stdio.h>
#include <stdlib.h>

enum { GUESTS = 7, ITEMS = 4, PLACES = 2, SLOTS = 64, MILLISECOND = 10000 };

typedef struct guest {
    void (*step)(struct guest *g);
    uint32_t process, thread, code; /* the code is that of its last wait */
    int state, rounds;
    bool is_asleep, is_over;
} guest;

static om_manager m;
static om_opening vacant, filled, lock, pledge, timer, never; /* each guest has inherited these handles */
static guest guests[GUESTS];
static int stock;
static uint64_t now;

static void must(bool holds, const char *what) {
    if (!holds) {
        fprintf(stderr, "emulator: %s\n", what);
        exit(1);
    }
}

/* The guest waits for one object: it has it at once, or sleeps. Then its state is the next one. */
static void wait_for(guest *g, om_opening o, uint32_t milliseconds) {
    uint32_t answer, status = om_wait(&m, g->thread, false, milliseconds, &o.handle, 1, &answer);
    must(status == OM_SUCCESS || status == OM_ERROR_IO_PENDING, "a wait");
    g->is_asleep = status == OM_ERROR_IO_PENDING;
    g->code = answer; /* of a sleeper the wait's number, until the answer comes */
    g->state++;
}

static void end(guest *g) {
    must(om_exit(&m, g->process) == OM_SUCCESS, "an end");
    g->is_over = true;
}

/* Puts an item or takes one, in steps: a place or an item, the lock, the stock, the lock's release, the other semaphore's. */
static void trade(guest *g, om_opening from, om_opening to, int more) {
    uint32_t before;
    switch (g->state) {
    case 0:
        wait_for(g, from, OM_INFINITE);
        return;
    case 1:
        wait_for(g, lock, OM_INFINITE);
        return;
    case 2:
        stock += more;
        must(0 <= stock && stock <= PLACES, "the stock");
        must(om_release_mutex(&m, g->thread, lock.handle) == OM_SUCCESS, "a release of the lock");
        g->state++;
        return;
    default:
        must(om_release_semaphore(&m, g->thread, to.handle, 1, &before) == OM_SUCCESS, "a release of a semaphore");
        g->state = 0;
        if (++g->rounds == ITEMS) {
            end(g);
        }
    }
}

static void producer(guest *g) {
    trade(g, vacant, filled, 1);
}

static void consumer(guest *g) {
    trade(g, filled, vacant, -1);
}

/* Sets the timer, waits for it, and says what the time is, three times. */
static void ticker(guest *g) {
    if (g->state == 0) {
        must(om_set_timer(&m, g->thread, timer.handle, -5 * MILLISECOND) == OM_SUCCESS, "a timer");
        wait_for(g, timer, OM_INFINITE);
        return;
    }
    printf("the timer at %u ms\n", (unsigned)(now / MILLISECOND));
    g->state = 0;
    if (++g->rounds == 3) {
        end(g);
    }
}

/* Takes the pledge, sleeps for 12 ms, which is a wait for what nobody sets, and ends without a release. */
static void careless(guest *g) {
    switch (g->state) {
    case 0:
        wait_for(g, pledge, OM_INFINITE);
        return;
    case 1:
        wait_for(g, never, 12);
        return;
    default:
        end(g);
    }
}

static void heir(guest *g) {
    if (g->state == 0) {
        wait_for(g, pledge, OM_INFINITE);
        return;
    }
    must(g->code == OM_WAIT_ABANDONED_0, "an abandoned mutex");
    printf("the pledge was abandoned at %u ms\n", (unsigned)(now / MILLISECOND));
    end(g);
}

/* What came of the last call: who was answered may run again, and the slots of what ended are free again. With a place for each slot one
 * call tells of all that ended, however many a reader pins. */
static void look_round(void) {
    om_answer answers[4];
    om_reaping ended[SLOTS];
    size_t count;
    do {
        om_take_answered(&m, answers, 4, &count);
        for (size_t i = 0; i < count; i++) {
            guest *g = &guests[om_thread_data(&m, answers[i].thread)];
            g->code = answers[i].code;
            g->is_asleep = false;
        }
    } while (count == 4);
    om_take_ended(&m, ended, SLOTS, &count);
}

/* One turn: a step of each guest that can run; or else the time goes on. Whether there is more to do. */
static bool turn(void) {
    bool has_run = false;
    for (guest *g = guests; g < guests + GUESTS; g++) {
        if (!g->is_asleep && !g->is_over) {
            g->step(g);
            look_round();
            has_run = true;
        }
    }
    if (!has_run && om_next_due(&m, &now) == OM_SUCCESS) {
        must(om_tick(&m, now) == OM_SUCCESS, "a tick");
        look_round();
        has_run = true;
    }
    return has_run;
}

int main(void) {
    static void (*const steps[GUESTS])(guest *) = {producer, producer, consumer, consumer, ticker, careless, heir};
    om_limits limits = OM_LIMITS_DEFAULT;
    om_making inherited = om_inherited();
    om_member host, member;

    limits.slots = SLOTS;
    must(om_new(&limits, &m) == OM_SUCCESS && om_spawn(&m, 1, &host) == OM_SUCCESS, "no manager");
    must(om_create_semaphore(&m, host.thread, &inherited, "", 0, PLACES, PLACES, &vacant) == OM_SUCCESS, "no semaphore");
    must(om_create_semaphore(&m, host.thread, &inherited, "", 0, 0, PLACES, &filled) == OM_SUCCESS, "no semaphore");
    must(om_create_mutex(&m, host.thread, &inherited, "", 0, false, &lock) == OM_SUCCESS, "no mutex");
    must(om_create_mutex(&m, host.thread, &inherited, "", 0, false, &pledge) == OM_SUCCESS, "no mutex");
    must(om_create_timer(&m, host.thread, &inherited, "", 0, false, &timer) == OM_SUCCESS, "no timer");
    must(om_create_event(&m, host.thread, &inherited, "", 0, false, false, &never) == OM_SUCCESS, "no event");
    for (int i = 0; i < GUESTS; i++) {
        must(om_child(&m, host.thread, true, &member) == OM_SUCCESS, "no guest");
        must(om_set_thread_data(&m, member.thread, (uint64_t)i) == OM_SUCCESS, "no place for a guest's number");
        guests[i] = (guest){.step = steps[i], .process = member.process, .thread = member.thread};
    }
    while (turn()) {
    }
    for (int i = 0; i < GUESTS; i++) {
        must(guests[i].is_over, "a guest that never ends");
    }
    printf("%d items left, at %u ms\n", stock, (unsigned)(now / MILLISECOND));
    om_free(m);
    return 0;
}
