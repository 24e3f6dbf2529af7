/* What the programs through the header share: the clock, the number that a call has to answer, and a small guest. */
#include <inttypes.h>
#include <obman.h>
#include <stdio.h>
#include <stdlib.h>
#include <time.h>

static inline uint64_t nanoseconds(clockid_t clock) {
    struct timespec t;
    clock_gettime(clock, &t);
    return (uint64_t)t.tv_sec * 1000000000u + (uint64_t)t.tv_nsec;
}

static inline uint64_t now(void) {
    return nanoseconds(CLOCK_MONOTONIC);
}

static inline void must(uint32_t answer, uint32_t due) {
    if (answer != due) {
        fprintf(stderr, "%u in place of %u\n", (unsigned)answer, (unsigned)due);
        exit(1);
    }
}

static inline void done(uint32_t answer) {
    must(answer, OM_SUCCESS);
}

/* A process with two threads and ten unnamed events. The sum of its handles. */
static inline uint32_t small_guest(om_manager *m) {
    om_making making = {0};
    om_member member;
    om_opening o;
    uint32_t other, sum = 0;
    done(om_spawn(m, 1, &member));
    done(om_thread(m, member.process, &other));
    for (int i = 0; i < 10; i++) {
        done(om_create_event(m, member.thread, &making, "", 0, false, false, &o));
        sum += o.handle;
    }
    return sum;
}
