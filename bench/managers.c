/* The cases of bench/managers.rs through the header: a thousand managers with the greatest limits at a time, each with
 * a small guest, and managers that are made and ended in turn. Of each it prints the line
 * `CASE: ROUNDS in NANOSECONDS[, SUM]`, but resident bytes in place of the nanoseconds where it says so. */
#include "timed.h"

enum { MANAGERS = 1000, PAGE = 4096 };

static om_manager managers[MANAGERS];

/* How many bytes this process has in memory. */
static uint64_t resident(void) {
    uint64_t pages;
    FILE *statm = fopen("/proc/self/statm", "r");
    must(statm != NULL && fscanf(statm, "%*s %" SCNu64, &pages) == 1, true);
    fclose(statm);
    return pages * PAGE;
}

static void run_together(void) {
    om_limits limits = OM_LIMITS_MOST;
    uint64_t sum = 0, before = resident(), started = now();
    for (int i = 0; i < MANAGERS; i++) {
        done(om_new(&limits, &managers[i]));
        sum += small_guest(&managers[i]);
    }
    uint64_t taken = now() - started, bytes = resident() - before;
    printf("a thousand with small guests: %d in %" PRIu64 ", %" PRIu64 "\n", MANAGERS, taken, sum);
    printf("a thousand with small guests, resident bytes: %d in %" PRIu64 ", %" PRIu64 "\n", MANAGERS, bytes, sum);
    for (int i = 0; i < MANAGERS; i++) {
        om_free(managers[i]);
    }
}

static void run_in_turn(const char *what, int rounds, om_limits limits) {
    om_manager m;
    uint64_t started = now();
    for (int i = 0; i < rounds; i++) {
        done(om_new(&limits, &m));
        om_free(m);
    }
    printf("made and ended, %s: %d in %" PRIu64 "\n", what, rounds, now() - started);
}

int main(void) {
    om_limits few = OM_LIMITS_DEFAULT, more = few, most = OM_LIMITS_MOST;
    more.slots = 1024;
    more.threads = 4096;
    run_together();
    run_in_turn("the default limits", 10000, few);
    run_in_turn("1,024 slots and 4,096 threads", 2000, more);
    run_in_turn("the greatest limits", 200, most);
    return 0;
}
