/* om_save and om_load of 60,000 named events, 16 processes with 1,000 handles each besides, and 10,000 pending waits;
 * and a copy of the bytes; then the same of a small guest, where numbers are given once and where they come back. Of each
 * it prints the line `CASE, LENGTH bytes: 1 in NANOSECONDS, DIGEST`. */
#include "timed.h"
#include <string.h>

enum { ROUNDS = 5, PROCESSES = 20, EVENTS = 60000, OF_EACH = EVENTS / 4, OPENED = 1000, WAITS = 10000 };

static om_manager m;

static size_t text(char *name, int number) {
    return (size_t)sprintf(name, "object %d", number);
}

/* The first four processes make the events, and the others open some and wait. */
static void fill(void) {
    om_making making = om_named();
    om_member hosts[PROCESSES];
    om_opening o;
    char name[32];
    for (int i = 0; i < PROCESSES; i++) {
        done(om_spawn(&m, 1, &hosts[i]));
    }
    for (int i = 0; i < EVENTS; i++) {
        done(om_create_event(&m, hosts[i / OF_EACH].thread, &making, name, text(name, i), false, false, &o));
    }
    for (int i = 0; i < 16 * OPENED; i++) {
        size_t length = text(name, (i / OPENED * OPENED + i % OPENED * 7) % EVENTS);
        done(om_open_event(&m, hosts[4 + i / OPENED].thread, OM_EVENT_ALL_ACCESS, false, name, length, &o));
    }
    for (int i = 0; i < WAITS; i++) {
        uint32_t thread, wait, handle = 4 + 4 * (uint32_t)(i % OPENED);
        done(om_thread(&m, hosts[4 + i % 16].process, &thread));
        must(om_wait(&m, thread, false, OM_INFINITE, &handle, 1, &wait), OM_ERROR_IO_PENDING);
    }
}

static void measure(const char *of) {
    static const char *const cases[] = {"save", "load", "copy"};
    uint64_t best[] = {UINT64_MAX, UINT64_MAX, UINT64_MAX};
    size_t length, written;
    must(om_save(&m, NULL, 0, &length), OM_ERROR_INSUFFICIENT_BUFFER);
    unsigned char *bytes = malloc(length), *other = malloc(length);
    for (int i = 0; i < ROUNDS; i++) {
        om_manager again;
        uint64_t times[4] = {now()};
        done(om_save(&m, bytes, length, &written));
        times[1] = now();
        done(om_load(bytes, length, &again));
        times[2] = now();
        memcpy(other, bytes, length);
        times[3] = now();
        done(om_save(&again, other, length, &written));
        must(memcmp(bytes, other, length) == 0, true);
        om_free(again);
        for (int at = 0; at < 3; at++) {
            uint64_t taken = times[at + 1] - times[at];
            best[at] = taken < best[at] ? taken : best[at];
        }
    }
    for (int at = 0; at < 3; at++) {
        printf("%s%s, %zu bytes: 1 in %" PRIu64 ", ", cases[at], of, length, best[at]);
        for (size_t i = length - 32; i < length; i++) {
            printf("%02x", bytes[i]);
        }
        printf("\n");
    }
    free(bytes);
    free(other);
    om_free(m);
}

int main(void) {
    om_limits limits = OM_LIMITS_MOST;
    done(om_new(&limits, &m));
    fill();
    measure("");
    done(om_new(&limits, &m));
    small_guest(&m);
    measure(" of a small guest");
    done(om_new_with(&limits, true, false, &m));
    small_guest(&m);
    measure(" of a small guest whose numbers come back");
    return 0;
}
