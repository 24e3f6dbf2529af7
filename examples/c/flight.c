/* A flight recorder: a host that can always tell what led there, however long it has run. From time to time it saves its manager and
 * drops what was recorded before, so it has the last savestate and the calls since. Where a guest hangs it writes both:
 *
 *     flight STATE RECORD
 *     obman --load STATE < RECORD        answers the calls of the record as the manager did: they stand in it behind #
 */
#include <obman.h>
#include <stdio.h>
#include <stdlib.h>

enum { GUESTS = 8, ROUNDS = 2500, BETWEEN = 1000 };

static om_manager m;
static char *state, *record;
static size_t state_size, record_size;

static void must(int is_good, const char *what) {
    if (!is_good) {
        fprintf(stderr, "flight: %s\n", what);
        exit(1);
    }
}

/* Grows what stands at a place by so many bytes, and says where they are. */
static char *more(char **at, size_t size, size_t by) {
    char *grown = realloc(*at, size + by);
    must(grown != NULL, "no memory");
    *at = grown;
    return grown + size;
}

/* What was recorded since is kept, behind what is kept already. */
static void take_record(void) {
    size_t written;
    do {
        char *lines = more(&record, record_size, 16 * OM_LINE_MOST);
        must(om_take_record(&m, lines, 16 * OM_LINE_MOST, &written) == OM_SUCCESS, "a record");
        record_size += written;
    } while (written > 0);
}

/* Everything begins here, as far as the record goes. */
static void checkpoint(void) {
    take_record();
    record_size = 0;
    must(om_save(&m, "", 0, &state_size) == OM_ERROR_INSUFFICIENT_BUFFER, "the size of a savestate");
    must(om_save(&m, more(&state, 0, state_size), state_size, &state_size) == OM_SUCCESS, "a savestate");
    must(om_record(&m, true) == OM_SUCCESS, "a record begins");
}

static unsigned any(unsigned below) {
    static unsigned seed = 3;
    seed = seed * 1664525u + 1013904223u;
    return (seed >> 9) % below;
}

/* Some guest makes some call. */
static void guest_call(const om_member *guests, const uint32_t *handles) {
    unsigned g = any(GUESTS);
    uint32_t thread = guests[g].thread, answer;
    om_making making = {0};
    om_opening made;
    switch (any(5)) {
    case 0: om_wait(&m, thread, false, any(50), &handles[g], 1, &answer); break;
    case 1: om_set_event(&m, thread, handles[g]); break;
    case 2: om_reset_event(&m, thread, handles[g]); break;
    case 3: om_tick(&m, om_now(&m) + any(100000)); break;
    default:
        if (om_create_event(&m, thread, &making, "", 0, false, false, &made) == OM_SUCCESS) {
            om_close(&m, thread, made.handle);
        }
    }
}

static void look_round(void) {
    om_answer answers[GUESTS];
    om_reaping ended[16];
    size_t count;
    om_take_answered(&m, answers, GUESTS, &count);
    om_take_ended(&m, ended, 16, &count);
}

static void write_file(const char *path, const char *bytes, size_t size) {
    FILE *file = fopen(path, "wb");
    must(file != NULL && fwrite(bytes, 1, size, file) == size && fclose(file) == 0, path);
}

int main(int count, char **words) {
    om_limits limits = OM_LIMITS_DEFAULT;
    om_member guests[GUESTS];
    uint32_t handles[GUESTS];
    om_making making = {0};
    om_opening made;

    must(count == 3, "flight STATE RECORD");
    must(om_new(&limits, &m) == OM_SUCCESS, "a manager");
    for (int i = 0; i < GUESTS; i++) {
        must(om_spawn(&m, 1, &guests[i]) == OM_SUCCESS, "a guest");
        must(om_create_event(&m, guests[i].thread, &making, "", 0, i % 3 == 0, false, &made) == OM_SUCCESS, "an event");
        handles[i] = made.handle;
    }
    for (int round = 0; round < ROUNDS; round++) {
        if (round % BETWEEN == 0) {
            checkpoint();
        }
        guest_call(guests, handles);
        look_round();
    }

    /* Here a guest hangs, and somebody wants to know what led there. */
    take_record();
    write_file(words[1], state, state_size);
    write_file(words[2], record, record_size);
    free(state);
    free(record);
    om_free(m);
    return 0;
}
