/* Stands in the place of the manager of examples/win32, whose files are built with -Dom=(*anew()): all its calls are recorded to the file that RECORDED
 * names, as a script for obman. Where SAVED names it each call is made of a manager that was just saved and loaded. */
#include "../holding.h"

static om_manager manager;

/* The manager that the host has made gives way to one with less room, since a savestate has each slot. What a call records is written at once. */
static FILE *begun(const char *path) {
    om_limits limits = OM_LIMITS_DEFAULT;
    FILE *record = path != NULL ? fopen(path, "wb") : NULL;
    MUST(record != NULL && setvbuf(record, NULL, _IOFBF, 1 << 16) == 0);
    limits.slots = 128; /* for waits for 64 objects */
    om_free(manager);
    MUST(om_new_with(&limits, true, true, &manager) == OM_SUCCESS && om_record(&manager, true) == OM_SUCCESS);
    fprintf(record, "# obman --more --reuse --repeats --slots=%u --processes=%u --threads=%u", limits.slots, limits.processes, limits.threads);
    fprintf(record, " --handles=%u --waits=%u\n", limits.handles, limits.waits);
    return record;
}

static void write_to(FILE *record) {
    char lines[OM_LINE_MOST];
    size_t written;
    do {
        MUST(om_take_record(&manager, lines, sizeof lines, &written) == OM_SUCCESS);
        MUST(fwrite(lines, 1, written, record) == written);
    } while (written != 0);
    MUST(fflush(record) == 0);
}

/* Before each call, under the host's lock. */
om_manager *anew(void) {
    static FILE *record;
    const char *saved = getenv("SAVED");
    if (record == NULL && manager.at != NULL) {
        record = begun(saved != NULL ? saved : getenv("RECORDED"));
    } else if (record != NULL) {
        write_to(record);
        if (saved != NULL) {
            manager = reloaded(manager);
            MUST(om_record(&manager, true) == OM_SUCCESS);
        }
    }
    return &manager;
}
