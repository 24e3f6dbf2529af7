/* Stands between the host that it is linked with, by --wrap of om_new, om_new_with and om_free, and the library. Where RECORD names a file, all calls
 * of a manager are recorded to it. Else a manager begins with objects that have ended and that readers pin, to the host's end: more of
 * them than a short list has places. */
#include <err.h>
#include <obman.h>
#include <stdio.h>
#include <stdlib.h>

enum { READERS = 3, PINS = 16 };

uint32_t __real_om_new(const om_limits *limits, om_manager *m);
uint32_t __real_om_new_with(const om_limits *limits, bool reuse, bool repeats, om_manager *m);
void __real_om_free(om_manager m);

static om_reader readers[READERS];

static void must(bool holds, const char *what) {
    if (!holds) errx(1, "%s", what);
}

static void pin(om_manager *m) {
    om_making plain = {0, 0, false, false, false, false};
    om_opening made;
    om_member own;
    must(om_spawn(m, 1, &own) == OM_SUCCESS, "no process");
    for (int i = 0; i < READERS * PINS; i++) {
        om_reader *reader = &readers[i / PINS];
        must(i % PINS != 0 || om_reader_new(m, reader) == OM_SUCCESS, "no reader");
        must(om_create_event(m, own.thread, &plain, "", 0, false, false, &made) == OM_SUCCESS, "no object");
        must(om_reader_pin(reader, made.object.slot, made.object.generation) == OM_SUCCESS, "no pin");
    }
    must(om_exit(m, own.process) == OM_SUCCESS, "no end");
}

static void unpin(om_manager *m) {
    om_reaping ended[READERS * PINS];
    size_t count;
    must(om_take_ended(m, ended, READERS * PINS, &count) == OM_SUCCESS && count == READERS * PINS, "what is pinned isn't told");
    __real_om_free(*m);
    for (int i = 0; i < READERS; i++) om_reader_free(readers[i]);
}

static void write_to(FILE *record, om_manager *m) {
    char lines[OM_LINE_MOST];
    size_t written = 1;
    must(record != NULL, "RECORD names no file");
    must(om_take_record(m, lines, 1, &written) == OM_ERROR_INSUFFICIENT_BUFFER && written == 0, "a line in one byte");
    do {
        must(om_take_record(m, lines, sizeof lines, &written) == OM_SUCCESS, "no room for a line");
        must(written == 0 || lines[written - 1] == '\n', "a part of a line");
        must(fwrite(lines, 1, written, record) == written, "the file can't be written");
    } while (written != 0);
    must(om_take_record(m, lines, 0, &written) == OM_SUCCESS && written == 0, "a record that is taken isn't empty");
    must(fclose(record) == 0, "the file can't be written");
    __real_om_free(*m);
}

static uint32_t begun(uint32_t status, om_manager *m) {
    must(status == OM_SUCCESS, "no manager");
    if (getenv("RECORD")) must(om_record(m, true) == OM_SUCCESS, "no record");
    else pin(m);
    return OM_SUCCESS;
}

uint32_t __wrap_om_new(const om_limits *limits, om_manager *m) {
    return begun(__real_om_new(limits, m), m);
}

uint32_t __wrap_om_new_with(const om_limits *limits, bool reuse, bool repeats, om_manager *m) {
    return begun(__real_om_new_with(limits, reuse, repeats, m), m);
}

void __wrap_om_free(om_manager m) {
    if (getenv("RECORD")) write_to(fopen(getenv("RECORD"), "wb"), &m);
    else unpin(&m);
}
