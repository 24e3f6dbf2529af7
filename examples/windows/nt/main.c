/* nt [OPTION ..] PROGRAM [WORD ..]
 * nt [OPTION ..] --load FILE
 *
 * Runs a 64-bit program for Windows, and those that it begins, to the status with which it ends. The folder in which it lies is their drive C:.
 *
 * --drive FOLDER    this folder is, and PROGRAM is a path on it
 * --wine DIR        Wine's DLLs, in the folder with x86_64-windows in it, if they aren't where Debian or Wine's own packages put them
 * --seed N          the turns of the threads come from this number, 1 if none is told: the same number, the same run
 * --seeds A..B      runs it by each of these, and says how the runs end: whether alike, and which is the first that ends so
 * --most N          a run stops behind so many instructions, with the status 124; 2,000,000,000 with --seeds
 * --trace FILE      writes the calls that reach the library as a script for obman, each with its answer behind #
 * --save FILE       writes all of it to a file, and ends, once
 * --at N            N instructions have run, and those to the end of a block; a run that ends before writes none
 * --load FILE       goes on from there, as if nothing had been; with --seed N or --seeds A..B by other turns from there on. The drive is to be as it was
 * --calls           says each system call with its first argument and its status on standard error
 * --figures         says at the end how many instructions and calls there were, and how much of the guests' time has passed
 *
 * The status is 125 where the host itself can't go on, and 2 for a bad command line. */
#define _GNU_SOURCE
#include "nt.h"

#include <errno.h>
#include <stdarg.h>
#include <stdio.h>
#include <stdlib.h>
#include <string.h>
#include <unistd.h>

#define SEEDS_MOST_INSTRUCTIONS 2000000000u

om_member host;
char wine_dlls[512], wine_nls[512];

static struct {
    const char *drive, *wine, *seed, *seeds, *most, *trace, *save, *at, *load, *calls, *figures;
} options;

static FILE *trace;
static char program_path[NT_NAME_MOST], command[2 * NT_NAME_MOST];

_Noreturn void stop(const char *format, ...) {
    va_list values;
    fflush(stdout);
    fputs("nt: ", stderr);
    va_start(values, format);
    vfprintf(stderr, format, values);
    va_end(values);
    fputc('\n', stderr);
    if (trace != NULL) {
        write_trace();
        fclose(trace);
    }
    exit(HOST_FAILED);
}

/* A call of the host's own that has to succeed. */
void must(uint32_t status, const char *what) {
    if (status != OM_SUCCESS) {
        stop("%s: %s", what, om_error_name(status));
    }
}

/* ---- The command line ---- */

_Noreturn static void refuse(void) {
    fputs("nt: bad command line\n"
          "nt [--drive FOLDER] [--wine DIR] [--seed N | --seeds A..B] [--most N | --save FILE --at N] [--trace FILE] [--calls] [--figures]\n"
          "   PROGRAM [WORD ..] | --load FILE\n",
          stderr);
    exit(2);
}

static uint64_t number_of(const char *word, const char *behind) {
    char *end;
    errno = 0;
    uint64_t number = strtoull(word, &end, 10);
    if (*word < '0' || *word > '9' || errno != 0 || strncmp(end, behind, strlen(behind)) != 0 || (*behind == 0 && *end != 0)) {
        refuse();
    }
    return number;
}

/* Takes the options, and gives how many words they are. */
static int take_options(int count, char **words) {
    const struct {
        const char *name, **value;
        bool is_alone;
    } all[] = {
        {"--drive", &options.drive, false}, {"--wine", &options.wine, false}, {"--seed", &options.seed, false},   {"--seeds", &options.seeds, false},
        {"--most", &options.most, false},   {"--trace", &options.trace, false}, {"--save", &options.save, false},   {"--at", &options.at, false},
        {"--load", &options.load, false},   {"--calls", &options.calls, true},  {"--figures", &options.figures, true},
    };
    int at = 1;
    while (at < count && strncmp(words[at], "--", 2) == 0) {
        size_t i = 0;
        while (i < sizeof all / sizeof *all && strcmp(words[at], all[i].name) != 0) {
            i++;
        }
        if (i == sizeof all / sizeof *all || (!all[i].is_alone && at + 1 == count)) {
            refuse();
        }
        *all[i].value = words[at + !all[i].is_alone];
        at += all[i].is_alone ? 1 : 2;
    }
    bool begins = at < count, loads = options.load != NULL, saves = options.save != NULL;
    bool is_many = options.seeds != NULL && (options.seed != NULL || options.trace != NULL || saves);
    if (begins == loads || is_many || saves != (options.at != NULL) || (saves && options.most != NULL) || (loads && options.trace != NULL)) {
        refuse();
    }
    return at;
}

/* Whether the tables of languages lie in a folder. */
static bool has_tables(const char *format, const char *folder) {
    char file[sizeof wine_nls + 16];
    snprintf(wine_nls, sizeof wine_nls, format, folder);
    snprintf(file, sizeof file, "%s/locale.nls", wine_nls);
    return access(file, R_OK) == 0;
}

/* Whether Wine is in a folder, as its packages lay it out; then where its DLLs and its tables are is known. */
static bool has_wine(const char *folder) {
    char file[sizeof wine_dlls + 16];
    snprintf(wine_dlls, sizeof wine_dlls, "%s/x86_64-windows", folder);
    snprintf(file, sizeof file, "%s/ntdll.dll", wine_dlls);
    return access(file, R_OK) == 0 &&
           (has_tables("%s/nls", folder) || has_tables("%s/../../share/wine/nls", folder) || has_tables("%s/../../../share/wine/nls", folder));
}

static void find_wine(void) {
    static const char *const all[] = {
        "/usr/lib/x86_64-linux-gnu/wine", "/usr/lib64/wine", "/usr/lib/wine", "/opt/wine-stable/lib64/wine", "/opt/wine-stable/lib/wine",
    };
    size_t i = 0;
    if (options.wine != NULL ? has_wine(options.wine) : false) {
        return;
    }
    while (options.wine == NULL && i < sizeof all / sizeof *all && !has_wine(all[i])) {
        i++;
    }
    if (options.wine != NULL || i == sizeof all / sizeof *all) {
        stop("no Wine in %s (Debian: apt-get install libwine; else --wine DIR)", options.wine != NULL ? options.wine : "any place where its packages put it");
    }
}

/* The drive, the program's path on it, and the command line that it sees. */
static void take_words(int count, char **words) {
    char *slash = strrchr(words[0], '/'), folder[NT_NAME_MOST] = ".";
    if (options.drive == NULL && slash != NULL) {
        snprintf(folder, sizeof folder, "%.*s", slash == words[0] ? 1 : (int)(slash - words[0]), words[0]);
    }
    set_drive(options.drive != NULL ? options.drive : folder);
    snprintf(program_path, sizeof program_path - 16, "%s", options.drive != NULL || slash == NULL ? words[0] : slash + 1);
    for (char *c = program_path; *c != 0; c++) {
        *c = *c == '/' ? '\\' : *c;
    }
    int length = snprintf(command, sizeof command, "C:\\%s", program_path);
    for (int i = 1; i < count; i++) {
        length += snprintf(command + length, sizeof command - (size_t)length, strchr(words[i], ' ') != NULL || words[i][0] == 0 ? " \"%s\"" : " %s", words[i]);
        if (length >= (int)sizeof command) {
            stop("the command line is too long");
        }
    }
}

/* ---- A run ---- */

void write_trace(void) {
    static char lines[4 * OM_LINE_MOST];
    size_t written;
    while (trace != NULL && om_take_record(&om, lines, sizeof lines, &written) == OM_SUCCESS && written > 0) {
        fwrite(lines, 1, written, trace);
    }
}

static void begin_trace(const om_limits *limits) {
    trace = fopen(options.trace, "wb");
    if (trace == NULL) {
        stop("%s can't be written", options.trace);
    }
    fprintf(trace, "# obman --more --reuse --repeats --slots=%u --processes=%u --threads=%u", limits->slots, limits->processes, limits->threads);
    fprintf(trace, " --handles=%u --waits=%u\n", limits->handles, limits->waits);
    must(om_record(&om, true), "a record");
}

static void end_trace(void) {
    write_trace();
    bool is_bad = trace != NULL && ferror(trace) != 0;
    if (trace != NULL && (fclose(trace) != 0 || is_bad)) {
        trace = NULL;
        stop("the trace can't be written");
    }
    trace = NULL;
}

static void begin_run(void) {
    om_limits limits = LIMITS;
    uint64_t own = seed;
    if (options.load == NULL) {
        must(om_new_with(&limits, true, true, &om), "a manager");
        if (options.trace != NULL) {
            begin_trace(&limits);
        }
        begin_first(program_path, command);
    } else {
        load(options.load);
        seed = options.seed != NULL || options.seeds != NULL ? own : seed;
    }
}

/* Runs the program to its end, for its status, or to where it is saved. */
static int run_program(void) {
    begin_run();
    bool has_ended = run();
    if (options.save != NULL) {
        if (has_ended) {
            fputs("nt: the program ended before, and nothing is saved\n", stderr);
        } else {
            save(options.save);
        }
    } else if (!has_ended) {
        tell_waits();
        fprintf(stderr, "nt: no end within %llu instructions\n", (unsigned long long)instructions_most);
    }
    end_trace();
    if (options.figures != NULL) {
        unsigned long long all = instructions, calls = calls_count, milliseconds = (now() - BEGAN) / 10000;
        fprintf(stderr, "nt: %llu instructions, %llu calls, %llu ms\n", all, calls, milliseconds);
    }
    end_all();
    return has_ended ? (int)(exit_code & 0xFF) : options.save != NULL ? 0 : NO_END;
}

int main(int count, char **words) {
    int at = take_options(count, words);
    seed = options.seed == NULL ? 1 : number_of(options.seed, "");
    const char *most = options.at != NULL ? options.at : options.most;
    instructions_most = most != NULL ? number_of(most, "") : options.seeds != NULL ? SEEDS_MOST_INSTRUCTIONS : UINT64_MAX;
    tells_calls = options.calls != NULL;
    find_wine();
    if (options.load == NULL) {
        take_words(count - at, words + at);
    } else if (options.drive != NULL) {
        set_drive(options.drive);
    }
    if (options.seeds == NULL) {
        return run_program();
    }
    uint64_t from = number_of(options.seeds, ".."), to = number_of(strstr(options.seeds, "..") + 2, "");
    if (from > to || to - from >= SEEDS_MOST) {
        refuse();
    }
    return run_seeds(from, to, run_program);
}
