/* A program by many seeds: whether each run ends alike, and how it doesn't. Each seed is a process of Linux' own, one after another. */
#define _GNU_SOURCE
#include "nt.h"

#include <stdio.h>
#include <stdlib.h>
#include <string.h>
#include <sys/mman.h>
#include <sys/wait.h>
#include <unistd.h>

enum { TOLD_MOST = 4096 /* bytes of standard error that are shown of a run */ };

/* How runs end: with a status, or by a signal of Linux', and what they printed. */
typedef struct end {
    int status, output, errors; /* output and errors are files, of the first run that ended so */
    uint64_t first, count;
} end;

static int file_of_output(void) {
    int file = memfd_create("output", MFD_CLOEXEC);
    if (file < 0) {
        stop("no file for a run's output");
    }
    return file;
}

/* One run, whose output and errors are in files. */
static end run_seed(uint64_t number, int (*program)(void)) {
    end e = {.output = file_of_output(), .errors = file_of_output(), .first = number, .count = 1};
    pid_t child = fork();
    if (child < 0) {
        stop("no process for a run");
    }
    if (child == 0) {
        dup2(e.output, STDOUT_FILENO);
        dup2(e.errors, STDERR_FILENO);
        seed = number;
        exit(program());
    }
    waitpid(child, &e.status, 0);
    return e;
}

static bool is_same_output(int one, int other) {
    char a[4096], b[4096];
    ssize_t count;
    off_t at = 0;
    do {
        count = pread(one, a, sizeof a, at);
        if (count < 0 || pread(other, b, sizeof b, at) != count || memcmp(a, b, (size_t)count) != 0) {
            return false;
        }
        at += count;
    } while (count > 0);
    return true;
}

/* A run's end is one of those before, or a new one. */
static size_t place_of(end *ends, size_t count, const end *e) {
    size_t i = 0;
    while (i < count && (ends[i].status != e->status || !is_same_output(ends[i].output, e->output))) {
        i++;
    }
    return i;
}

static void show(int file) {
    char text[TOLD_MOST];
    ssize_t count = pread(file, text, sizeof text, 0);
    fwrite(text, 1, count > 0 ? (size_t)count : 0, stdout);
}

static void tell_end(const end *e, uint64_t all) {
    printf("nt: %llu of %llu runs, first by seed %llu, ", (unsigned long long)e->count, (unsigned long long)all, (unsigned long long)e->first);
    if (WIFEXITED(e->status)) {
        printf("end with status %d; it prints and says:\n", WEXITSTATUS(e->status));
    } else {
        printf("die of signal %d; it prints and says:\n", WTERMSIG(e->status));
    }
    show(e->output);
    show(e->errors);
}

/* Runs a program by each of these seeds. 0 where all end alike, and by an end of the program's own. */
int run_seeds(uint64_t from, uint64_t to, int (*program)(void)) {
    static end ends[SEEDS_MOST];
    size_t count = 0;
    for (uint64_t number = from; number <= to; number++) {
        end e = run_seed(number, program);
        size_t i = place_of(ends, count, &e);
        if (i == count) {
            ends[count++] = e;
            continue;
        }
        ends[i].count++;
        close(e.output);
        close(e.errors);
    }
    for (size_t i = 0; i < count; i++) {
        tell_end(&ends[i], to - from + 1);
    }
    bool is_hang = WIFEXITED(ends[0].status) && (WEXITSTATUS(ends[0].status) == NO_END || WEXITSTATUS(ends[0].status) == HOST_FAILED);
    return count == 1 && WIFEXITED(ends[0].status) && !is_hang ? 0 : 1;
}
