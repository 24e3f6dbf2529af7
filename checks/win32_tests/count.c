/* Runs one test function of Wine's, PROGRAM TEST, and counts its assertions: those that hold, those that don't, and those that don't behind a call that
 * isn't here. That is `missing` until three assertions of the same thread in a row hold, between which no such call was made. It prints each place
 * that fails once, and the three counts. */
#include <pthread.h>
#include <signal.h>
#include <stdint.h>
#include <stdio.h>
#include <sys/syscall.h>
#include <unistd.h>

#include "ntstatus.h"
#define WIN32_NO_STATUS
#include <windef.h>
#include <winbase.h>
#include <winternl.h>

#include "wine/test.h"
#undef wcslen
#undef swprintf

int winetest_debug = 1, winetest_interactive = 0;
const char *winetest_platform = "windows";

static pthread_mutex_t counting = PTHREAD_MUTEX_INITIALIZER;
static unsigned long held, failed, unsupported;
static struct {
    const char *file;
    int line, is_missing;
} told[4096];
static int told_count;
static char **words;
static __thread struct {
    const char *file, *function;
    int line;
} place;
static __thread const char *missing;
static __thread int held_since;
enum { ENOUGH = 3 };

/* Of each program: what GetProcAddress gives. */
extern const char *const asked_names[];
extern void (*const asked_calls[])(void);

void set_place(const char *file, int line, const char *function) {
    const char *slash = strrchr(file, '/');
    place.file = slash != NULL ? slash + 1 : file;
    place.line = line;
    place.function = function;
}

static int is_new(void) {
    for (int i = 0; i < told_count; i++) {
        if (told[i].line == place.line && told[i].is_missing == (missing != NULL) && strcmp(told[i].file, place.file) == 0) {
            return 0;
        }
    }
    if (told_count < 4096) {
        told[told_count].file = place.file;
        told[told_count].line = place.line;
        told[told_count++].is_missing = missing != NULL;
    }
    return 1;
}

/* A message is of Windows' own form: there %lx is of 32 bits, and %Iu of a pointer's size. */
static void say(const char *message, va_list values) {
    char form[1024], *to = form;
    for (const char *at = message; *at != 0 && to < form + sizeof form - 8; at++) {
        *to++ = *at;
        if (*at == '%') {
            while (at[1] != 0 && strchr("#0123456789.-+ *", at[1]) != NULL) {
                *to++ = *++at;
            }
            if (at[1] == 'l' && at[2] != 'l') {
                at++;
            } else if (at[1] == 'I') {
                at += at[2] == '6' ? 3 : 1;
                *to++ = 'z';
            }
        }
    }
    *to = 0;
    vprintf(form, values);
    if (to == form || to[-1] != '\n') {
        putchar('\n');
    }
}

void count_assertion(int holds, const char *message, ...) {
    va_list values;
    pthread_mutex_lock(&counting);
    if (holds) {
        held++;
        missing = ++held_since >= ENOUGH ? NULL : missing;
    } else {
        held_since = 0;
        *(missing != NULL ? &unsupported : &failed) += 1;
        if (is_new()) {
            printf("%s%s %s:%d %s: ", missing != NULL ? "without " : "FAILED", missing != NULL ? missing : "", place.file, place.line, place.function);
            va_start(values, message);
            say(message, values);
            va_end(values);
        }
    }
    pthread_mutex_unlock(&counting);
}

void ignore(const char *message, ...) {
    (void)message;
}

int broken(int holds) {
    (void)holds;
    return 0; /* what only some Windows does isn't allowed for */
}

int is_chosen(const char *test) {
    return strcmp(test, words[1]) == 0;
}

int winetest_get_mainargs(char ***all) {
    *all = words;
    return 1;
}

void winetest_wait_child_process(HANDLE process) {
    WaitForSingleObject(process, 30000);
}

const char *__cdecl __wine_dbg_strdup(const char *text) {
    static char ring[8][400];
    static int at;
    return strncpy(ring[at++ % 8], text, 399);
}

/* ---- What isn't here ---- */

/* A call that isn't here, by its name and its first parameter. Where it should write a handle it writes none. */
uintptr_t without(const char *name, uintptr_t first) {
    missing = name;
    held_since = 0;
    SetLastError(ERROR_CALL_NOT_IMPLEMENTED);
    if (strncmp(name, "Nt", 2) == 0 || strncmp(name, "Rtl", 3) == 0) {
        if ((strncmp(name, "NtCreate", 8) == 0 || strncmp(name, "NtOpen", 6) == 0) && first > UINT32_MAX) {
            *(HANDLE *)first = NULL;
        }
        return (uintptr_t)(uint32_t)STATUS_NOT_IMPLEMENTED;
    }
    return strncmp(name, "Create", 6) == 0 || strncmp(name, "Open", 4) == 0 ? 0xBAD00 : 0;
}

FARPROC WINAPI GetProcAddress(HMODULE module, LPCSTR name) {
    (void)module;
    for (int i = 0; asked_names[i] != NULL; i++) {
        if (strcmp(asked_names[i], name) == 0) {
            return (FARPROC)asked_calls[i];
        }
    }
    return NULL;
}

/* ---- A run ---- */

static void end(const char *how) {
    if (*how != 0) {
        printf("%s behind %s:%d %s, %s\n", how, place.file, place.line, place.function, missing != NULL ? missing : "all is here");
    }
    printf("COUNTS %lu %lu %lu %s\n", held, failed, unsupported, how);
    fflush(stdout);
    _exit(0);
}

static void dies(int signal) {
    end(signal == SIGALRM ? "hangs" : "dies");
}

void at_exit_of_the_process(void) {
    end("ends");
}

/* NtCurrentTeb of Wine's header reads it through gs, which nothing else uses here; threads that begin have that of the one that began them. */
static void set_block(void) {
    static TEB block;
    static PEB process;
    block.Tib.Self = &block.Tib;
    block.Peb = &process;
    process.SessionId = 1;
    block.ClientId.UniqueProcess = ULongToHandle(GetCurrentProcessId());
    block.ClientId.UniqueThread = ULongToHandle(GetCurrentThreadId());
    syscall(SYS_arch_prctl, 0x1001 /* ARCH_SET_GS */, &block);
}

int main(int count, char **given) {
    const int signals[] = {SIGSEGV, SIGBUS, SIGILL, SIGFPE, SIGABRT, SIGALRM};
    for (size_t i = 0; i < sizeof signals / sizeof signals[0]; i++) {
        signal(signals[i], dies);
    }
    words = given;
    if (count < 2) {
        return 2;
    }
    set_block();
    alarm(60);
    atexit(at_exit_of_the_process);
    run_tests();
    end("");
    return 0;
}
