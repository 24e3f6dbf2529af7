/* The lock, threads that sleep, and the clock. */
#include "host.h"

#include <linux/futex.h>
#include <stdio.h>
#include <stdlib.h>
#include <sys/syscall.h>
#include <time.h>
#include <unistd.h>

om_manager om;
om_member host;
_Thread_local thread *me;

/* What the word of the lock says: CROWDED that somebody sleeps until it is given back. */
enum { FREE, TAKEN, CROWDED };
/* What that of a thread says, which looks for an answer, or sleeps until there is one. */
enum { LOOKS, SLEEPS, ANSWERED, ENDED };
/* How often a thread looks before it sleeps, and how many of its waits sleep at once where it was in vain. */
enum { LOOKS_FOR_LOCK = 100, LOOKS_FOR_ANSWER = 200, SKIPS = 50 };
enum { MOST_WAKING = 16 };

static atomic_uint lock;
static _Thread_local struct {
    int count;
    atomic_uint *words[MOST_WAKING];
} waking; /* whom a thread is to wake */
static unsigned waiting; /* how many threads wait */
static pthread_once_t once = PTHREAD_ONCE_INIT;
static pthread_key_t adopted; /* threads that CreateThread didn't begin */
static atomic_uint clock_calls;
static uint64_t clock_sleeps_until, clock_begins_at; /* nothing is due before the first */
static process *program;

static void must(bool holds, const char *what) {
    if (!holds) {
        fprintf(stderr, "win32: %s\n", what);
        abort();
    }
}

/* ---- The lock, and words on which threads sleep: https://man7.org/linux/man-pages/man2/futex.2.html ---- */

/* Sleeps, if the word has this value, until it is woken, or until a moment of CLOCK_MONOTONIC. */
static void sleep_on(atomic_uint *word, unsigned value, const struct timespec *until) {
    syscall(SYS_futex, word, FUTEX_WAIT_BITSET_PRIVATE, value, until, NULL, FUTEX_BITSET_MATCH_ANY);
}

/* Wakes one. Where the word has gone that is nobody, or one that sleeps again. */
static void wake_on(atomic_uint *word) {
    syscall(SYS_futex, word, FUTEX_WAKE_PRIVATE, 1);
}

/* Wakes one when the caller gives the lock back. */
static void wake_later(atomic_uint *word) {
    if (waking.count == MOST_WAKING) {
        wake_on(waking.words[--waking.count]);
    }
    waking.words[waking.count++] = word;
}

/* Looks so many times whether a word has another value. */
static bool has_changed(atomic_uint *word, unsigned value, int looks) {
    while (looks > 0 && atomic_load_explicit(word, memory_order_acquire) == value) {
        __builtin_ia32_pause();
        looks--;
    }
    return looks > 0;
}

static void take_lock(void) {
    unsigned seen = FREE;
    while (!atomic_compare_exchange_strong_explicit(&lock, &seen, TAKEN, memory_order_acquire, memory_order_relaxed)) {
        if (!has_changed(&lock, seen, LOOKS_FOR_LOCK)) {
            while (atomic_exchange_explicit(&lock, CROWDED, memory_order_acquire) != FREE) {
                sleep_on(&lock, CROWDED, NULL);
            }
            return;
        }
        seen = FREE;
    }
}

static void give_lock(void) {
    if (atomic_exchange_explicit(&lock, FREE, memory_order_release) == CROWDED) {
        wake_on(&lock);
    }
    while (waking.count > 0) {
        wake_on(waking.words[--waking.count]);
    }
}

/* ---- The clock ---- */

/* The moment, in units of 100 ns since 1601, by a clock that nobody sets. The manager's moments are the same. */
uint64_t now(void) {
    struct timespec t;
    clock_gettime(CLOCK_MONOTONIC, &t);
    return clock_begins_at + (uint64_t)t.tv_sec * 10000000u + (uint64_t)t.tv_nsec / 100;
}

static struct timespec clock_time(uint64_t moment) {
    uint64_t units = moment > clock_begins_at ? moment - clock_begins_at : 0;
    return (struct timespec){.tv_sec = (time_t)(units / 10000000u), .tv_nsec = (long)(units % 10000000u * 100)};
}

/* The next moment at which something is due. */
static uint64_t next_moment(void) {
    uint64_t due;
    return om_next_due(&om, &due) == OM_SUCCESS ? due : NEVER;
}

/* The clock sleeps no longer than until something is due. */
static void tell_clock(void) {
    uint64_t due = next_moment();
    if (due < clock_sleeps_until) {
        clock_sleeps_until = due;
        atomic_fetch_add_explicit(&clock_calls, 1, memory_order_relaxed);
        wake_later(&clock_calls);
    }
}

bool is_nothing_due(void) {
    return clock_sleeps_until == NEVER;
}

/* Tells a thread that waits why it waits no longer. */
static void wake(thread *t, unsigned why) {
    if (t->waits) {
        t->waits = false;
        waiting--;
        if (atomic_exchange_explicit(&t->state, why, memory_order_acq_rel) == SLEEPS) {
            wake_later(&t->state);
        }
    }
}

/* Under the lock: wakes just those whose waits are answered, and says whether there are any. */
static bool has_woken(void) {
    om_answer answers[16];
    unsigned before = waiting;
    size_t count;
    do {
        om_take_answered(&om, answers, 16, &count);
        for (size_t i = 0; i < count; i++) {
            thread *t = thread_numbered(answers[i].thread);
            t->answer = answers[i].code;
            wake(t, ANSWERED);
        }
    } while (count == 16);
    return waiting < before;
}

/* Lets go what was kept at objects that have ended. Nobody pins an object here. */
static void take_ended(void) {
    om_reaping ended[16];
    size_t count;
    do {
        om_take_ended(&om, ended, 16, &count);
        for (size_t i = 0; i < count; i++) {
            kept *k = (kept *)(uintptr_t)om_object_data(&om, ended[i].object.slot, ended[i].object.generation);
            if (k != NULL) {
                k->end(k);
            }
        }
    } while (count == 16);
}

/* Behind each call, under the lock. */
void look_round(void) {
    has_woken();
    take_ended();
    tell_clock();
}

/* Tells the manager what the time is, by way of each moment at which something was due. */
void tell_time(void) {
    uint64_t to = now(), due;
    while ((due = next_moment()) <= to) {
        om_advance(&om, due > om_now(&om) ? due : om_now(&om));
        queue_routines();
    }
    om_advance(&om, to > om_now(&om) ? to : om_now(&om));
}

static void *tick(void *unused) {
    for (;;) {
        take_lock();
        tell_time();
        look_round();
        uint64_t until = clock_sleeps_until = next_moment();
        unsigned calls = atomic_load_explicit(&clock_calls, memory_order_relaxed);
        give_lock();
        struct timespec t = clock_time(until);
        sleep_on(&clock_calls, calls, until == NEVER ? NULL : &t);
    }
    return unused;
}

/* ---- Threads and the process ---- */

/* An object of the host's that stands for a thread or a process, and what is kept there. */
static uint32_t stand_in(type of, kept *k, om_opening *made) {
    om_making making = om_with_access(OM_HOST_ALL_ACCESS);
    uint32_t status = om_create_host(&om, host.thread, &making, "", 0, (uint8_t)of, true, false, made);
    if (status == OM_SUCCESS && (status = om_set_object_data(&om, made->object.slot, made->object.generation, (uintptr_t)k)) != OM_SUCCESS) {
        om_close(&om, host.thread, made->handle);
    }
    return status;
}

/* What an object stood for has ended. */
static void finish(const om_opening *own) {
    om_signal_host(&om, own->object.slot, own->object.generation, true);
    om_close(&om, host.thread, own->handle);
}

static void process_goes(kept *self) {
    free(self);
}

uint32_t begin_process(om_member member, process **made) {
    process *p = calloc(1, sizeof *p);
    if (p == NULL) {
        return OM_ERROR_NOT_ENOUGH_MEMORY;
    }
    *p = (process){.kept.end = process_goes, .number = member.process, .code = STILL_ACTIVE};
    *made = p;
    uint32_t status = stand_in(A_PROCESS, &p->kept, &p->own);
    return status != OM_SUCCESS ? status : om_set_process_data(&om, member.process, (uintptr_t)p);
}

void let_go(thread *t) {
    if (--t->users == 0) {
        drop_calls(t, NULL);
        free(t);
    }
}

static void thread_goes(kept *self) {
    let_go((thread *)self);
}

/* What the host keeps of a new thread of the library's, which ends where there is no room for it. */
uint32_t begin_thread(process *of, uint32_t number, thread **made) {
    thread *t = calloc(1, sizeof *t);
    uint32_t status = t == NULL ? OM_ERROR_NOT_ENOUGH_MEMORY : om_set_thread_data(&om, number, (uintptr_t)t);
    if (status == OM_SUCCESS) {
        *t = (thread){.kept.end = thread_goes, .number = number, .of = of, .users = 2, .code = STILL_ACTIVE};
        status = stand_in(A_THREAD, &t->kept, &t->own);
    }
    if (status != OM_SUCCESS) {
        om_end_thread(&om, number);
        free(t);
    }
    *made = t;
    return status;
}

/* A thread ends, and with its last one a process; the program ends with its own. */
void end_thread(thread *t, DWORD code) {
    process *p = t->of;
    if (t->has_ended) {
        return;
    }
    t->has_ended = true;
    t->code = code;
    om_end_thread(&om, t->number);
    finish(&t->own);
    wake(t, ENDED);
    if (om_next_thread(&om, p->number, 0) == 0) {
        p->has_ended = true;
        p->code = code;
        finish(&p->own);
        if (p == program) {
            give_lock();
            exit((int)code);
        }
    }
}

void end_process(process *p, DWORD code) {
    uint32_t number;
    while (!p->has_ended && (number = om_next_thread(&om, p->number, 0)) != 0) {
        end_thread(thread_numbered(number), code);
    }
}

/* A thread that has ended goes where it makes its next call, or where it sleeps. */
_Noreturn void leave(void) {
    look_round();
    let_go(me);
    me = NULL;
    pthread_setspecific(adopted, NULL);
    give_lock();
    pthread_exit(NULL);
}

static void *run(void *of) {
    thread *t = of;
    me = t;
    enter();
    give_lock();
    DWORD code = t->start(t->argument);
    enter();
    end_thread(t, code);
    leave();
}

bool run_thread(thread *t) {
    pthread_t made;
    bool is_made = pthread_create(&made, NULL, run, t) == 0;
    if (is_made) {
        pthread_detach(made);
    }
    return is_made;
}

/* A thread that CreateThread didn't begin has ended. */
static void adopted_ends(void *of) {
    take_lock();
    end_thread(of, 0);
    look_round();
    let_go(of);
    give_lock();
}

static void begin(void) {
    om_limits limits = OM_LIMITS_MOST;
    om_member member = {0};
    struct timespec monotonic, real;
    pthread_t ticking;
    clock_gettime(CLOCK_MONOTONIC, &monotonic);
    clock_gettime(CLOCK_REALTIME, &real);
    clock_begins_at = ((uint64_t)(real.tv_sec - monotonic.tv_sec) + 11644473600u) * 10000000u; /* 1601 to 1970 */
    clock_begins_at += (uint64_t)(real.tv_nsec / 100) - (uint64_t)(monotonic.tv_nsec / 100);
    clock_sleeps_until = NEVER;
    must(om_new_with(&limits, true, true, &om) == OM_SUCCESS && om_advance(&om, now()) == OM_SUCCESS, "no manager");
    must(om_spawn(&om, SESSION, &host) == OM_SUCCESS && om_spawn(&om, SESSION, &member) == OM_SUCCESS, "no process");
    must(begin_process(member, &program) == OM_SUCCESS && begin_thread(program, member.thread, &me) == OM_SUCCESS, "no process");
    must(pthread_key_create(&adopted, adopted_ends) == 0 && pthread_setspecific(adopted, me) == 0, "no thread");
    must(pthread_create(&ticking, NULL, tick, NULL) == 0 && pthread_detach(ticking) == 0, "no clock");
}

static void adopt(void) {
    uint32_t number;
    must(om_thread(&om, program->number, &number) == OM_SUCCESS && begin_thread(program, number, &me) == OM_SUCCESS, "no thread");
    pthread_setspecific(adopted, me);
}

/* ---- A call ---- */

/* Takes the lock, and says the caller's thread as the library has it. */
uint32_t enter(void) {
    if (me == NULL) {
        pthread_once(&once, begin);
    }
    take_lock();
    if (me == NULL) {
        adopt();
    }
    if (me->has_ended) {
        leave();
    }
    return me->number;
}

/* Ends a call. */
uint32_t unlocked(uint32_t status) {
    look_round();
    give_lock();
    return status;
}

/* Ends a call of which nothing comes but answers of waits, which may have kept an object. */
uint32_t answered(uint32_t status) {
    if (waiting > 0 && has_woken()) {
        take_ended();
    }
    give_lock();
    return status;
}

/* Ends a call, and says that. */
BOOL done(uint32_t status) {
    return succeeded(unlocked(status));
}

/* The caller's wait is pending: gives the lock back, and sleeps until somebody's call has answered it. */
uint32_t sleep_until_answered(void) {
    unsigned told = LOOKS;
    atomic_store_explicit(&me->state, told, memory_order_relaxed);
    me->waits = true;
    waiting++;
    tell_clock();
    answered(OM_SUCCESS);
    if (me->skips > 0) {
        me->skips--;
    } else if (!has_changed(&me->state, told, LOOKS_FOR_ANSWER)) {
        me->skips = SKIPS;
    }
    if (atomic_compare_exchange_strong(&me->state, &told, SLEEPS)) {
        while (atomic_load_explicit(&me->state, memory_order_acquire) == SLEEPS) {
            sleep_on(&me->state, SLEEPS, NULL);
        }
    }
    if (atomic_load_explicit(&me->state, memory_order_acquire) == ENDED) {
        enter();
    }
    return me->answer;
}

/* The caller runs the procedure calls that were queued for it, without the lock. */
void run_calls(void) {
    while (me->calls != NULL) {
        call first = *me->calls;
        free(me->calls);
        me->calls = first.next;
        unlocked(OM_SUCCESS);
        first.routine(first.arguments[0], first.arguments[1], first.arguments[2]);
        enter();
    }
}

/* A process gets a handle to what the host has a handle to. */
uint32_t given(const om_opening *own, const process *to, ACCESS_MASK access, bool inherit, HANDLE *handle) {
    om_opening made;
    uint32_t status = om_duplicate(&om, host.thread, host.process, own->handle, to->number, access, inherit, 0, &made);
    if (status == OM_SUCCESS) {
        *handle = (HANDLE)(uintptr_t)made.handle;
    }
    return status;
}

/* ---- Errors, and the time ---- */

static _Thread_local DWORD last_error;

DWORD WINAPI GetLastError(void) {
    return last_error;
}

void WINAPI SetLastError(DWORD error) {
    last_error = error;
}

void WINAPI GetSystemTimeAsFileTime(LPFILETIME time) {
    pthread_once(&once, begin);
    uint64_t moment = now();
    *time = (FILETIME){(DWORD)moment, (DWORD)(moment >> 32)};
}

DWORD WINAPI GetTickCount(void) {
    return (DWORD)GetTickCount64();
}

ULONGLONG WINAPI GetTickCount64(void) {
    struct timespec t;
    clock_gettime(CLOCK_MONOTONIC, &t);
    return (ULONGLONG)t.tv_sec * 1000 + (ULONGLONG)t.tv_nsec / 1000000;
}
