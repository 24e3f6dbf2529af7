/* Plays a script (docs/FORMATS.md) by real Win32 calls, and prints the answers as obman does.

       play [--settle MS] < SCRIPT > ANSWERS

   It is built by `x86_64-w64-mingw32-gcc -O1 -o play.exe *.c`, or by `cl /O1 /Feplay.exe *.c advapi32.lib`. Each
   process of the script is a process, each thread a thread, each handle a handle; tools/windows/compare sets the
   answers beside those of obman. A wait that doesn't end at once is pending; what has to come about by itself is given
   MS milliseconds, 50 if no number is given.

   What it can't show:
   - Handle values, slots, generations and the numbers of processes, threads and waits are the script's: this program
     keeps a table that gives the least free ones. Nor does it show limits: its own are 128 processes, 512 threads,
     4,096 objects and 2,048 handles of a process, and end the run.
   - `?` stands where Windows has no answer: for `pin`, `unpin`, `card` and `dir`, for calls of a thread that waits or
     is no more, for processes and waits that are no more, in `count` for waits and the hold, and for an object that
     isn't the script's own. `reap` is answered by the table, with `?` where it can't be and once the script has pinned.
   - Time is the script's. Timers and waits are kept from their end until a `tick` reaches it; then the timers that are
     due are set to be due at once, one after another in the order in which they are due, and after them the waits whose
     time is up end. A timer whose handles are all closed can't be set so, and never comes due.
   - A wait that expires is ended by an asynchronous procedure call, so it was alertable.
   - All processes are in the user's one session, which stands for the first session of the script other than 0. In
     another session a name that isn't global has `#` and the session's number behind it; in session 0 it has `Global\`
     before it.
   - An object of the host's own is played by an event, whatever its type is; a change of it by its handle is answered
     here, as of an object of another kind.
   - A grant is an access list for everyone, with the same rights for the owner.
   - A worker has a thread of its own beside the script's, and ends when the last of those does. */
#include "ask.h"

#include <fcntl.h>
#include <inttypes.h>
#include <io.h>
#include <stdio.h>
#include <stdlib.h>
#include <string.h>

void stop(const char *why) {
    DWORD error = GetLastError();
    uint32_t at;

    for (at = 0; at < all.processes_given; at++)
        TerminateProcess(all.processes[at].real, 0);
    fflush(stdout);
    if (!why)
        exit(0);
    fprintf(stderr, "play: %s (the last error was %lu)\n", why, error);
    exit(1);
}

/* Answers. */

static void print_made(uint32_t handle, const char *how, uint32_t slot) {
    if (slot == UNKNOWN)
        printf("h%" PRIu32 " %s ?\n", handle, how);
    else
        printf("h%" PRIu32 " %s s%" PRIu32 ".%" PRIu32 "\n", handle, how, slot, all.objects[slot].generation);
}

static void print_done(const desk *at, const char *done) {
    if (at->error)
        printf("error %lu\n", at->error);
    else
        puts(done);
}

static void print_number(const desk *at, const char *what) {
    if (at->error)
        printf("error %lu\n", at->error);
    else
        printf("%s %lu\n", what, at->value);
}

/* Processes and threads. */

static void add_thread(uint32_t of) {
    process *in = &all.processes[of - 1];
    thread *made = &all.threads[all.threads_given++];

    made->seat = take_seat(all.desks, all.name, PROCESSES + all.threads_given - 1);
    made->is_live = true;
    made->process = of;
    in->threads++;
    if (ask_clerk(in, VERB_THREAD, all.threads_given, NULL)->error || !is_answered(&made->seat, in, GRACE))
        stop("no thread can be made");
}

static process *next_process(uint32_t session) {
    process *made = &all.processes[all.processes_given];

    if (all.processes_given == PROCESSES || all.threads_given == THREADS)
        stop("too many processes or threads");
    made->clerk = take_seat(all.desks, all.name, all.processes_given);
    made->session = session;
    made->is_live = true;
    return made;
}

static void begin(process *made) {
    all.processes_given++;
    if (!made->real || !is_answered(&made->clerk, made, GRACE))
        stop("no process can be made");
    add_thread(all.processes_given);
    printf("p%" PRIu32 " t%" PRIu32 "\n", all.processes_given, all.threads_given);
}

static void spawn(const line *call) {
    process *made = next_process(call->session);
    PROCESS_INFORMATION started = {0};

    if (start_worker(all.name, GetCurrentProcessId(), all.processes_given + 1, FALSE, &started))
        CloseHandle(started.hThread);
    made->real = started.hProcess;
    begin(made);
}

static bool is_inherited(process *of, const entry *one) {
    desk *at = one->is_used ? ask_clerk(of, VERB_FLAGS, 0, one->real) : NULL;

    return at && at->error == 0 && (at->value & HANDLE_FLAG_INHERIT);
}

static void child(const line *call) {
    thread *by = caller(call->thread);
    process *made, *parent;
    uint32_t at;

    if (!by) {
        puts("?");
        return;
    }
    parent = home_of(by);
    made = next_process(parent->session);
    for (at = 0; call->inherit && at < ENTRIES; at++)
        if (is_inherited(parent, &parent->entries[at])) {
            made->entries[at] = parent->entries[at];
            if (made->entries[at].slot != UNKNOWN)
                all.objects[made->entries[at].slot].handles++;
        }
    parent->clerk.at->asked.process = all.processes_given + 1;
    parent->clerk.at->asked.inherit = call->inherit;
    ask_clerk(parent, VERB_CHILD, 0, NULL);
    made->real = OpenProcess(PROCESS_ALL_ACCESS, FALSE, parent->clerk.at->value);
    begin(made);
}

static void start_thread(const line *call) {
    process *in = process_of(call->process);

    if (!in || !in->is_live) {
        puts("?");
        return;
    }
    if (all.threads_given == THREADS)
        stop("too many threads");
    add_thread(call->process);
    printf("t%" PRIu32 "\n", all.threads_given);
}

static void end_thread(thread *of) {
    process *in = home_of(of);
    bool is_waiting = !is_over(of, 0);

    if (!is_waiting) {
        of->seat.at->asked.verb = VERB_ENDTHREAD;
        SetEvent(of->seat.go);
    }
    in->clerk.at->by_force = is_waiting;
    ask_clerk(in, VERB_ENDTHREAD, (uint32_t)(of - all.threads) + 1, NULL);
    of->is_live = of->is_pending = false;
    of->wait = 0;
    in->threads--;
}

static void end_process(process *of) {
    uint32_t at;

    TerminateProcess(of->real, 0);
    WaitForSingleObject(of->real, GRACE);
    of->is_live = false;
    for (at = 0; at < ENTRIES; at++)
        displace(&of->entries[at]);
    for (at = 0; at < all.threads_given; at++)
        if (home_of(&all.threads[at]) == of) {
            all.threads[at].is_live = all.threads[at].is_pending = false;
            all.threads[at].wait = 0;
        }
}

static void play_endthread(const line *call) {
    thread *of = thread_of(call->thread);

    if (!of || !of->is_live) {
        puts("?");
        return;
    }
    end_thread(of);
    if (home_of(of)->threads == 0)
        end_process(home_of(of));
    printf("ended t%" PRIu32 "\n", call->thread);
}

static void play_exit(const line *call) {
    process *of = process_of(call->process);

    if (!of || !of->is_live) {
        puts("?");
        return;
    }
    end_process(of);
    printf("exited p%" PRIu32 "\n", call->process);
}

/* Calls of threads. */

/* The first session other than 0, where there is one. */
static uint32_t first_session(void) {
    uint32_t at = 0;

    while (at < all.processes_given && all.processes[at].session == 0)
        at++;
    return all.processes[at].session;
}

/* Says in a name which session is meant. */
static void say_session(line *call, uint32_t session) {
    const bool is_global = strncmp(call->name, "Global\\", 7) == 0;
    const bool is_local = strncmp(call->name, "Local\\", 6) == 0;
    char old[MOST_BYTES + 1];

    if (!call->has_name || !*call->name || is_global || strlen(call->name) + 16 > MOST_BYTES)
        return;
    strcpy(old, call->name);
    if (session == 0)
        sprintf(call->name, "Global\\%s", old + (is_local ? 6 : 0));
    else if (session != first_session())
        sprintf(call->name, "%s#%" PRIu32, old, session);
}

static void print_opened(const desk *at, process *in, const char *how, bool is_host) {
    uint32_t slot;

    if (at->error) {
        printf("error %lu\n", at->error);
        return;
    }
    if (strcmp(how, "new") == 0)
        all.objects[slot = new_slot(at->path)].is_host = is_host;
    else
        slot = slot_named(at->path);
    print_made(place(in, at->made, slot), how, slot);
}

static void open_or_create(thread *by, line *call) {
    desk *at;

    say_session(call, home_of(by)->session);
    at = ask_thread(by, call);
    print_opened(at, home_of(by), call->verb == VERB_OPEN ? "opened" : at->existed ? "exists" : "new", call->is_host);
}

/* Gives a worker a handle to a process for a while. */
static HANDLE lend(const process *of, const process *to) {
    HANDLE lent;

    if (!of || !DuplicateHandle(GetCurrentProcess(), of->real, to->real, &lent, 0, FALSE, DUPLICATE_SAME_ACCESS))
        return (HANDLE)(uintptr_t)NOWHERE;
    return lent;
}

static void take_back(HANDLE lent, const process *from) {
    HANDLE self = GetCurrentProcess(), back;

    if (!lent || lent == (HANDLE)(uintptr_t)NOWHERE)
        return;
    if (DuplicateHandle(from->real, lent, self, &back, 0, FALSE, DUPLICATE_SAME_ACCESS | DUPLICATE_CLOSE_SOURCE))
        CloseHandle(back);
}

static void print_duplicate(const desk *at, const line *call, process *to, uint32_t slot) {
    if (at->error)
        printf("error %lu\n", at->error);
    else if (!call->has_target)
        puts("closed");
    else
        print_made(place(to, at->made, slot), "dup", slot);
}

/* Whether a copy has its source's value and so has taken its place, as it may where the source is closed. */
static bool is_replaced(const desk *at, const entry *source, bool is_within) {
    return is_within && at->error == 0 && at->made == source->real;
}

static void duplicate(thread *by, const line *call) {
    process *home = home_of(by), *from = process_of(call->source);
    process *to = call->has_target ? process_of(call->target) : NULL;
    entry *source = from ? entry_of(from, call->handles[0]) : NULL;
    desk *at = by->seat.at;

    at->source = lend(from, home);
    at->target = call->has_target ? lend(to, home) : NULL;
    at->real[0] = real_of(from, call->handles[0]);
    ask_thread(by, call);
    at->made = (HANDLE)((uintptr_t)at->made & ~(uintptr_t)3);
    take_back(at->source, home);
    take_back(at->target, home);
    print_duplicate(at, call, to, source ? source->slot : UNKNOWN);
    if (source && call->close_source && (is_replaced(at, source, from == to) || !is_handle(from, source->real)))
        displace(source);
}

static void close_handle(thread *by, const line *call) {
    entry *closed = entry_of(home_of(by), call->handles[0]);
    desk *at = ask_thread(by, call);

    if (closed && at->error == 0)
        displace(closed);
    print_done(at, "closed");
}

/* The moment that a timer is set to: below 0 it is from now. */
static uint64_t moment_of(int64_t due) { return due < 0 ? all.now + (0 - (uint64_t)due) : (uint64_t)due; }

/* A timer has come: with a period it is due again, at the first moment behind now that lies whole periods behind. */
static void come(object *timer) {
    timer->is_due = timer->period > 0;
    if (timer->is_due)
        timer->due += ((all.now - timer->due) / timer->period + 1) * timer->period;
}

static void set_timer(thread *by, line *call) {
    uint64_t due = moment_of(call->moment);
    entry *timer = entry_of(home_of(by), call->handles[0]);
    object *of;
    desk *at;

    call->initial = due <= all.now;
    at = ask_thread(by, call);
    if (at->error == 0 && timer && timer->slot != UNKNOWN) {
        of = &all.objects[timer->slot];
        of->is_due = true;
        of->due = due;
        of->period = (uint64_t)call->integers[1] * 10000;
        if (call->initial)
            come(of);
    }
    if (call->initial)
        Sleep(all.settle);
    print_done(at, "done");
}

static void cancel_timer(thread *by, const line *call) {
    entry *timer = entry_of(home_of(by), call->handles[0]);
    desk *at = ask_thread(by, call);

    if (at->error == 0 && timer && timer->slot != UNKNOWN)
        all.objects[timer->slot].is_due = false;
    print_done(at, "done");
}

static void wait_for(thread *by, line *call) {
    uint64_t until = call->has_moment ? moment_of(call->moment) : all.now + (uint64_t)call->timeout * 10000;
    bool is_met = call->verb == VERB_SIGNALWAIT;
    desk *at;
    entry *waited;

    if (call->has_moment)
        call->timeout = until > all.now;
    at = ask_thread(by, call);
    if (is_met)
        Sleep(all.settle);
    if (!at->pending) {
        print_number(at, "code");
        all.waits_given += is_met && at->error == 0;
        return;
    }
    Sleep(all.settle / 2);
    by->wait = ++all.waits_given;
    by->is_pending = true;
    by->has_deadline = call->timeout != INFINITE;
    by->deadline = until;
    for (by->count = 0; by->count < call->count; by->count++) {
        waited = entry_of(home_of(by), call->handles[by->count]);
        by->slots[by->count] = waited ? waited->slot : UNKNOWN;
    }
    printf("%s w%" PRIu32 "\n", is_met ? "signaled" : "pending", by->wait);
}

/* Whether a thread would change a host's object, which Windows refuses of an object that is no event, mutex and so on. */
static bool is_foreign(thread *by, const line *call) {
    const entry *named = entry_of(home_of(by), call->handles[0]);

    switch (call->verb) {
    case VERB_SET:
    case VERB_RESET:
    case VERB_PULSE:
    case VERB_SIGNALWAIT:
    case VERB_RELEASE:
    case VERB_UNLOCK:
    case VERB_SETTIMER:
    case VERB_CANCEL: return named && named->slot != UNKNOWN && all.objects[named->slot].is_host;
    default: return false;
    }
}

static void play_call(line *call) {
    thread *by = caller(call->thread);

    if (!by) {
        puts("?");
        return;
    }
    if (is_foreign(by, call)) {
        printf("error %lu\n", (unsigned long)ERROR_INVALID_HANDLE);
        return;
    }
    switch (call->verb) {
    case VERB_CREATE:
    case VERB_OPEN: open_or_create(by, call); break;
    case VERB_DUP: duplicate(by, call); break;
    case VERB_CLOSE: close_handle(by, call); break;
    case VERB_FLAGS: print_number(ask_thread(by, call), "flags"); break;
    case VERB_RELEASE: print_number(ask_thread(by, call), "previous"); break;
    case VERB_SETTIMER: set_timer(by, call); break;
    case VERB_CANCEL: cancel_timer(by, call); break;
    case VERB_WAIT:
    case VERB_SIGNALWAIT:
    case VERB_SLEEP: wait_for(by, call); break;
    default: print_done(ask_thread(by, call), "done"); break;
    }
}

/* Waits and time. */

static thread *waiter(uint32_t wait) {
    uint32_t at;

    for (at = 0; wait != 0 && at < all.threads_given; at++)
        if (all.threads[at].wait == wait)
            return &all.threads[at];
    return NULL;
}

static void result(const line *call) {
    thread *of = waiter(call->wait);

    if (!of) {
        puts("?");
    } else if (!is_over(of, all.settle)) {
        printf("pending w%" PRIu32 "\n", call->wait);
    } else {
        print_number(of->seat.at, "code");
        of->wait = 0;
    }
}

/* (the worker tells each end by a procedure call as that of a wait whose time was up) */
static void end_wait(const line *call) {
    thread *of = waiter(call->wait);

    if (!of) {
        puts("?");
    } else if (is_over(of, all.settle) || !expire(of)) {
        puts("error 87");
    } else if (call->verb == VERB_EXPIRE) {
        printf("expired w%" PRIu32 "\n", call->wait);
    } else {
        of->seat.at->value = WAIT_IO_COMPLETION;
        puts("done");
    }
}

static bool is_due(const object *of) { return of->is_there && of->is_due && of->due <= all.now; }

/* The timer that is due first, at the moment that it is or before it. */
static uint32_t first_due(void) {
    uint32_t at, first = UNKNOWN;

    for (at = 0; at < SLOTS; at++)
        if (is_due(&all.objects[at]) && (first == UNKNOWN || all.objects[at].due < all.objects[first].due))
            first = at;
    return first;
}

static bool is_out_of_time(const thread *of) { return of->is_pending && of->has_deadline && of->deadline <= all.now; }

static void tick(const line *call) {
    uint32_t at;
    HANDLE real;
    process *by;

    if ((uint64_t)call->moment < all.now) {
        puts("?");
        return;
    }
    all.now = (uint64_t)call->moment;
    while ((at = first_due()) != UNKNOWN) {
        come(&all.objects[at]);
        by = holder_of(at, &real);
        if (by) {
            ask_clerk(by, VERB_TICK, 0, real);
            Sleep(all.settle);
        }
    }
    for (at = 0; at < all.threads_given; at++)
        if (is_out_of_time(&all.threads[at]) && !is_over(&all.threads[at], all.settle))
            expire(&all.threads[at]);
    printf("now %" PRIu64 "\n", all.now);
}

/* What Windows has no name for. */

static void count(const line *call) {
    object *of = call->slot < SLOTS ? &all.objects[call->slot] : NULL;
    HANDLE real;
    process *by;
    desk *at;

    if (!of || !of->is_there || of->generation != call->generation) {
        puts("?");
        return;
    }
    by = holder_of(call->slot, &real);
    at = by ? ask_clerk(by, VERB_COUNT, 0, real) : NULL;
    if (at && at->error == 0)
        printf("handles %lu waits ? hold ?\n", at->value);
    else
        puts("?");
}

/* The host's own call, about an object that an event plays. */
static void signal_host(const line *call) {
    object *of = call->slot < SLOTS ? &all.objects[call->slot] : NULL;
    HANDLE real;
    process *by = of && of->is_there && of->generation == call->generation ? holder_of(call->slot, &real) : NULL;

    if (by)
        print_done(ask_clerk(by, call->initial ? VERB_SET : VERB_RESET, 0, real), "done");
    else
        puts("?");
}

static void reap(const line *call) {
    object *of = call->slot < LEAST_SLOTS ? &all.objects[call->slot] : NULL;

    if (!of || !of->is_there) {
        puts("?");
        return;
    }
    if (of->handles == 0 && waits_for(call->slot) > 0)
        look_at_waits(all.settle);
    if (of->handles > 0 || waits_for(call->slot) > 0) {
        puts("error 6");
        return;
    }
    of->is_there = false;
    if (all.has_pinned)
        puts("?");
    else
        printf("s%" PRIu32 ".%" PRIu32 " freed\n", call->slot, of->generation);
}

static void play(line *call) {
    switch (call->verb) {
    case VERB_SPAWN: spawn(call); break;
    case VERB_CHILD: child(call); break;
    case VERB_THREAD: start_thread(call); break;
    case VERB_TICK: tick(call); break;
    case VERB_RESULT: result(call); break;
    case VERB_EXPIRE:
    case VERB_ALERT: end_wait(call); break;
    case VERB_ENDTHREAD: play_endthread(call); break;
    case VERB_EXIT: play_exit(call); break;
    case VERB_COUNT: count(call); break;
    case VERB_REAP: reap(call); break;
    case VERB_SIGNAL: signal_host(call); break;
    case VERB_PIN:
    case VERB_UNPIN:
        all.has_pinned = true;
        puts("?");
        break;
    case VERB_CARD:
    case VERB_DIR: puts("?"); break;
    default: play_call(call); break;
    }
    fflush(stdout);
}

/* Reads a line of any length and keeps what a call may have of it. False at the end. */
static bool next_line(char *text, size_t *length) {
    int byte = getchar(), before = 0;
    bool is_there = byte != EOF;

    for (*length = 0; byte != EOF && byte != '\n'; byte = getchar()) {
        if (*length < MOST_BYTES + 2)
            text[(*length)++] = (char)byte;
        before = byte;
    }
    if (before == '\r' && *length <= MOST_BYTES + 1)
        --*length;
    return is_there;
}

int main(int count_of_words, char **words) {
    static char text[MOST_BYTES + 2];
    static line call;
    size_t length;
    uint32_t number;

    if (count_of_words == 5 && strcmp(words[1], "--worker") == 0)
        return work(words[2], (unsigned)atoi(words[3]), (unsigned)atoi(words[4]));
    if (count_of_words != 1 && (count_of_words != 3 || strcmp(words[1], "--settle") != 0)) {
        fprintf(stderr, "usage: play [--settle MS] < SCRIPT > ANSWERS\n");
        return 2;
    }
    all.settle = count_of_words == 3 ? (DWORD)atoi(words[2]) : 50;
    sprintf(all.name, "obman-play-%lu", GetCurrentProcessId());
    all.desks = open_desks(all.name);
    if (!all.desks)
        stop("no memory");
    _setmode(_fileno(stdin), _O_BINARY);
    _setmode(_fileno(stdout), _O_BINARY);
    for (number = 1; next_line(text, &length); number++)
        switch (read_line(text, length, &call)) {
        case FORM_CALL: play(&call); break;
        case FORM_NOTHING: break;
        default: printf("bad line %" PRIu32 "\n", number); break;
        }
    stop(NULL);
}
