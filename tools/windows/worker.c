/* A process of the script: its threads, which make the script's calls, and a clerk, who starts and ends them. */
#include "play.h"

#include <stdio.h>
#include <stdlib.h>

#ifndef CREATE_WAITABLE_TIMER_MANUAL_RESET
#define CREATE_WAITABLE_TIMER_MANUAL_RESET 1
#endif
#define FAR_FROM_NOW (-864000000000ll * 100) /* 100 days, in units of 100 ns; below 0 it is from now */
#define OBJECT_BASIC 0
#define OBJECT_NAME 1

typedef LONG(WINAPI *query_object)(HANDLE, int, void *, ULONG, ULONG *);

/* What NtQueryObject tells of an object. */
typedef struct {
    ULONG attributes, granted, handles, pointers, others[10];
} basic;

typedef struct {
    USHORT length, most;
    WCHAR *text;
} object_name;

static struct {
    desk *desks;
    const char *name;
    unsigned player;
    query_object query;
    bool is_wine;
    HANDLE threads[THREADS + 1];
} this;

desk *open_desks(const char *name) {
    HANDLE map = CreateFileMappingA(INVALID_HANDLE_VALUE, NULL, PAGE_READWRITE, 0, DESKS * (DWORD)sizeof(desk), name);

    return map ? MapViewOfFile(map, FILE_MAP_ALL_ACCESS, 0, 0, 0) : NULL;
}

seat take_seat(desk *desks, const char *name, unsigned number) {
    char event[128];
    seat taken = {&desks[number], NULL, NULL};

    snprintf(event, sizeof event, "%s-go-%u", name, number);
    taken.go = CreateEventA(NULL, FALSE, FALSE, event);
    snprintf(event, sizeof event, "%s-done-%u", name, number);
    taken.done = CreateEventA(NULL, FALSE, FALSE, event);
    return taken;
}

BOOL start_worker(const char *name, unsigned player, unsigned process, BOOL inherit, PROCESS_INFORMATION *started) {
    char program[MAX_PATH], words[MAX_PATH + 256];
    STARTUPINFOA how = {0};

    how.cb = sizeof how;
    GetModuleFileNameA(NULL, program, sizeof program);
    snprintf(words, sizeof words, "\"%s\" --worker %s %u %u", program, name, player, process);
    return CreateProcessA(program, words, NULL, NULL, inherit, DETACHED_PROCESS, NULL, NULL, &how, started);
}

/* A hash of an object's name with its whole path, so that two handles can be told to be of one object. */
static uint64_t path_of(HANDLE handle) {
    static const ULONG most = 65536 + sizeof(object_name);
    object_name *found = malloc(most);
    uint64_t hash = 14695981039346656037u;
    USHORT at;

    if (!found)
        return 0;
    if (this.query(handle, OBJECT_NAME, found, most, NULL) != 0 || !found->text)
        hash = 0;
    else
        for (at = 0; at < found->length / sizeof(WCHAR); at++)
            hash = (hash ^ found->text[at]) * 1099511628211u;
    free(found);
    return hash;
}

/* A grant: an access list by which everyone has these rights. Owners have no more, by the entry for OWNER RIGHTS; since
   Wine doesn't know that entry the object has there an owner who is nobody. */
typedef struct {
    SECURITY_ATTRIBUTES attributes;
    SECURITY_DESCRIPTOR descriptor;
    PSID everyone, owner, nobody;
    DWORD list[64];
} security;

static bool make_security(security *made, DWORD grant) {
    SID_IDENTIFIER_AUTHORITY world = {SECURITY_WORLD_SID_AUTHORITY};
    SID_IDENTIFIER_AUTHORITY creator = {SECURITY_CREATOR_SID_AUTHORITY};
    SID_IDENTIFIER_AUTHORITY null = {SECURITY_NULL_SID_AUTHORITY};
    ACL *list = (ACL *)made->list;

    return AllocateAndInitializeSid(&world, 1, SECURITY_WORLD_RID, 0, 0, 0, 0, 0, 0, 0, &made->everyone) &&
           AllocateAndInitializeSid(&creator, 1, 4, 0, 0, 0, 0, 0, 0, 0, &made->owner) &&
           AllocateAndInitializeSid(&null, 1, SECURITY_NULL_RID, 0, 0, 0, 0, 0, 0, 0, &made->nobody) &&
           InitializeAcl(list, sizeof made->list, ACL_REVISION) &&
           AddAccessAllowedAce(list, ACL_REVISION, grant, made->everyone) &&
           AddAccessAllowedAce(list, ACL_REVISION, grant, made->owner) &&
           InitializeSecurityDescriptor(&made->descriptor, SECURITY_DESCRIPTOR_REVISION) &&
           SetSecurityDescriptorDacl(&made->descriptor, TRUE, list, FALSE) &&
           (!this.is_wine || SetSecurityDescriptorOwner(&made->descriptor, made->nobody, FALSE));
}

static void drop_security(security *made) {
    FreeSid(made->everyone);
    FreeSid(made->owner);
    FreeSid(made->nobody);
}

static HANDLE create_object(const line *asked, SECURITY_ATTRIBUTES *how) {
    const char *name = asked->has_name ? asked->name : NULL;
    DWORD all = asked->kind == KIND_MUTEX ? MUTEX_ALL_ACCESS : EVENT_ALL_ACCESS; /* of the other kinds it is the same */
    DWORD access = asked->has_access ? asked->access : all;
    DWORD reset = asked->manual ? CREATE_EVENT_MANUAL_RESET : 0;

    switch (asked->kind) {
    case KIND_EVENT: return CreateEventExA(how, name, reset | (asked->initial ? CREATE_EVENT_INITIAL_SET : 0), access);
    case KIND_MUTEX: return CreateMutexExA(how, name, asked->initial ? CREATE_MUTEX_INITIAL_OWNER : 0, access);
    case KIND_SEMAPHORE: return CreateSemaphoreExA(how, asked->integers[0], asked->integers[1], name, 0, access);
    default: return CreateWaitableTimerExA(how, name, asked->manual ? CREATE_WAITABLE_TIMER_MANUAL_RESET : 0, access);
    }
}

static HANDLE open_object(const line *asked) {
    switch (asked->kind) {
    case KIND_EVENT: return OpenEventA(asked->access, asked->inherit, asked->name);
    case KIND_MUTEX: return OpenMutexA(asked->access, asked->inherit, asked->name);
    case KIND_SEMAPHORE: return OpenSemaphoreA(asked->access, asked->inherit, asked->name);
    default: return OpenWaitableTimerA(asked->access, asked->inherit, asked->name);
    }
}

static void keep_made(desk *at, HANDLE made) {
    at->error = made ? 0 : GetLastError();
    at->existed = made && GetLastError() == ERROR_ALREADY_EXISTS;
    at->made = made;
    at->path = made && at->asked.has_name ? path_of(made) : 0;
}

static void create(desk *at) {
    security how = {{sizeof how.attributes, NULL, at->asked.inherit}, {0}, NULL, NULL, NULL, {0}};

    if (at->asked.has_grant) {
        how.attributes.lpSecurityDescriptor = &how.descriptor;
        if (!make_security(&how, at->asked.grant)) {
            at->error = GetLastError();
            return;
        }
    }
    SetLastError(0);
    keep_made(at, create_object(&at->asked, &how.attributes));
    if (at->asked.has_grant)
        drop_security(&how);
}

static BOOL duplicate(desk *at) {
    DWORD options = at->asked.same ? DUPLICATE_SAME_ACCESS : 0;

    if (at->asked.close_source)
        options |= DUPLICATE_CLOSE_SOURCE;
    at->made = NULL;
    return DuplicateHandle(at->source, at->real[0], at->target, &at->made, at->asked.access, at->asked.inherit,
                           options);
}

static BOOL release(desk *at) {
    LONG before = 0;
    BOOL is_done = ReleaseSemaphore(at->real[0], at->asked.integers[1], &before);

    at->value = (DWORD)before;
    return is_done;
}

/* A period that can be is the script's. */
static BOOL set_timer(HANDLE timer, bool is_due, int32_t period) {
    LARGE_INTEGER due;

    due.QuadPart = is_due ? 0 : FAR_FROM_NOW;
    return SetWaitableTimer(timer, &due, period < 0 ? period : 0, NULL, NULL, FALSE);
}

/* A wait for as many objects as there are, the last of those that the line names. */
static DWORD wait_so(const desk *at, DWORD time, BOOL alertable) {
    DWORD count = at->asked.verb == VERB_SIGNALWAIT ? 1 : at->asked.count;

    if (at->asked.verb == VERB_SLEEP)
        return time == 0 ? WAIT_TIMEOUT : SleepEx(time, alertable);
    return WaitForMultipleObjectsEx(count, at->real + (at->asked.count - count), at->asked.all, time, alertable);
}

/* A wait is tried once without waiting, so that it is known whether it blocks, and only then does it: nobody else makes
   a call between the two. Where it expires it ends by a procedure call. */
static void wait_for(const seat *here) {
    desk *at = here->at;
    DWORD code;

    SleepEx(0, TRUE);
    code = at->asked.verb == VERB_SIGNALWAIT ? SignalObjectAndWait(at->real[0], at->real[1], 0, FALSE) : wait_so(at, 0, FALSE);
    if (code == WAIT_TIMEOUT && at->asked.timeout != 0) {
        at->pending = true;
        SetEvent(here->done);
        code = wait_so(at, INFINITE, TRUE);
    }
    at->error = code == WAIT_FAILED ? GetLastError() : 0;
    at->value = code == WAIT_IO_COMPLETION ? WAIT_TIMEOUT : code;
}

static void told(desk *at, BOOL is_done) { at->error = is_done ? 0 : GetLastError(); }

static void make_call(const seat *here) {
    desk *at = here->at;

    switch (at->asked.verb) {
    case VERB_CREATE: create(at); break;
    case VERB_OPEN: keep_made(at, open_object(&at->asked)); break;
    case VERB_DUP: told(at, duplicate(at)); break;
    case VERB_CLOSE: told(at, CloseHandle(at->real[0])); break;
    case VERB_FLAGS: told(at, GetHandleInformation(at->real[0], &at->value)); break;
    case VERB_SETFLAGS: told(at, SetHandleInformation(at->real[0], at->asked.mask, at->asked.flags)); break;
    case VERB_SET: told(at, SetEvent(at->real[0])); break;
    case VERB_RESET: told(at, ResetEvent(at->real[0])); break;
    case VERB_PULSE: told(at, PulseEvent(at->real[0])); break;
    case VERB_RELEASE: told(at, release(at)); break;
    case VERB_UNLOCK: told(at, ReleaseMutex(at->real[0])); break;
    case VERB_SETTIMER: told(at, set_timer(at->real[0], at->asked.initial, at->asked.integers[1])); break;
    case VERB_CANCEL: told(at, CancelWaitableTimer(at->real[0])); break;
    default: wait_for(here); break;
    }
}

static DWORD WINAPI script_thread(void *number) {
    seat here = take_seat(this.desks, this.name, PROCESSES + (unsigned)(uintptr_t)number - 1);

    SetEvent(here.done);
    for (;;) {
        WaitForSingleObject(here.go, INFINITE);
        if (here.at->asked.verb == VERB_ENDTHREAD)
            return 0;
        make_call(&here);
        SetEvent(here.done);
    }
}

static void start_thread(desk *at) {
    unsigned number = at->asked.thread;

    this.threads[number] = CreateThread(NULL, 0, script_thread, (void *)(uintptr_t)number, 0, NULL);
    told(at, this.threads[number] != NULL);
}

static void end_thread(desk *at) {
    HANDLE thread = this.threads[at->asked.thread];

    if (at->by_force)
        TerminateThread(thread, 0);
    WaitForSingleObject(thread, INFINITE);
    CloseHandle(thread);
    at->error = 0;
}

static void start_child(desk *at) {
    PROCESS_INFORMATION started;
    BOOL is_started = start_worker(this.name, this.player, at->asked.process, at->asked.inherit, &started);

    told(at, is_started);
    if (!is_started)
        return;
    at->value = started.dwProcessId;
    CloseHandle(started.hThread);
    CloseHandle(started.hProcess);
}

static void WINAPI end_wait(ULONG_PTR unused) { (void)unused; }

static void count_handles(desk *at) {
    basic found;

    at->error = this.query(at->real[0], OBJECT_BASIC, &found, sizeof found, NULL) == 0 ? 0 : ERROR_INVALID_HANDLE;
    at->value = found.handles;
}

/* Lets a timer come due, though the handle may not have the right to. */
static void fire(desk *at) {
    HANDLE self = GetCurrentProcess(), other;

    told(at, set_timer(at->real[0], true, 0));
    if (at->error != ERROR_ACCESS_DENIED)
        return;
    if (!DuplicateHandle(self, at->real[0], self, &other, TIMER_MODIFY_STATE, FALSE, 0))
        return;
    told(at, set_timer(other, true, 0));
    CloseHandle(other);
}

static void serve(desk *at) {
    switch (at->asked.verb) {
    case VERB_THREAD: start_thread(at); break;
    case VERB_ENDTHREAD: end_thread(at); break;
    case VERB_CHILD: start_child(at); break;
    case VERB_EXPIRE: told(at, QueueUserAPC(end_wait, this.threads[at->asked.thread], 0) != 0); break;
    case VERB_FLAGS: told(at, GetHandleInformation(at->real[0], &at->value)); break;
    case VERB_COUNT: count_handles(at); break;
    case VERB_SET: told(at, SetEvent(at->real[0])); break;
    case VERB_RESET: told(at, ResetEvent(at->real[0])); break;
    default: fire(at); break;
    }
}

int work(const char *name, unsigned player, unsigned process) {
    HMODULE native = GetModuleHandleA("ntdll.dll");
    HANDLE either[2];
    seat here;

    this.name = name;
    this.player = player;
    this.desks = open_desks(name);
    this.query = (query_object)(void (*)(void))GetProcAddress(native, "NtQueryObject");
    this.is_wine = GetProcAddress(native, "wine_get_version") != NULL;
    either[1] = OpenProcess(SYNCHRONIZE, FALSE, player);
    if (!this.desks || !this.query || !either[1])
        return 1;
    here = take_seat(this.desks, name, process - 1);
    either[0] = here.go;
    SetEvent(here.done);
    while (WaitForMultipleObjects(2, either, FALSE, INFINITE) == WAIT_OBJECT_0) {
        serve(here.at);
        SetEvent(here.done);
    }
    TerminateProcess(GetCurrentProcess(), 1);
    return 1;
}
