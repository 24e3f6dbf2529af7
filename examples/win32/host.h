/* What the files of the library share.
 *
 * host.c     the lock, threads that sleep, the clock
 * names.c    the names of Windows as the library has them
 * objects.c  events, mutexes, semaphores, and what else is made and opened by name
 * timers.c   waitable timers
 * waits.c    waits, procedure calls, sleep
 * handles.c  handles
 * threads.c  threads and the process
 * native.c, native_handles.c
 *            the same by ntdll
 *
 * All that is known of objects, handles, names and waits is known to the manager `om`. What the host keeps beside it, a thread's place to sleep
 * and a timer's routine, hangs on the library's own threads and objects. Each call takes the one lock by `enter` and gives it back by `done`. */
#ifndef HOST_H
#define HOST_H

#define _DEFAULT_SOURCE

#include <obman.h>
#include <pthread.h>
#include <stdatomic.h>
#include <stdbool.h>

#include "win32.h"

#define SESSION 1u
#define NEVER UINT64_MAX

/* The types of objects of the host's own. */
typedef enum type {
    A_THREAD,
    A_PROCESS,
    A_FILE,
    A_SECTION,
    A_JOB,
    A_COMPLETION,
    A_KEYED_EVENT,
    A_DEBUG_OBJECT,
    A_LINK,       /* to one of the next two */
    GLOBAL_NAMES, /* a directory: \BaseNamedObjects, and that of the session */
    LOCAL_NAMES
} type;

/* What is kept at an object begins so: how it goes when the object has ended. */
typedef struct kept {
    void (*end)(struct kept *self);
} kept;

typedef struct process {
    kept kept;
    uint32_t number;
    om_opening own; /* the object that stands for it, by the host's handle */
    bool has_ended;
    DWORD code;
} process;

/* A procedure call that waits for its thread to be alertable. */
typedef struct call {
    struct call *next;
    PNTAPCFUNC routine;
    ULONG_PTR arguments[3];
    const void *timer; /* whose routine it is, or NULL */
} call;

typedef struct thread {
    kept kept;
    uint32_t number;
    process *of;
    om_opening own;    /* the object that stands for it, by the host's handle */
    int users;         /* it goes when its object has ended and its own thread has left */
    atomic_uint state; /* where it looks, and sleeps */
    bool waits;        /* until its wait is answered, with this code */
    uint32_t answer;
    int skips;         /* how many of its waits sleep at once */
    bool is_alertable; /* its wait ends for a procedure call */
    call *calls;
    bool has_ended;
    DWORD code; /* with which it has ended */
    ULONG suspended;
    LPTHREAD_START_ROUTINE start;
    LPVOID argument;
} thread;

extern om_manager om;
extern om_member host; /* the host's own process, whose thread never waits */
extern _Thread_local thread *me;

/* host.c */
uint32_t enter(void);
void look_round(void);
uint32_t unlocked(uint32_t status);
uint32_t answered(uint32_t status);
BOOL done(uint32_t status);
_Noreturn void leave(void);
uint32_t sleep_until_answered(void);
void run_calls(void);
uint64_t now(void);
void tell_time(void);
bool is_nothing_due(void);
uint32_t given(const om_opening *own, const process *to, ACCESS_MASK access, bool inherit, HANDLE *handle);
uint32_t begin_process(om_member member, process **made);
uint32_t begin_thread(process *of, uint32_t number, thread **made);
bool run_thread(thread *t);
void let_go(thread *t);
void end_thread(thread *t, DWORD code);
void end_process(process *p, DWORD code);

/* Says by TRUE that a call has succeeded. */
static inline BOOL succeeded(uint32_t status) {
    if (status != OM_SUCCESS) {
        SetLastError(status);
    }
    return status == OM_SUCCESS;
}

/* A handle as the library has it. What has more than 32 bits, as what stands for the caller itself, names nothing. */
static inline uint32_t number_of(HANDLE handle) {
    return (uintptr_t)handle > UINT32_MAX ? 0 : (uint32_t)(uintptr_t)handle;
}

/* names.c */
typedef struct name {
    uint32_t status; /* why it is none */
    bool is_given;
    size_t length;
    char bytes[OM_NAME_MOST + 1];
} name;

name narrow(LPCSTR text);
name wide(LPCWSTR text);
NTSTATUS native_string(const OBJECT_ATTRIBUTES *attributes, bool is_create, const UNICODE_STRING **string);
NTSTATUS native_name(const OBJECT_ATTRIBUTES *attributes, bool is_create, name *n);
NTSTATUS directory_by(HANDLE handle, type *of);
bool directory_named(const WCHAR *text, size_t length, bool is_link, type *directory);
size_t native_path(const char *spelled, const om_row *row, WCHAR *path);
bool is_there(const void *at, size_t size);

/* objects.c: what a new object begins as. */
typedef struct body {
    uint32_t kind;
    bool manual, set; /* of a mutex: whether it is owned */
    int32_t initial, most;
} body;

ACCESS_MASK rights_of(uint32_t kind, ACCESS_MASK access, ACCESS_MASK most);
const char *type_name(uint32_t kind);
ACCESS_MASK mapped_by(DWORD protect);
uint32_t make(const body *b, const name *n, ACCESS_MASK access, bool inherit, const void *descriptor, om_opening *made);
uint32_t open_named(uint32_t kind, const name *n, ACCESS_MASK access, bool inherit, om_opening *opened);
HANDLE create(body b, LPSECURITY_ATTRIBUTES attributes, const name *n, ACCESS_MASK access);
HANDLE opened_by(uint32_t kind, ACCESS_MASK access, BOOL inherit, const name *n);

/* timers.c */
void queue_routines(void);
uint32_t set_timer(uint32_t handle, int64_t due, int32_t period, PTIMERAPCROUTINE code, void *argument);
uint32_t cancel_timer(uint32_t handle);

/* waits.c */
uint32_t wait_for(const HANDLE *handles, DWORD count, bool all, int64_t due, bool alertable, uint32_t *code);
uint32_t wait_for_one(HANDLE handle, int64_t due, bool alertable, uint32_t *code);
uint32_t signal_and_wait(HANDLE signal, HANDLE handle, int64_t due, bool alertable, uint32_t *code);
uint32_t sleep_for(int64_t due, bool alertable);
void queue_call(thread *t, PNTAPCFUNC routine, ULONG_PTR one, ULONG_PTR two, ULONG_PTR three, const void *timer);
void drop_calls(thread *t, const void *timer);

/* handles.c */
uint32_t query(HANDLE handle, om_handle_info *info);
bool is_pseudo(HANDLE handle);
uint32_t same_object(HANDLE one, HANDLE other);
uint32_t duplicate(HANDLE source, HANDLE handle, HANDLE target, ACCESS_MASK access, bool inherit, DWORD options, HANDLE *made);

/* threads.c */
uint32_t thread_by(HANDLE handle, ACCESS_MASK right, thread **found);
uint32_t process_by(HANDLE handle, ACCESS_MASK right, process **found);
thread *thread_numbered(uint32_t number);
DWORD id_of_process(uint32_t number);
process *process_with_id(DWORD id);

/* native.c */
NTSTATUS native(uint32_t status);
NTSTATUS made_native(PHANDLE handle, ACCESS_MASK access, const OBJECT_ATTRIBUTES *attributes, body b, bool is_good);
NTSTATUS opened_native(PHANDLE handle, ACCESS_MASK access, const OBJECT_ATTRIBUTES *attributes, uint32_t kind);

#endif
