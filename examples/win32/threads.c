/* Threads and the process. Each is an object of the host's own: it is signaled when what it stands for has ended, and what the host keeps of it
 * hangs on it. https://learn.microsoft.com/windows/win32/procthread/process-and-thread-functions */
#include "host.h"

#include <sched.h>

/* An id has the library's number, and says whether it is a thread's: ids of both are one space, and their two lowest bits count for nothing. */
enum { ID_STEP = 8, ID_OF_THREAD = 4, ID_BITS = 3 };

static DWORD id_of_thread(const thread *t) {
    return t->number * ID_STEP + ID_OF_THREAD;
}

DWORD id_of_process(uint32_t number) {
    return number * ID_STEP;
}

thread *thread_numbered(uint32_t number) {
    return (thread *)(uintptr_t)om_thread_data(&om, number);
}

/* The live process of an id, or NULL; the host's own process isn't known here. */
process *process_with_id(DWORD id) {
    uint32_t number = id / ID_STEP, session;
    bool is_live = (id & ID_OF_THREAD) == 0 && om_session_of(&om, number, &session) == OM_SUCCESS;
    return is_live ? (process *)(uintptr_t)om_process_data(&om, number) : NULL;
}

static thread *thread_with_id(DWORD id) {
    bool is_live = (id & ID_OF_THREAD) != 0 && om_process_of(&om, id / ID_STEP) != 0;
    return is_live ? thread_numbered(id / ID_STEP) : NULL;
}

/* What a handle of the caller's stands for, where it has a right. */
static uint32_t kept_by(HANDLE handle, type of, ACCESS_MASK right, kept **found) {
    om_handle_info info;
    uint32_t status = om_query_handle(&om, me->of->number, number_of(handle), &info);
    if (status != OM_SUCCESS || info.kind != OM_HOST((uint32_t)of)) {
        return OM_ERROR_INVALID_HANDLE;
    }
    *found = (kept *)(uintptr_t)info.data;
    return (info.access & right) == right ? OM_SUCCESS : OM_ERROR_ACCESS_DENIED;
}

uint32_t thread_by(HANDLE handle, ACCESS_MASK right, thread **found) {
    *found = me;
    return handle == GetCurrentThread() ? OM_SUCCESS : kept_by(handle, A_THREAD, right, (kept **)found);
}

uint32_t process_by(HANDLE handle, ACCESS_MASK right, process **found) {
    *found = me->of;
    return handle == GetCurrentProcess() ? OM_SUCCESS : kept_by(handle, A_PROCESS, right, (kept **)found);
}

/* One that begins suspended runs when it is resumed. No stack is smaller than Linux has it. */
HANDLE WINAPI CreateThread(LPSECURITY_ATTRIBUTES attributes, SIZE_T stack, LPTHREAD_START_ROUTINE start, LPVOID argument, DWORD flags, LPDWORD id) {
    HANDLE made = NULL;
    thread *t;
    uint32_t number, status;
    (void)stack;
    enter();
    if ((status = om_thread(&om, me->of->number, &number)) == OM_SUCCESS && (status = begin_thread(me->of, number, &t)) == OM_SUCCESS) {
        t->start = start;
        t->argument = argument;
        t->suspended = (flags & CREATE_SUSPENDED) != 0;
        if (id != NULL) {
            *id = id_of_thread(t);
        }
        status = given(&t->own, me->of, THREAD_ALL_ACCESS, attributes != NULL && attributes->bInheritHandle, &made);
        if (status == OM_SUCCESS && t->suspended == 0 && !run_thread(t)) {
            om_close(&om, me->number, number_of(made));
            status = OM_ERROR_NOT_ENOUGH_MEMORY;
        }
        if (status != OM_SUCCESS || t->suspended > 0) {
            t->users--; /* nobody runs it */
        }
        if (status != OM_SUCCESS) {
            end_thread(t, 0);
        }
    }
    return done(status) ? made : NULL;
}

void WINAPI ExitProcess(UINT code) {
    enter();
    end_process(me->of, code);
    leave();
}

void WINAPI ExitThread(DWORD code) {
    enter();
    end_thread(me, code);
    leave();
}

HANDLE WINAPI GetCurrentProcess(void) { return (HANDLE)(LONG_PTR)-1; }

DWORD WINAPI GetCurrentProcessId(void) {
    enter();
    return answered(id_of_process(me->of->number));
}

HANDLE WINAPI GetCurrentThread(void) { return (HANDLE)(LONG_PTR)-2; }

DWORD WINAPI GetCurrentThreadId(void) {
    enter();
    return answered(id_of_thread(me));
}

/* A process or a thread by a handle: the other one is NULL. */
static uint32_t either_by(type of, HANDLE handle, ACCESS_MASK right, process **p, thread **t) {
    *p = NULL;
    *t = NULL;
    return of == A_PROCESS ? process_by(handle, right, p) : thread_by(handle, right, t);
}

static BOOL code_of(type of, HANDLE handle, ACCESS_MASK right, LPDWORD code) {
    process *p;
    thread *t;
    enter();
    uint32_t status = either_by(of, handle, right, &p, &t);
    if (status == OM_SUCCESS) {
        *code = p != NULL ? p->code : t->code;
    }
    return done(status);
}

static DWORD id_by(type of, HANDLE handle, ACCESS_MASK right) {
    process *p;
    thread *t;
    enter();
    uint32_t status = either_by(of, handle, right, &p, &t);
    DWORD id = status != OM_SUCCESS ? 0 : p != NULL ? id_of_process(p->number) : id_of_thread(t);
    return done(status) ? id : 0;
}

/* For the library a thread ends at once; its own code goes on until it makes its next call, since nobody can stop it elsewhere. */
static BOOL terminate(type of, HANDLE handle, ACCESS_MASK right, DWORD code) {
    process *p;
    thread *t;
    enter();
    uint32_t status = either_by(of, handle, right, &p, &t);
    if (status == OM_SUCCESS && p != NULL) {
        end_process(p, code);
    } else if (status == OM_SUCCESS) {
        end_thread(t, code);
    }
    if (me->has_ended) {
        leave();
    }
    return done(status);
}

/* Ends a call that opens what stands for a process or a thread, if there is one. */
static HANDLE opened_own(const om_opening *own, type of, ACCESS_MASK access, bool inherit) {
    uint32_t kind = OM_HOST((uint32_t)of);
    HANDLE opened = NULL;
    ACCESS_MASK rights = rights_of(kind, access, rights_of(kind, GENERIC_ALL, 0));
    return done(own == NULL ? OM_ERROR_INVALID_PARAMETER : given(own, me->of, rights, inherit, &opened)) ? opened : NULL;
}

BOOL WINAPI GetExitCodeProcess(HANDLE handle, LPDWORD code) { return code_of(A_PROCESS, handle, PROCESS_QUERY_LIMITED_INFORMATION, code); }
BOOL WINAPI GetExitCodeThread(HANDLE handle, LPDWORD code) { return code_of(A_THREAD, handle, THREAD_QUERY_LIMITED_INFORMATION, code); }
DWORD WINAPI GetProcessId(HANDLE handle) { return id_by(A_PROCESS, handle, PROCESS_QUERY_LIMITED_INFORMATION); }
DWORD WINAPI GetThreadId(HANDLE handle) { return id_by(A_THREAD, handle, THREAD_QUERY_LIMITED_INFORMATION); }

HANDLE WINAPI OpenProcess(DWORD access, BOOL inherit, DWORD id) {
    enter();
    process *p = process_with_id(id);
    return opened_own(p != NULL ? &p->own : NULL, A_PROCESS, access, inherit);
}

HANDLE WINAPI OpenThread(DWORD access, BOOL inherit, DWORD id) {
    enter();
    thread *t = thread_with_id(id);
    return opened_own(t != NULL ? &t->own : NULL, A_THREAD, access, inherit);
}

DWORD WINAPI ResumeThread(HANDLE handle) {
    thread *t;
    DWORD before = 0;
    enter();
    uint32_t status = thread_by(handle, THREAD_SUSPEND_RESUME, &t);
    if (status == OM_SUCCESS && (before = t->suspended) == 1 && !t->has_ended) {
        t->users++;
        if (!run_thread(t)) {
            t->users--;
            status = OM_ERROR_NOT_ENOUGH_MEMORY;
        }
    }
    if (status == OM_SUCCESS && before > 0) {
        t->suspended--;
    }
    return done(status) ? before : (DWORD)-1;
}

BOOL WINAPI SwitchToThread(void) { return sched_yield() == 0; }

BOOL WINAPI TerminateProcess(HANDLE handle, UINT code) { return terminate(A_PROCESS, handle, PROCESS_TERMINATE, code); }
BOOL WINAPI TerminateThread(HANDLE handle, DWORD code) { return terminate(A_THREAD, handle, THREAD_TERMINATE, code); }
