/* Events, mutexes and semaphores, and what else is made and opened by name.
 * https://learn.microsoft.com/windows/win32/sync/synchronization-functions */
#include "host.h"

/* ---- Rights: what the generic ones stand for. https://learn.microsoft.com/windows/win32/secauthz/generic-access-rights ---- */

static const struct {
    const char *name;
    ACCESS_MASK read, write, execute, all;
} types[] = {
    [A_THREAD] = {"Thread", 0x00020048u, 0x00020037u, 0x00120800u, THREAD_ALL_ACCESS},
    [A_PROCESS] = {"Process", 0x00020410u, 0x00020BEAu, 0x00121001u, PROCESS_ALL_ACCESS},
    [A_FILE] = {"File", 0x00120089u, 0x00120116u, 0x001200A0u, 0x001F01FFu},
    [A_SECTION] = {"Section", 0x00020005u, 0x00020002u, 0x00020008u, SECTION_ALL_ACCESS},
    [A_JOB] = {"Job", 0x00020004u, 0x0002000Bu, 0x00120000u, JOB_OBJECT_ALL_ACCESS},
    [A_COMPLETION] = {"IoCompletion", 0x00020001u, 0x00020002u, 0x00120000u, 0x001F0003u},
    [A_KEYED_EVENT] = {"KeyedEvent", 0x00020001u, 0x00020002u, 0x00020000u, 0x000F0003u},
    [A_DEBUG_OBJECT] = {"DebugObject", 0x00020001u, 0x00020002u, 0x00120000u, 0x001F000Fu},
    [A_LINK] = {"SymbolicLink", 0x00020001u, 0x00020000u, 0x00020001u, 0x000F0001u},
    [GLOBAL_NAMES] = {"Directory", 0x00020003u, 0x0002000Cu, 0x00020003u, 0x000F000Fu},
    [LOCAL_NAMES] = {"Directory", 0x00020003u, 0x0002000Cu, 0x00020003u, 0x000F000Fu},
};

const char *type_name(uint32_t kind) {
    static const char *const names[] = {"Event", "Mutant", "Semaphore", "Timer"};
    return kind < OM_ENDED ? names[kind] : types[kind - OM_HOST(0)].name;
}

/* Rights as the library has them; `most` is what MAXIMUM_ALLOWED asks for. */
ACCESS_MASK rights_of(uint32_t kind, ACCESS_MASK access, ACCESS_MASK most) {
    ACCESS_MASK rights = access & ~MAXIMUM_ALLOWED;
    if (kind < OM_ENDED) {
        rights = om_map_access(kind, rights);
    } else {
        uint32_t type = kind - OM_HOST(0);
        rights &= 0x0FFFFFFFu;
        rights |= (access & GENERIC_READ ? types[type].read : 0) | (access & GENERIC_WRITE ? types[type].write : 0);
        rights |= (access & GENERIC_EXECUTE ? types[type].execute : 0) | (access & GENERIC_ALL ? types[type].all : 0);
    }
    return access & MAXIMUM_ALLOWED ? rights | most : rights;
}

/* The rights that a security descriptor's discretionary list allows to anybody, since there are no users here: its layout is that of
 * SECURITY_DESCRIPTOR, ACL and ACE_HEADER. Without a list, or with none, everything is allowed.
 * https://learn.microsoft.com/windows/win32/secauthz/dacls-and-aces */
static bool has_grant(const void *descriptor, uint32_t kind, ACCESS_MASK *grant) {
    enum { DACL_PRESENT = 4, SELF_RELATIVE = 0x8000, ALLOWED = 0 };
    const BYTE *d = descriptor;
    if (d == NULL || (*(const WORD *)(d + 2) & DACL_PRESENT) == 0) {
        return false;
    }
    bool is_relative = (*(const WORD *)(d + 2) & SELF_RELATIVE) != 0;
    DWORD offset = is_relative ? *(const DWORD *)(d + 16) : 0;
    const BYTE *list = !is_relative ? *(const BYTE *const *)(d + 32) : offset == 0 ? NULL : d + offset;
    if (list == NULL) {
        return false;
    }
    const BYTE *entry = list + 8;
    ACCESS_MASK all = rights_of(kind, GENERIC_ALL, 0);
    *grant = 0;
    for (WORD left = *(const WORD *)(list + 4); left > 0; left--, entry += *(const WORD *)(entry + 2)) {
        if (*entry == ALLOWED) {
            *grant |= rights_of(kind, *(const ACCESS_MASK *)(entry + 4), all) & all;
        }
    }
    return true;
}

/* ---- Making and opening ---- */

/* Under the lock. A new object's handle has what is asked for of the kind's rights, one to an object that is there what that grants. The right to a
 * system list is a privilege that nobody has here. */
uint32_t make(const body *b, const name *n, ACCESS_MASK access, bool inherit, const void *descriptor, om_opening *made) {
    om_handle_info there;
    uint32_t by = me->number;
    ACCESS_MASK all = rights_of(b->kind, GENERIC_ALL, 0);
    bool is_new = !n->is_given || om_find(&om, SESSION, n->bytes, n->length, &there) != OM_SUCCESS;
    om_making m = om_with_access(is_new ? rights_of(b->kind, access, all) & (all | SYNCHRONIZE) : rights_of(b->kind, access, there.access));
    m.named = n->is_given;
    m.inherit = inherit;
    m.has_grant = has_grant(descriptor, b->kind, &m.grant);
    if (access & ACCESS_SYSTEM_SECURITY) {
        return ERROR_PRIVILEGE_NOT_HELD;
    }
    switch (b->kind) {
    case OM_EVENT: return om_create_event(&om, by, &m, n->bytes, n->length, b->manual, b->set, made);
    case OM_MUTEX: return om_create_mutex(&om, by, &m, n->bytes, n->length, b->set, made);
    case OM_SEMAPHORE: return om_create_semaphore(&om, by, &m, n->bytes, n->length, b->initial, b->most, made);
    case OM_TIMER: return om_create_timer(&om, by, &m, n->bytes, n->length, b->manual, made);
    default: return om_create_host(&om, by, &m, n->bytes, n->length, (uint8_t)(b->kind - OM_HOST(0)), true, b->set, made);
    }
}

/* Under the lock. */
uint32_t open_named(uint32_t kind, const name *n, ACCESS_MASK access, bool inherit, om_opening *opened) {
    om_handle_info there = {0};
    bool is_found = om_find(&om, SESSION, n->bytes, n->length, &there) == OM_SUCCESS && there.kind == kind;
    uint32_t by = me->number, rights = rights_of(kind, access, there.access);
    if (access & ACCESS_SYSTEM_SECURITY && is_found) {
        return ERROR_PRIVILEGE_NOT_HELD;
    }
    switch (kind) {
    case OM_EVENT: return om_open_event(&om, by, rights, inherit, n->bytes, n->length, opened);
    case OM_MUTEX: return om_open_mutex(&om, by, rights, inherit, n->bytes, n->length, opened);
    case OM_SEMAPHORE: return om_open_semaphore(&om, by, rights, inherit, n->bytes, n->length, opened);
    case OM_TIMER: return om_open_timer(&om, by, rights, inherit, n->bytes, n->length, opened);
    default: return om_open_host(&om, by, (uint8_t)(kind - OM_HOST(0)), rights, inherit, n->bytes, n->length, opened);
    }
}

/* A create that finds the name says so by ERROR_ALREADY_EXISTS behind a handle; one that makes the object says ERROR_SUCCESS. */
HANDLE create(body b, LPSECURITY_ATTRIBUTES attributes, const name *n, ACCESS_MASK access) {
    bool inherit = attributes != NULL && attributes->bInheritHandle;
    om_opening made = {0};
    enter();
    uint32_t status = n->status != 0 ? n->status : make(&b, n, access, inherit, attributes != NULL ? attributes->lpSecurityDescriptor : NULL, &made);
    SetLastError(unlocked(status));
    return status == OM_SUCCESS || status == OM_ERROR_ALREADY_EXISTS ? (HANDLE)(uintptr_t)made.handle : NULL;
}

HANDLE opened_by(uint32_t kind, ACCESS_MASK access, BOOL inherit, const name *n) {
    om_opening opened = {0};
    enter();
    uint32_t status = n->status;
    if (status == OM_SUCCESS) {
        status = n->is_given ? open_named(kind, n, access, inherit, &opened) : OM_ERROR_INVALID_HANDLE;
    }
    return done(status) ? (HANDLE)(uintptr_t)opened.handle : NULL;
}

/* The same by a name that has to be there. */
static HANDLE opened_narrow(uint32_t kind, ACCESS_MASK access, BOOL inherit, LPCSTR text) {
    name n = text == NULL ? (name){.status = ERROR_INVALID_PARAMETER} : narrow(text);
    return opened_by(kind, access, inherit, &n);
}

static HANDLE opened_wide(uint32_t kind, ACCESS_MASK access, BOOL inherit, LPCWSTR text) {
    name n = text == NULL ? (name){.status = ERROR_INVALID_PARAMETER} : wide(text);
    return opened_by(kind, access, inherit, &n);
}

static HANDLE created_narrow(body b, LPSECURITY_ATTRIBUTES attributes, LPCSTR text, ACCESS_MASK access) {
    name n = narrow(text);
    return create(b, attributes, &n, access);
}

static HANDLE created_wide(body b, LPSECURITY_ATTRIBUTES attributes, LPCWSTR text, ACCESS_MASK access) {
    name n = wide(text);
    return create(b, attributes, &n, access);
}

/* ---- Events ---- */

static body an_event(bool manual, bool set) {
    return (body){.kind = OM_EVENT, .manual = manual, .set = set};
}

HANDLE WINAPI CreateEventA(LPSECURITY_ATTRIBUTES attributes, BOOL manual, BOOL set, LPCSTR name) {
    return created_narrow(an_event(manual, set), attributes, name, EVENT_ALL_ACCESS);
}

HANDLE WINAPI CreateEventW(LPSECURITY_ATTRIBUTES attributes, BOOL manual, BOOL set, LPCWSTR name) {
    return created_wide(an_event(manual, set), attributes, name, EVENT_ALL_ACCESS);
}

HANDLE WINAPI CreateEventExA(LPSECURITY_ATTRIBUTES attributes, LPCSTR name, DWORD flags, DWORD access) {
    return created_narrow(an_event(flags & CREATE_EVENT_MANUAL_RESET, flags & CREATE_EVENT_INITIAL_SET), attributes, name, access);
}

HANDLE WINAPI CreateEventExW(LPSECURITY_ATTRIBUTES attributes, LPCWSTR name, DWORD flags, DWORD access) {
    return created_wide(an_event(flags & CREATE_EVENT_MANUAL_RESET, flags & CREATE_EVENT_INITIAL_SET), attributes, name, access);
}

HANDLE WINAPI OpenEventA(DWORD access, BOOL inherit, LPCSTR name) { return opened_narrow(OM_EVENT, access, inherit, name); }
HANDLE WINAPI OpenEventW(DWORD access, BOOL inherit, LPCWSTR name) { return opened_wide(OM_EVENT, access, inherit, name); }

BOOL WINAPI PulseEvent(HANDLE event) { return succeeded(answered(om_pulse_event(&om, enter(), number_of(event)))); }
BOOL WINAPI ResetEvent(HANDLE event) { return succeeded(answered(om_reset_event(&om, enter(), number_of(event)))); }
BOOL WINAPI SetEvent(HANDLE event) { return succeeded(answered(om_set_event(&om, enter(), number_of(event)))); }

/* ---- Mutexes ---- */

static body a_mutex(bool owned) {
    return (body){.kind = OM_MUTEX, .set = owned};
}

HANDLE WINAPI CreateMutexA(LPSECURITY_ATTRIBUTES attributes, BOOL owned, LPCSTR name) {
    return created_narrow(a_mutex(owned), attributes, name, MUTEX_ALL_ACCESS);
}

HANDLE WINAPI CreateMutexW(LPSECURITY_ATTRIBUTES attributes, BOOL owned, LPCWSTR name) {
    return created_wide(a_mutex(owned), attributes, name, MUTEX_ALL_ACCESS);
}

HANDLE WINAPI CreateMutexExA(LPSECURITY_ATTRIBUTES attributes, LPCSTR name, DWORD flags, DWORD access) {
    return created_narrow(a_mutex(flags & CREATE_MUTEX_INITIAL_OWNER), attributes, name, access);
}

HANDLE WINAPI CreateMutexExW(LPSECURITY_ATTRIBUTES attributes, LPCWSTR name, DWORD flags, DWORD access) {
    return created_wide(a_mutex(flags & CREATE_MUTEX_INITIAL_OWNER), attributes, name, access);
}

HANDLE WINAPI OpenMutexA(DWORD access, BOOL inherit, LPCSTR name) { return opened_narrow(OM_MUTEX, access, inherit, name); }
HANDLE WINAPI OpenMutexW(DWORD access, BOOL inherit, LPCWSTR name) { return opened_wide(OM_MUTEX, access, inherit, name); }
BOOL WINAPI ReleaseMutex(HANDLE mutex) { return succeeded(answered(om_release_mutex(&om, enter(), number_of(mutex)))); }

/* ---- Semaphores ---- */

static body a_semaphore(LONG initial, LONG most) {
    return (body){.kind = OM_SEMAPHORE, .initial = initial, .most = most};
}

HANDLE WINAPI CreateSemaphoreA(LPSECURITY_ATTRIBUTES attributes, LONG initial, LONG most, LPCSTR name) {
    return created_narrow(a_semaphore(initial, most), attributes, name, SEMAPHORE_ALL_ACCESS);
}

HANDLE WINAPI CreateSemaphoreW(LPSECURITY_ATTRIBUTES attributes, LONG initial, LONG most, LPCWSTR name) {
    return created_wide(a_semaphore(initial, most), attributes, name, SEMAPHORE_ALL_ACCESS);
}

HANDLE WINAPI CreateSemaphoreExA(LPSECURITY_ATTRIBUTES attributes, LONG initial, LONG most, LPCSTR name, DWORD flags, DWORD access) {
    (void)flags;
    return created_narrow(a_semaphore(initial, most), attributes, name, access);
}

HANDLE WINAPI CreateSemaphoreExW(LPSECURITY_ATTRIBUTES attributes, LONG initial, LONG most, LPCWSTR name, DWORD flags, DWORD access) {
    (void)flags;
    return created_wide(a_semaphore(initial, most), attributes, name, access);
}

HANDLE WINAPI OpenSemaphoreA(DWORD access, BOOL inherit, LPCSTR name) { return opened_narrow(OM_SEMAPHORE, access, inherit, name); }
HANDLE WINAPI OpenSemaphoreW(DWORD access, BOOL inherit, LPCWSTR name) { return opened_wide(OM_SEMAPHORE, access, inherit, name); }

BOOL WINAPI ReleaseSemaphore(HANDLE semaphore, LONG count, LPLONG previous) {
    uint32_t before, status = om_release_semaphore(&om, enter(), number_of(semaphore), count, &before);
    if (status == OM_SUCCESS && previous != NULL) {
        *previous = (LONG)before;
    }
    return succeeded(answered(status));
}

/* ---- Waitable timers, but for their time (timers.c) ---- */

static body a_timer(bool manual) {
    return (body){.kind = OM_TIMER, .manual = manual};
}

HANDLE WINAPI CreateWaitableTimerA(LPSECURITY_ATTRIBUTES attributes, BOOL manual, LPCSTR name) {
    return created_narrow(a_timer(manual), attributes, name, TIMER_ALL_ACCESS);
}

HANDLE WINAPI CreateWaitableTimerW(LPSECURITY_ATTRIBUTES attributes, BOOL manual, LPCWSTR name) {
    return created_wide(a_timer(manual), attributes, name, TIMER_ALL_ACCESS);
}

HANDLE WINAPI CreateWaitableTimerExA(LPSECURITY_ATTRIBUTES attributes, LPCSTR name, DWORD flags, DWORD access) {
    return created_narrow(a_timer(flags & CREATE_WAITABLE_TIMER_MANUAL_RESET), attributes, name, access);
}

HANDLE WINAPI CreateWaitableTimerExW(LPSECURITY_ATTRIBUTES attributes, LPCWSTR name, DWORD flags, DWORD access) {
    return created_wide(a_timer(flags & CREATE_WAITABLE_TIMER_MANUAL_RESET), attributes, name, access);
}

HANDLE WINAPI OpenWaitableTimerA(DWORD access, BOOL inherit, LPCSTR name) { return opened_narrow(OM_TIMER, access, inherit, name); }
HANDLE WINAPI OpenWaitableTimerW(DWORD access, BOOL inherit, LPCWSTR name) { return opened_wide(OM_TIMER, access, inherit, name); }

/* ---- File mappings and jobs: their handles and names, which share the namespace of all the others, and nothing that they do ---- */

/* The rights of a handle to a new mapping, or none for a protection that pages of a mapping can't have. */
ACCESS_MASK mapped_by(DWORD protect) {
    enum { QUERY = 1, WRITE = 2, READ = 4, EXECUTE = 8 };
    switch (protect & 0xFF) {
    case PAGE_READONLY:
    case PAGE_WRITECOPY: return STANDARD_RIGHTS_REQUIRED | QUERY | READ;
    case PAGE_READWRITE: return STANDARD_RIGHTS_REQUIRED | QUERY | READ | WRITE;
    case PAGE_EXECUTE_READ:
    case PAGE_EXECUTE_WRITECOPY: return STANDARD_RIGHTS_REQUIRED | QUERY | READ | EXECUTE;
    case PAGE_EXECUTE_READWRITE: return STANDARD_RIGHTS_REQUIRED | QUERY | READ | WRITE | EXECUTE;
    default: return 0;
    }
}

static HANDLE mapping(LPSECURITY_ATTRIBUTES attributes, DWORD protect, name n) {
    ACCESS_MASK access = mapped_by(protect);
    if (access == 0) {
        n.status = ERROR_INVALID_PARAMETER;
    }
    return create((body){.kind = OM_HOST((uint32_t)A_SECTION)}, attributes, &n, access);
}

static const body a_job = {.kind = OM_HOST((uint32_t)A_JOB)};

HANDLE WINAPI CreateFileMappingA(HANDLE file, LPSECURITY_ATTRIBUTES attributes, DWORD protect, DWORD high, DWORD low, LPCSTR name) {
    (void)file, (void)high, (void)low;
    return mapping(attributes, protect, narrow(name));
}

HANDLE WINAPI CreateFileMappingW(HANDLE file, LPSECURITY_ATTRIBUTES attributes, DWORD protect, DWORD high, DWORD low, LPCWSTR name) {
    (void)file, (void)high, (void)low;
    return mapping(attributes, protect, wide(name));
}

HANDLE WINAPI CreateJobObjectA(LPSECURITY_ATTRIBUTES attributes, LPCSTR name) {
    return created_narrow(a_job, attributes, name, JOB_OBJECT_ALL_ACCESS);
}

HANDLE WINAPI CreateJobObjectW(LPSECURITY_ATTRIBUTES attributes, LPCWSTR name) {
    return created_wide(a_job, attributes, name, JOB_OBJECT_ALL_ACCESS);
}

/* To map a copy needs no more than to read. */
static DWORD without_copy(DWORD access) { return access == FILE_MAP_COPY ? FILE_MAP_READ : access; }

HANDLE WINAPI OpenFileMappingA(DWORD access, BOOL inherit, LPCSTR name) {
    return opened_narrow(OM_HOST((uint32_t)A_SECTION), without_copy(access), inherit, name);
}

HANDLE WINAPI OpenFileMappingW(DWORD access, BOOL inherit, LPCWSTR name) {
    return opened_wide(OM_HOST((uint32_t)A_SECTION), without_copy(access), inherit, name);
}

HANDLE WINAPI OpenJobObjectA(DWORD access, BOOL inherit, LPCSTR name) { return opened_narrow(OM_HOST((uint32_t)A_JOB), access, inherit, name); }
HANDLE WINAPI OpenJobObjectW(DWORD access, BOOL inherit, LPCWSTR name) { return opened_wide(OM_HOST((uint32_t)A_JOB), access, inherit, name); }
