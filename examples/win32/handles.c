/* Handles. https://learn.microsoft.com/windows/win32/sysinfo/handle-and-object-functions */
#include "host.h"

/* What a handle names, also one that stands for the caller itself. */
uint32_t query(HANDLE handle, om_handle_info *info) {
    bool is_process = handle == GetCurrentProcess();
    if (is_process || handle == GetCurrentThread()) {
        return om_query_handle(&om, host.process, is_process ? me->of->own.handle : me->own.handle, info);
    }
    return om_query_handle(&om, me->of->number, number_of(handle), info);
}

/* Whether a handle is none, but stands for the caller's process, thread, or a token of one. */
bool is_pseudo(HANDLE handle) {
    return (LONG_PTR)handle < 0 && (LONG_PTR)handle >= -6;
}

uint32_t same_object(HANDLE one, HANDLE other) {
    om_handle_info a, b;
    if (query(one, &a) != OM_SUCCESS || query(other, &b) != OM_SUCCESS) {
        return OM_ERROR_INVALID_HANDLE;
    }
    return a.object.slot == b.object.slot && a.object.generation == b.object.generation ? OM_SUCCESS : ERROR_NOT_SAME_OBJECT;
}

/* A copy in place of its source in one process is the source's own value, with the flag of the copy. */
static bool is_in_place(const process *source, const process *target, const om_handle_info *info, DWORD options) {
    const DWORD both = DUPLICATE_CLOSE_SOURCE | DUPLICATE_SAME_ACCESS;
    return source == target && source == me->of && (options & both) == both && (info->flags & HANDLE_FLAG_PROTECT_FROM_CLOSE) == 0;
}

/* What stands for the caller itself is copied from the host's own handle. */
static uint32_t copied(const process *source, HANDLE handle, const process *target, ACCESS_MASK access, bool inherit, DWORD options, HANDLE *made) {
    bool is_own = handle == GetCurrentProcess() || handle == GetCurrentThread();
    uint32_t from = is_own ? host.process : source->number, number = number_of(handle);
    om_handle_info info;
    om_opening o;
    if (is_own) {
        number = handle == GetCurrentProcess() ? source->own.handle : me->own.handle;
        options &= ~DUPLICATE_CLOSE_SOURCE;
    }
    if (om_query_handle(&om, from, number, &info) != OM_SUCCESS) {
        return OM_ERROR_INVALID_HANDLE;
    }
    if (options & DUPLICATE_SAME_ATTRIBUTES) {
        inherit = info.flags & HANDLE_FLAG_INHERIT;
    }
    if (!is_own && is_in_place(source, target, &info, options)) {
        *made = (HANDLE)(uintptr_t)(number & ~3u);
        return om_set_handle_flags(&om, me->number, number, HANDLE_FLAG_INHERIT, inherit ? HANDLE_FLAG_INHERIT : 0);
    }
    options &= DUPLICATE_CLOSE_SOURCE | DUPLICATE_SAME_ACCESS;
    access = rights_of(info.kind, access, info.access);
    uint32_t status = om_duplicate(&om, me->number, from, number, target == NULL ? 0 : target->number, access, inherit, options, &o);
    if (status == OM_SUCCESS && target != NULL) {
        *made = (HANDLE)(uintptr_t)o.handle;
    }
    return status;
}

/* Under the lock. Where the target is no process, or has ended, the source is closed all the same. */
uint32_t duplicate(HANDLE source, HANDLE handle, HANDLE target, ACCESS_MASK access, bool inherit, DWORD options, HANDLE *made) {
    process *from, *to = NULL;
    uint32_t status = process_by(source, PROCESS_DUP_HANDLE, &from), refused = OM_SUCCESS;
    if (status != OM_SUCCESS) {
        return status;
    }
    if (target != NULL && (refused = process_by(target, PROCESS_DUP_HANDLE, &to)) == OM_SUCCESS && to->has_ended) {
        refused = OM_ERROR_ACCESS_DENIED;
    }
    if (from->has_ended) {
        refused = OM_ERROR_ACCESS_DENIED;
    } else if (refused != OM_SUCCESS && (options & DUPLICATE_CLOSE_SOURCE) != 0) {
        copied(from, handle, NULL, 0, false, DUPLICATE_CLOSE_SOURCE, made);
    }
    return refused != OM_SUCCESS ? refused : copied(from, handle, to, access, inherit, options, made);
}

BOOL WINAPI CloseHandle(HANDLE handle) { return is_pseudo(handle) ? TRUE : done(om_close(&om, enter(), number_of(handle))); }

BOOL WINAPI CompareObjectHandles(HANDLE one, HANDLE other) {
    enter();
    return done(same_object(one, other));
}

BOOL WINAPI DuplicateHandle(HANDLE source, HANDLE handle, HANDLE target, LPHANDLE made, DWORD access, BOOL inherit, DWORD options) {
    HANDLE copy = NULL;
    enter();
    uint32_t status = duplicate(source, handle, target, access, inherit, options, &copy);
    if (made != NULL) {
        *made = copy;
    }
    return done(status);
}

BOOL WINAPI GetHandleInformation(HANDLE handle, LPDWORD flags) {
    if (is_pseudo(handle)) {
        *flags = 0;
        return TRUE;
    }
    return done(om_handle_flags(&om, enter(), number_of(handle), flags));
}

BOOL WINAPI SetHandleInformation(HANDLE handle, DWORD mask, DWORD flags) {
    return done(om_set_handle_flags(&om, enter(), number_of(handle), mask, flags));
}
