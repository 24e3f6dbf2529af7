/* The calls of ntdll for handles, what is told of them, and what else has a name. */
#include "host.h"

#include <string.h>

/* ---- Handles ---- */

NTSTATUS NTAPI NtClose(HANDLE handle) {
    om_handle_info info;
    if (is_pseudo(handle)) {
        return STATUS_SUCCESS;
    }
    uint32_t status = om_close(&om, enter(), number_of(handle));
    bool is_protected = status == OM_ERROR_INVALID_HANDLE && query(handle, &info) == OM_SUCCESS;
    unlocked(status);
    return is_protected ? STATUS_HANDLE_NOT_CLOSABLE : native(status);
}

NTSTATUS NTAPI NtCompareObjects(HANDLE one, HANDLE other) {
    enter();
    return native(unlocked(same_object(one, other)));
}

NTSTATUS NTAPI NtDuplicateObject(HANDLE source, HANDLE handle, HANDLE target, PHANDLE made, ACCESS_MASK access, ULONG attributes, ULONG options) {
    HANDLE copy = NULL;
    if (made != NULL && !is_there(made, sizeof *made)) {
        return STATUS_ACCESS_VIOLATION;
    }
    enter();
    uint32_t status = duplicate(source, handle, target, access, (attributes & OBJ_INHERIT) != 0, options, &copy);
    if (made != NULL) {
        *made = copy;
    }
    return native(unlocked(status));
}

/* The thread of a process whose object is behind that of another, or before it, where slots are the order; one that has ended is found while
 * somebody has a handle to it. */
static thread *next_thread(const process *p, const thread *from, bool is_backwards) {
    om_object object;
    om_object_state state;
    thread *found = NULL;
    uint32_t slot = from == NULL || is_backwards ? 0 : from->own.object.slot + 1;
    for (; (found == NULL || is_backwards) && om_next_object(&om, slot, &object) == OM_SUCCESS; slot = object.slot + 1) {
        thread *t = (thread *)(uintptr_t)om_object_data(&om, object.slot, object.generation);
        if (is_backwards && from != NULL && object.slot >= from->own.object.slot) {
            break;
        }
        if (om_state(&om, object.slot, object.generation, &state) == OM_SUCCESS && state.kind == OM_HOST((uint32_t)A_THREAD) && t->of == p) {
            found = t;
        }
    }
    return found;
}

/* A handle of the host's own to a thread is there while it runs: of one that has ended the caller's handles are the only ones. */
static uint32_t opened_thread(const thread *t, ACCESS_MASK access, bool inherit, HANDLE *opened) {
    om_entry entry;
    om_opening o;
    uint32_t status = OM_ERROR_INVALID_HANDLE;
    if (!t->has_ended) {
        return given(&t->own, me->of, access, inherit, opened);
    }
    for (uint32_t handle = 0; om_next_handle(&om, me->of->number, handle, &entry) == OM_SUCCESS; handle = entry.handle) {
        if (entry.object.slot == t->own.object.slot) {
            status = om_duplicate(&om, me->number, me->of->number, entry.handle, me->of->number, access, inherit, 0, &o);
            *opened = (HANDLE)(uintptr_t)o.handle;
            break;
        }
    }
    return status;
}

NTSTATUS NTAPI NtGetNextThread(HANDLE handle, HANDLE behind, ACCESS_MASK access, ULONG attributes, ULONG flags, PHANDLE next) {
    enum { BACKWARDS = 1 };
    process *p;
    thread *t = NULL;
    if (!is_there(next, sizeof *next)) {
        return STATUS_ACCESS_VIOLATION;
    }
    *next = NULL;
    if (flags > BACKWARDS) {
        return STATUS_INVALID_PARAMETER;
    }
    enter();
    uint32_t status = process_by(handle, PROCESS_QUERY_INFORMATION, &p);
    if (status == OM_SUCCESS && behind != NULL) {
        status = thread_by(behind, 0, &t);
    }
    if (status != OM_SUCCESS) {
        return native(unlocked(status));
    }
    if ((t = next_thread(p, t, flags == BACKWARDS)) == NULL) {
        unlocked(OM_SUCCESS);
        return STATUS_NO_MORE_ENTRIES;
    }
    return native(unlocked(opened_thread(t, rights_of(OM_HOST((uint32_t)A_THREAD), access, THREAD_ALL_ACCESS), (attributes & OBJ_INHERIT) != 0, next)));
}

NTSTATUS NTAPI NtOpenProcess(PHANDLE opened, ACCESS_MASK access, const OBJECT_ATTRIBUTES *attributes, const CLIENT_ID *id) {
    if (!is_there(opened, sizeof *opened) || attributes == NULL) {
        return STATUS_ACCESS_VIOLATION;
    }
    if (id == NULL) {
        return STATUS_INVALID_PARAMETER_MIX;
    }
    *opened = NULL;
    enter();
    process *p = (uintptr_t)id->UniqueProcess > UINT32_MAX ? NULL : process_with_id((DWORD)(uintptr_t)id->UniqueProcess);
    if (p == NULL) {
        unlocked(OM_SUCCESS);
        return STATUS_INVALID_CID;
    }
    ACCESS_MASK rights = rights_of(OM_HOST((uint32_t)A_PROCESS), access, PROCESS_ALL_ACCESS);
    return native(unlocked(given(&p->own, me->of, rights, (attributes->Attributes & OBJ_INHERIT) != 0, opened)));
}

/* A string behind what has it. */
static void place(UNICODE_STRING *string, void *at, const WCHAR *text, size_t length) {
    *string = (UNICODE_STRING){(USHORT)(length * 2), (USHORT)(length * 2 + 2), at};
    memcpy(at, text, length * 2);
    string->Buffer[length] = 0;
}

static NTSTATUS basic_of(const om_handle_info *info, OBJECT_BASIC_INFORMATION *told, ULONG length, ULONG *needed) {
    om_references all = {0};
    *needed = sizeof *told;
    if (length < *needed) {
        return STATUS_INFO_LENGTH_MISMATCH;
    }
    om_counts(&om, info->object.slot, info->object.generation, &all);
    *told = (OBJECT_BASIC_INFORMATION){.GrantedAccess = info->access, .HandleCount = all.handles, .PointerCount = all.handles + 1};
    return STATUS_SUCCESS;
}

static NTSTATUS name_of(const om_handle_info *info, OBJECT_NAME_INFORMATION *told, ULONG length, ULONG *needed) {
    char spelled[OM_NAME_MOST + 1] = {0};
    WCHAR path[OM_NAME_MOST + 64];
    om_row row = {0};
    om_name_of(&om, info->object.slot, info->object.generation, spelled, OM_NAME_MOST, &row);
    size_t count = row.length == 0 ? 0 : native_path(spelled, &row, path);
    *needed = (ULONG)(sizeof *told + (count == 0 ? 0 : count * 2 + 2));
    if (length < *needed) {
        return STATUS_INFO_LENGTH_MISMATCH;
    }
    told->Name = (UNICODE_STRING){0};
    if (count > 0) {
        place(&told->Name, told + 1, path, count);
    }
    return STATUS_SUCCESS;
}

static NTSTATUS type_of(const om_handle_info *info, OBJECT_TYPE_INFORMATION *told, ULONG length, ULONG *needed) {
    const char *type = type_name(info->kind);
    WCHAR text[32];
    size_t count = strlen(type);
    for (size_t i = 0; i < count; i++) {
        text[i] = (WCHAR)type[i];
    }
    *needed = (ULONG)(sizeof *told + count * 2 + 2);
    if (length < *needed) {
        return STATUS_INFO_LENGTH_MISMATCH;
    }
    *told = (OBJECT_TYPE_INFORMATION){0};
    place(&told->TypeName, told + 1, text, count);
    return STATUS_SUCCESS;
}

NTSTATUS NTAPI NtQueryObject(HANDLE handle, ULONG what, PVOID told, ULONG length, PULONG written) {
    om_handle_info info;
    ULONG needed = 0;
    NTSTATUS status = STATUS_INVALID_INFO_CLASS;
    enter();
    uint32_t refused = query(handle, &info);
    if (refused != OM_SUCCESS) {
        return native(unlocked(refused));
    }
    switch (what) {
    case ObjectBasicInformation: status = basic_of(&info, told, length, &needed); break;
    case ObjectNameInformation: status = name_of(&info, told, length, &needed); break;
    case ObjectTypeInformation: status = type_of(&info, told, length, &needed); break;
    default: break;
    }
    unlocked(OM_SUCCESS);
    if (written != NULL && needed > 0) {
        *written = needed;
    }
    return status;
}

/* Writes a handle of a process behind others. */
typedef void (*handle_teller)(void *told, size_t at, DWORD id, const om_entry *entry, uint32_t kind);

/* How many handles all processes have, the host's own among them. */
static size_t tell_handles(void *told, handle_teller tell) {
    om_entry entry;
    om_object_state state;
    size_t count = 0;
    for (uint32_t number = 0; (number = om_next_process(&om, number)) != 0;) {
        for (uint32_t handle = 0; om_next_handle(&om, number, handle, &entry) == OM_SUCCESS; handle = entry.handle, count++) {
            if (tell != NULL && om_state(&om, entry.object.slot, entry.object.generation, &state) == OM_SUCCESS) {
                tell(told, count, id_of_process(number), &entry, state.kind);
            }
        }
    }
    return count;
}

static ULONG attributes_of(const om_entry *entry) {
    return (entry->flags & HANDLE_FLAG_INHERIT ? OBJ_INHERIT : 0) | (entry->flags & HANDLE_FLAG_PROTECT_FROM_CLOSE ? OBJ_PROTECT_CLOSE : 0);
}

static void tell_short(void *told, size_t at, DWORD id, const om_entry *entry, uint32_t kind) {
    ((SYSTEM_HANDLE_INFORMATION *)told)->Handles[at] = (SYSTEM_HANDLE_TABLE_ENTRY_INFO){
        .UniqueProcessId = id,
        .ObjectTypeIndex = (BYTE)(kind + 2),
        .HandleAttributes = (BYTE)attributes_of(entry),
        .HandleValue = (USHORT)entry->handle,
        .GrantedAccess = entry->access,
    };
}

static void tell_long(void *told, size_t at, DWORD id, const om_entry *entry, uint32_t kind) {
    ((SYSTEM_HANDLE_INFORMATION_EX *)told)->Handles[at] = (SYSTEM_HANDLE_TABLE_ENTRY_INFO_EX){
        .UniqueProcessId = id,
        .HandleValue = entry->handle,
        .GrantedAccess = entry->access,
        .ObjectTypeIndex = (USHORT)(kind + 2),
        .HandleAttributes = attributes_of(entry),
    };
}

NTSTATUS NTAPI NtQuerySystemInformation(ULONG what, PVOID told, ULONG length, PULONG written) {
    bool is_long = what == SystemExtendedHandleInformation;
    if (!is_long && what != SystemHandleInformation) {
        return STATUS_INVALID_INFO_CLASS;
    }
    enter();
    size_t count = tell_handles(NULL, NULL);
    size_t needed = is_long ? offsetof(SYSTEM_HANDLE_INFORMATION_EX, Handles) + count * sizeof(SYSTEM_HANDLE_TABLE_ENTRY_INFO_EX)
                            : offsetof(SYSTEM_HANDLE_INFORMATION, Handles) + count * sizeof(SYSTEM_HANDLE_TABLE_ENTRY_INFO);
    NTSTATUS status = told == NULL && length > 0 ? STATUS_ACCESS_VIOLATION : length < needed ? STATUS_INFO_LENGTH_MISMATCH : STATUS_SUCCESS;
    if (status == STATUS_SUCCESS && is_long) {
        *(SYSTEM_HANDLE_INFORMATION_EX *)told = (SYSTEM_HANDLE_INFORMATION_EX){.NumberOfHandles = tell_handles(told, tell_long)};
    } else if (status == STATUS_SUCCESS) {
        ((SYSTEM_HANDLE_INFORMATION *)told)->NumberOfHandles = (ULONG)tell_handles(told, tell_short);
    }
    unlocked(OM_SUCCESS);
    if (written != NULL) {
        *written = (ULONG)needed;
    }
    return status;
}

/* ---- What else has a name: as named objects alone, without what they do ---- */

static NTSTATUS other_made(PHANDLE made, ACCESS_MASK access, const OBJECT_ATTRIBUTES *attributes, type of) {
    return made_native(made, access, attributes, (body){.kind = OM_HOST((uint32_t)of)}, true);
}

static NTSTATUS other_opened(PHANDLE opened, ACCESS_MASK access, const OBJECT_ATTRIBUTES *attributes, type of) {
    return opened_native(opened, access, attributes, OM_HOST((uint32_t)of));
}

NTSTATUS NTAPI NtCreateDebugObject(PHANDLE made, ACCESS_MASK access, const OBJECT_ATTRIBUTES *attributes, ULONG flags) {
    return made_native(made, access, attributes, (body){.kind = OM_HOST((uint32_t)A_DEBUG_OBJECT)}, flags <= 1);
}

NTSTATUS NTAPI NtCreateIoCompletion(PHANDLE made, ACCESS_MASK access, const OBJECT_ATTRIBUTES *attributes, ULONG threads) {
    (void)threads;
    return other_made(made, access, attributes, A_COMPLETION);
}

NTSTATUS NTAPI NtCreateJobObject(PHANDLE made, ACCESS_MASK access, const OBJECT_ATTRIBUTES *attributes) {
    return other_made(made, access, attributes, A_JOB);
}

NTSTATUS NTAPI NtCreateKeyedEvent(PHANDLE made, ACCESS_MASK access, const OBJECT_ATTRIBUTES *attributes, ULONG flags) {
    (void)flags;
    return made_native(made, access, attributes, (body){.kind = OM_HOST((uint32_t)A_KEYED_EVENT), .set = true}, true);
}

NTSTATUS NTAPI NtCreateSection(PHANDLE made, ACCESS_MASK access, const OBJECT_ATTRIBUTES *attributes, const LARGE_INTEGER *size, ULONG protect,
                               ULONG flags, HANDLE file) {
    (void)size, (void)flags, (void)file;
    return made_native(made, access, attributes, (body){.kind = OM_HOST((uint32_t)A_SECTION)}, mapped_by(protect) != 0);
}

/* A directory of names, by its path, or by a handle to it without one; or a link by its path. No directory is in another here. */
static NTSTATUS opened_directory(PHANDLE opened, ACCESS_MASK access, const OBJECT_ATTRIBUTES *attributes, bool is_link) {
    const UNICODE_STRING *string;
    type directory = A_LINK;
    if (!is_there(opened, sizeof *opened)) {
        return STATUS_ACCESS_VIOLATION;
    }
    *opened = NULL;
    NTSTATUS status = native_string(attributes, false, &string);
    if (status != STATUS_SUCCESS) {
        return status;
    }
    if (attributes->RootDirectory != NULL) {
        enter();
        status = directory_by(attributes->RootDirectory, &directory);
        unlocked(OM_SUCCESS);
        if (status == STATUS_SUCCESS && (string->Length > 0 || is_link)) {
            status = string->Length > 0 ? STATUS_OBJECT_NAME_NOT_FOUND : STATUS_OBJECT_TYPE_MISMATCH;
        }
    } else if (string->Length == 0 || *string->Buffer != '\\') {
        status = STATUS_OBJECT_PATH_SYNTAX_BAD;
    } else if (!directory_named(string->Buffer, string->Length / 2, is_link, &directory)) {
        status = STATUS_OBJECT_NAME_NOT_FOUND;
    }
    OBJECT_ATTRIBUTES unnamed = {.Length = sizeof unnamed, .Attributes = attributes->Attributes};
    return status != STATUS_SUCCESS ? status : other_made(opened, access, &unnamed, directory);
}

NTSTATUS NTAPI NtOpenDirectoryObject(PHANDLE opened, ACCESS_MASK access, const OBJECT_ATTRIBUTES *attributes) {
    return opened_directory(opened, access, attributes, false);
}

NTSTATUS NTAPI NtOpenIoCompletion(PHANDLE opened, ACCESS_MASK access, const OBJECT_ATTRIBUTES *attributes) {
    return other_opened(opened, access, attributes, A_COMPLETION);
}

NTSTATUS NTAPI NtOpenJobObject(PHANDLE opened, ACCESS_MASK access, const OBJECT_ATTRIBUTES *attributes) {
    return other_opened(opened, access, attributes, A_JOB);
}

NTSTATUS NTAPI NtOpenKeyedEvent(PHANDLE opened, ACCESS_MASK access, const OBJECT_ATTRIBUTES *attributes) {
    return other_opened(opened, access, attributes, A_KEYED_EVENT);
}

NTSTATUS NTAPI NtOpenSection(PHANDLE opened, ACCESS_MASK access, const OBJECT_ATTRIBUTES *attributes) {
    return other_opened(opened, access, attributes, A_SECTION);
}

NTSTATUS NTAPI NtOpenSymbolicLinkObject(PHANDLE opened, ACCESS_MASK access, const OBJECT_ATTRIBUTES *attributes) {
    return opened_directory(opened, access, attributes, true);
}

void NTAPI RtlInitUnicodeString(PUNICODE_STRING string, PCWSTR text) {
    size_t length = 0;
    while (text != NULL && text[length] != 0) {
        length++;
    }
    *string = (UNICODE_STRING){(USHORT)(length * 2), (USHORT)(text == NULL ? 0 : length * 2 + 2), (PWSTR)(uintptr_t)text};
}
