/* The calls for events, mutexes (NT says mutants), semaphores, timers, names and handles. Most are one call of the library, whose numbers become status codes.
 * */
#include "nt.h"

#include <stdio.h>
#include <stdlib.h>
#include <string.h>
#include <unistd.h>

#define MAXIMUM_ALLOWED 0x02000000u

/* A guest's handle as the library's: what has more than 32 bits names nothing. */
uint32_t handle_of(uint64_t guest) {
    return guest > UINT32_MAX ? 0 : (uint32_t)guest;
}

/* The status of a number that a call for a handle answers: where the handle is there, its object is of another kind. */
uint32_t status_of(uint32_t error, uint64_t handle) {
    om_handle_info info;
    bool is_there = error == OM_ERROR_INVALID_HANDLE && om_query_handle(&om, in->member.process, handle_of(handle), &info) == OM_SUCCESS;
    return is_there ? STATUS_OBJECT_TYPE_MISMATCH : om_nt_status(error);
}

uint32_t answer_handle(uint64_t to, uint64_t handle) {
    if (handle != 0) {
        put(to, handle, 8);
    }
    return handle == 0 ? STATUS_INSUFFICIENT_RESOURCES : STATUS_SUCCESS;
}

/* ---- Names and rights ---- */

/* A UNICODE_STRING, each character as om_spell has it; but % is itself, unless it is to be told from another's number. */
static void spell(uint64_t unicode, bool tells_percent, char *out, size_t capacity) {
    size_t length = 0;
    uint64_t bytes = unicode == 0 ? 0 : get(unicode, 2), buffer = unicode == 0 ? 0 : get(unicode + 8, 8);
    for (uint64_t i = 0; i + 1 < bytes && length + 6 < capacity; i += 2) {
        uint16_t one = (uint16_t)get(buffer + i, 2);
        if (one == '%' && !tells_percent) {
            out[length++] = '%';
        } else {
            length += om_spell(one, out + length);
        }
    }
    out[length] = 0;
}

void text_of(uint64_t unicode, char *out, size_t capacity) {
    spell(unicode, false, out, capacity);
}

static uint64_t name_in(uint64_t attributes) {
    return attributes == 0 ? 0 : get(attributes + ATTRIBUTES_NAME, 8);
}

void name_of(uint64_t attributes, char *out, size_t capacity) {
    text_of(name_in(attributes), out, capacity);
}

bool inherits(uint64_t attributes) {
    return attributes != 0 && (get(attributes + ATTRIBUTES_FLAGS, 4) & INHERIT) != 0;
}

/* Rights as the library has them: the generic ones stand for those of the kind (Learn: the page of rights of each kind), and as many as are allowed are all.
 * */
uint32_t rights_of(uint32_t kind, uint32_t access) {
    static const struct {
        uint32_t reads, writes, runs;
    } own[] = {
        [A_THREAD] = {0x48, 0x37, 0x800}, [A_PROCESS] = {0x410, 0x2AEB, 0x1000}, [A_FILE] = {0x89, 0x116, 0xA0},
        [A_SECTION] = {0x5, 0x2, 0x8},    [A_KEYED_EVENT] = {0x1, 0x2, 0},       [AN_OBJECT_DIRECTORY] = {0x3, 0xC, 0},
        [A_PORT] = {0x1, 0x2, 0},
    };
    uint32_t mapped = om_map_access(kind, access & MAXIMUM_ALLOWED ? access | OM_GENERIC_ALL : access) & ~MAXIMUM_ALLOWED;
    if (kind >= OM_HOST(A_THREAD)) {
        mapped |= access & OM_GENERIC_READ ? own[kind - OM_HOST(0)].reads : 0;
        mapped |= access & OM_GENERIC_WRITE ? own[kind - OM_HOST(0)].writes : 0;
        mapped |= access & OM_GENERIC_EXECUTE ? own[kind - OM_HOST(0)].runs : 0;
        /* who may query or set all of a thread, or query all of a process, may do the less of it that has a right of its own */
        mapped |= kind == OM_HOST(A_THREAD) && mapped & THREAD_QUERY ? THREAD_QUERY_LIMITED : 0;
        mapped |= kind == OM_HOST(A_THREAD) && mapped & THREAD_SET ? THREAD_SET_LIMITED : 0;
        mapped |= kind == OM_HOST(A_PROCESS) && mapped & PROCESS_QUERY ? PROCESS_QUERY_LIMITED : 0;
    }
    return mapped;
}

typedef struct asked {
    om_making making;
    size_t length;
    bool opens; /* an object that has the name already, too */
    char name[NT_NAME_MOST];
} asked;

/* What a create or an open asks for. A path of NT's to a session's names is the name alone, and one to those of all sessions that behind Global\. */
static asked asked_by(uint64_t attributes, uint32_t kind, uint32_t access) {
    static const char global[] = "\\BaseNamedObjects\\", session[] = "\\Sessions\\";
    asked a = {.making = om_with_access(rights_of(kind, access))};
    char text[NT_NAME_MOST];
    spell(name_in(attributes), true, text, sizeof text);
    const char *behind = strstr(text, global);
    bool is_session = strncmp(text, session, strlen(session)) == 0 && behind != NULL, is_global = behind == text;
    const char *name = is_session || is_global ? behind + strlen(global) : text;
    a.length = (size_t)snprintf(a.name, sizeof a.name, "%s%s", is_global ? "Global\\" : "", name);
    a.length = a.length < sizeof a.name ? a.length : sizeof a.name - 1;
    a.making.named = a.length > 0;
    a.making.inherit = inherits(attributes);
    a.opens = attributes == 0 || (get(attributes + ATTRIBUTES_FLAGS, 4) & OPEN_IF) != 0;
    return a;
}

/* ---- Creating and opening ---- */

/* Whether a create is for a new object alone, and the name is taken. */
static bool collides(const asked *a) {
    om_handle_info info;
    uint32_t session = 0;
    om_session_of(&om, in->member.process, &session);
    return a->making.named && !a->opens && om_find(&om, session, a->name, a->length, &info) == OM_SUCCESS;
}

static uint32_t created(uint32_t error, const om_opening *made) {
    put(arg(0), error == OM_SUCCESS || error == OM_ERROR_ALREADY_EXISTS ? made->handle : 0, 8); /* Wine's kernelbase takes what is there for its answer */
    /* a create takes no handle: 6 is of the name */
    return error == OM_ERROR_INVALID_HANDLE ? STATUS_OBJECT_TYPE_MISMATCH : om_nt_status(error);
}

uint32_t NtCreateEvent(void) {
    om_opening made;
    uint32_t form = (uint32_t)arg(3); /* 0: reset by hand */
    asked a = asked_by(arg(2), OM_EVENT, (uint32_t)arg(1));
    if (form > 1 || collides(&a)) {
        return form > 1 ? STATUS_INVALID_PARAMETER : STATUS_OBJECT_NAME_COLLISION;
    }
    return created(om_create_event(&om, current->number, &a.making, a.name, a.length, form == 0, (uint8_t)arg(4) != 0, &made), &made);
}

uint32_t NtCreateMutant(void) {
    om_opening made;
    asked a = asked_by(arg(2), OM_MUTEX, (uint32_t)arg(1));
    if (collides(&a)) {
        return STATUS_OBJECT_NAME_COLLISION;
    }
    return created(om_create_mutex(&om, current->number, &a.making, a.name, a.length, (uint8_t)arg(3) != 0, &made), &made);
}

uint32_t NtCreateSemaphore(void) {
    om_opening made;
    asked a = asked_by(arg(2), OM_SEMAPHORE, (uint32_t)arg(1));
    if (collides(&a)) {
        return STATUS_OBJECT_NAME_COLLISION;
    }
    return created(om_create_semaphore(&om, current->number, &a.making, a.name, a.length, (int32_t)arg(3), (int32_t)arg(4), &made), &made);
}

uint32_t NtCreateTimer(void) {
    om_opening made;
    asked a = asked_by(arg(2), OM_TIMER, (uint32_t)arg(1));
    if ((uint32_t)arg(3) > 1 || collides(&a)) {
        return (uint32_t)arg(3) > 1 ? STATUS_INVALID_PARAMETER : STATUS_OBJECT_NAME_COLLISION;
    }
    return created(om_create_timer(&om, current->number, &a.making, a.name, a.length, (uint32_t)arg(3) == 0, &made), &made);
}

/* An open of a kind of object by its name. */
uint32_t open_named(opener by, uint32_t kind) {
    om_opening opened;
    asked a = asked_by(arg(2), kind, (uint32_t)arg(1));
    return created(by(&om, current->number, a.making.access, a.making.inherit, a.name, a.length, &opened), &opened);
}

uint32_t NtOpenEvent(void) {
    return open_named(om_open_event, OM_EVENT);
}

uint32_t NtOpenMutant(void) {
    return open_named(om_open_mutex, OM_MUTEX);
}

uint32_t NtOpenSemaphore(void) {
    return open_named(om_open_semaphore, OM_SEMAPHORE);
}

uint32_t NtOpenTimer(void) {
    return open_named(om_open_timer, OM_TIMER);
}

/* ---- Signals ---- */

/* The state of what the call's handle names, in front of what the call does to it. All zeros where it names nothing. */
static om_object_state state_before(void) {
    om_object_state state = {0};
    om_handle_state(&om, in->member.process, handle_of(arg(0)), &state);
    return state;
}

static uint32_t signal_event(uint32_t (*by)(om_manager *m, uint32_t thread, uint32_t handle), uint64_t to) {
    om_object_state before = state_before();
    uint32_t status = status_of(by(&om, current->number, handle_of(arg(0))), arg(0));
    if (status == STATUS_SUCCESS) {
        put(to, before.signaled, 4);
    }
    return status;
}

uint32_t NtSetEvent(void) {
    return signal_event(om_set_event, arg(1));
}

uint32_t NtResetEvent(void) {
    return signal_event(om_reset_event, arg(1));
}

uint32_t NtClearEvent(void) {
    return signal_event(om_reset_event, 0);
}

uint32_t NtPulseEvent(void) {
    return signal_event(om_pulse_event, arg(1));
}

uint32_t NtReleaseMutant(void) {
    om_object_state before = state_before();
    uint32_t status = status_of(om_release_mutex(&om, current->number, handle_of(arg(0))), arg(0));
    if (status == STATUS_SUCCESS) {
        put(arg(1), 1u - before.count, 4);
    }
    return status;
}

uint32_t NtReleaseSemaphore(void) {
    uint32_t before, status = status_of(om_release_semaphore(&om, current->number, handle_of(arg(0)), (int32_t)arg(1), &before), arg(0));
    if (status == STATUS_SUCCESS) {
        put(arg(2), before, 4);
    }
    return status;
}

/* ---- Timers, and their routines, whose moments the host keeps ---- */

uint64_t next_routine = UINT64_MAX; /* when the next one is due, or what was */

/* Each routine that is due is queued for its thread, which has it queued once at most. */
void run_routines(void) {
    next_routine = UINT64_MAX;
    for (uint32_t i = 0; i < SLOTS; i++) {
        kept *k = all_kept[i];
        thread *t = k == NULL || k->due == 0 ? NULL : thread_numbered(k->number);
        if (t == NULL) {
            continue;
        }
        if (k->due <= now()) {
            cancel_apc(t, i + 1);
            queue_apc(t, i + 1, k->routine, k->with, k->due & UINT32_MAX, k->due >> 32);
            k->due = k->period == 0 ? 0 : now() + k->period * (uint64_t)10000 - (now() - k->due) % (k->period * (uint64_t)10000);
        }
        if (k->due != 0 && k->due < next_routine) {
            next_routine = k->due;
        }
    }
}

/* The timer of the call's handle has another routine from now on, or none: 0. */
static void set_routine(uint64_t routine, uint64_t with, int64_t due, uint32_t period) {
    om_handle_info info = {0};
    om_query_handle(&om, in->member.process, handle_of(arg(0)), &info);
    kept *k = kept_at(info.data);
    thread *before = k == NULL || k->routine == 0 ? NULL : thread_numbered(k->number);
    if (before != NULL) {
        cancel_apc(before, info.data);
    }
    if (k != NULL || routine != 0) {
        k = k == NULL ? keep(info.object, "") : k;
        k->number = current->number;
        k->routine = routine;
        k->with = with;
        k->due = routine == 0 ? 0 : due > 0 ? (uint64_t)due : now() - (uint64_t)due;
        k->period = period;
        next_routine = k->due != 0 && k->due < next_routine ? k->due : next_routine;
    }
}

/* A thread ends, and its timers' routines with it. */
void drop_routines(uint32_t of) {
    for (uint32_t i = 0; next_routine != UINT64_MAX && i < SLOTS; i++) {
        if (all_kept[i] != NULL && all_kept[i]->routine != 0 && all_kept[i]->number == of) {
            all_kept[i]->routine = all_kept[i]->due = 0;
        }
    }
}

/* NtSetTimer (HANDLE, &DUE, ROUTINE, WITH, RESUMES, PERIOD, &BEFORE) */
uint32_t NtSetTimer(void) {
    int64_t due = (int64_t)get(arg(1), 8);
    om_object_state before = state_before();
    tell_time();
    uint32_t status = status_of(om_set_periodic_timer(&om, current->number, handle_of(arg(0)), due, (int32_t)arg(5)), arg(0));
    if (status == STATUS_SUCCESS) {
        set_routine(arg(2), arg(3), due, (uint32_t)arg(5));
        put(arg(6), before.signaled, 1);
    }
    return status;
}

uint32_t NtCancelTimer(void) {
    om_object_state before = state_before();
    uint32_t status = status_of(om_cancel_timer(&om, current->number, handle_of(arg(0))), arg(0));
    if (status == STATUS_SUCCESS) {
        set_routine(0, 0, 0, 0);
        put(arg(1), before.signaled, 1);
    }
    return status;
}

/* ---- Questions ---- */

/* Whether a question of the one class that a kind has may be answered; its state then. */
static uint32_t ask(uint32_t kind, uint32_t size, om_handle_info *info, om_object_state *state) {
    if ((uint32_t)arg(1) != 0 || (uint32_t)arg(3) != size) {
        return (uint32_t)arg(1) != 0 ? STATUS_INVALID_INFO_CLASS : STATUS_INFO_LENGTH_MISMATCH;
    }
    if (om_query_handle(&om, in->member.process, handle_of(arg(0)), info) != OM_SUCCESS) {
        return STATUS_INVALID_HANDLE;
    }
    if (info->kind != kind || !(info->access & 1)) {
        return info->kind != kind ? STATUS_OBJECT_TYPE_MISMATCH : STATUS_ACCESS_DENIED;
    }
    tell_time();
    om_state(&om, info->object.slot, info->object.generation, state);
    put(arg(4), size, 4);
    return STATUS_SUCCESS;
}

uint32_t NtQueryEvent(void) {
    om_handle_info info;
    om_object_state state;
    om_description made;
    uint32_t status = ask(OM_EVENT, 8, &info, &state);
    if (status == STATUS_SUCCESS) {
        om_card(&om, info.object.slot, info.object.generation, &made);
        put(arg(2), made.manual ? 0 : 1, 4);
        put(arg(2) + 4, state.signaled, 4);
    }
    return status;
}

uint32_t NtQuerySemaphore(void) {
    om_handle_info info;
    om_object_state state;
    uint32_t status = ask(OM_SEMAPHORE, 8, &info, &state);
    if (status == STATUS_SUCCESS) {
        put(arg(2), state.count, 4);
        put(arg(2) + 4, state.max, 4);
    }
    return status;
}

uint32_t NtQueryMutant(void) {
    om_handle_info info;
    om_object_state state;
    uint32_t status = ask(OM_MUTEX, 8, &info, &state);
    if (status == STATUS_SUCCESS) {
        put(arg(2), 1u - state.count, 4);
        put(arg(2) + 4, state.owner == current->number, 1);
        put(arg(2) + 5, state.abandoned, 1);
    }
    return status;
}

/* How long until it is due, below 0 for since when, and whether it is signaled. */
uint32_t NtQueryTimer(void) {
    om_handle_info info;
    om_object_state state;
    uint32_t status = ask(OM_TIMER, 16, &info, &state);
    if (status == STATUS_SUCCESS) {
        put(arg(2), state.has_due ? state.due - now() : 0, 8);
        put(arg(2) + 8, state.signaled, 8);
    }
    return status;
}

/* ---- Objects of the host's own ---- */

kept *all_kept[SLOTS];

/* What the host keeps at an object with these data: 1 more than its place among all, or 0 for nothing. */
kept *kept_at(uint64_t data) {
    return data == 0 || data > SLOTS ? NULL : all_kept[data - 1];
}

kept *new_kept(uint32_t place, const char *name) {
    size_t length = strlen(name) + 1;
    kept *k = calloc(1, sizeof *k + length);
    if (k == NULL) {
        stop("no memory");
    }
    memcpy(k->name, name, length);
    k->file = -1;
    return all_kept[place] = k;
}

/* What the host keeps at an object from now on, at the place of the object's slot. */
kept *keep(om_object object, const char *name) {
    must(om_set_object_data(&om, object.slot, object.generation, object.slot + (uint64_t)1), "what is kept");
    kept *k = new_kept(object.slot, name);
    k->object = object;
    return k;
}

/* An object has ended with these data. Whether something was kept there. */
bool forget(uint64_t data) {
    kept *k = kept_at(data);
    if (k != NULL) {
        if (k->file >= 0 && !k->is_standard) {
            close(k->file);
        }
        end_pipe(k);
        end_port(k);
        free(k->entries);
        free(k);
        all_kept[data - 1] = NULL;
    }
    return k != NULL;
}

/* An object that the host has a handle to, which isn't signaled until the thread or process ends. */
om_opening host_object(type is, uint32_t number) {
    om_opening made;
    om_making all = {0};
    must(om_create_host(&om, host.thread, &all, "", 0, (uint8_t)is, true, false, &made), "an object of the host's");
    kept *k = keep(made.object, "");
    k->number = number;
    k->code = STATUS_PENDING; /* what GetExitCodeThread says of one that lives: STILL_ACTIVE */
    return made;
}

/* A handle of the process that makes the call to a new object that is always signaled, or 0. */
uint32_t new_handle(type is, const char *name, uint32_t access, uint64_t attributes, kept **made) {
    om_opening opening;
    om_making making = om_with_access(rights_of(OM_HOST(is), access));
    making.inherit = inherits(attributes);
    if (om_create_host(&om, current->number, &making, "", 0, (uint8_t)is, true, true, &opening) != OM_SUCCESS) {
        return 0;
    }
    *made = keep(opening.object, name);
    return opening.handle;
}

/* A create of an object of the host's own by its name, where attributes have one: its handle is written. Nothing is made where the object was there before. */
uint32_t new_named(type is, const char *name, uint32_t access, uint64_t attributes, uint64_t to, kept **made) {
    om_opening opening;
    asked a = asked_by(attributes, OM_HOST(is), access);
    bytes_at(to, 8);
    *made = NULL;
    if (collides(&a)) {
        return STATUS_OBJECT_NAME_COLLISION;
    }
    uint32_t error = om_create_host(&om, current->number, &a.making, a.name, a.length, (uint8_t)is, true, true, &opening);
    if (error == OM_SUCCESS) {
        *made = keep(opening.object, name);
    }
    return created(error, &opening);
}

static uint32_t open_section(om_manager *m, uint32_t by, uint32_t access, bool inherit, const char *name, size_t length, om_opening *opening) {
    return om_open_host(m, by, A_SECTION, access, inherit, name, length, opening);
}

uint32_t NtOpenSection(void) {
    return open_named(open_section, OM_HOST(A_SECTION));
}

/* A handle of the process whose memory is meant to an object of the host's, or 0. */
uint64_t given(const om_opening *own, uint32_t access, bool inherit) {
    om_opening made;
    uint32_t error = om_duplicate(&om, host.thread, host.process, own->handle, in->member.process, access, inherit, 0, &made);
    return error == OM_SUCCESS ? made.handle : 0;
}

/* What the host keeps at an object of a type that a handle names with a right. */
uint32_t named(uint64_t handle, type is, uint32_t right, kept **found) {
    om_handle_info info;
    if (om_query_handle(&om, in->member.process, handle_of(handle), &info) != OM_SUCCESS) {
        return STATUS_INVALID_HANDLE;
    }
    if (info.kind != OM_HOST(is) || (info.access & right) != right) {
        return info.kind != OM_HOST(is) ? STATUS_OBJECT_TYPE_MISMATCH : STATUS_ACCESS_DENIED;
    }
    if (found != NULL) {
        *found = kept_at(info.data);
    }
    return STATUS_SUCCESS;
}

/* Directories of names aren't told apart: what is opened by a handle of one is found as if it were that of the session's names. */
uint32_t NtOpenDirectoryObject(void) {
    kept *k;
    return answer_handle(arg(0), new_handle(AN_OBJECT_DIRECTORY, "", (uint32_t)arg(1), arg(2), &k));
}

/* ---- Handles ---- */

uint32_t NtClose(void) {
    om_handle_info info;
    if (arg(0) > UINT64_MAX - 6) {
        return STATUS_SUCCESS; /* what stands for the caller, its process and their tokens is no handle */
    }
    uint32_t error = om_close(&om, current->number, handle_of(arg(0)));
    bool is_there = error == OM_ERROR_INVALID_HANDLE && om_query_handle(&om, in->member.process, handle_of(arg(0)), &info) == OM_SUCCESS;
    return is_there ? STATUS_HANDLE_NOT_CLOSABLE : om_nt_status(error);
}

static uint32_t duplicated(uint32_t error, const om_opening *made) {
    if (error == OM_SUCCESS && arg(3) != 0) {
        put(arg(3), made->handle, 8);
    }
    return om_nt_status(error);
}

/* NtDuplicateObject (SOURCE, HANDLE, TARGET, &MADE, ACCESS, ATTRIBUTES, OPTIONS) */
uint32_t NtDuplicateObject(void) {
    enum { SAME_ATTRIBUTES = 4, DUPLICATES = 0x40 /* PROCESS_DUP_HANDLE */ };
    process *source, *target = NULL;
    om_opening made;
    om_handle_info info;
    uint32_t handle = handle_of(arg(1)), access = (uint32_t)arg(4), options = (uint32_t)arg(6), no_target = STATUS_SUCCESS;
    uint32_t status = process_by(arg(0), DUPLICATES, NULL, &source);
    if (status == STATUS_SUCCESS && arg(2) != 0) {
        no_target = process_by(arg(2), DUPLICATES, NULL, &target);
        status = options & OM_DUPLICATE_CLOSE_SOURCE ? status : no_target;
    }
    if (status != STATUS_SUCCESS) {
        return status;
    }
    uint32_t to = target == NULL ? 0 : target->member.process;
    bool inherit = ((uint32_t)arg(5) & INHERIT) != 0;
    if (arg(1) == THIS_THREAD || arg(1) == THIS_PROCESS) {
        const om_opening *own = arg(1) == THIS_THREAD ? &current->own : &source->own;
        uint32_t kind = arg(1) == THIS_THREAD ? OM_HOST(A_THREAD) : OM_HOST(A_PROCESS);
        uint32_t rights = options & OM_DUPLICATE_SAME_ACCESS ? OM_HOST_ALL_ACCESS : rights_of(kind, access);
        return to == 0 ? STATUS_INVALID_HANDLE : duplicated(om_duplicate(&om, host.thread, host.process, own->handle, to, rights, inherit, 0, &made), &made);
    }
    if (om_query_handle(&om, source->member.process, handle, &info) == OM_SUCCESS) {
        access = rights_of(info.kind, access);
        inherit = options & SAME_ATTRIBUTES ? (info.flags & OM_HANDLE_FLAG_INHERIT) != 0 : inherit;
    }
    options &= OM_DUPLICATE_CLOSE_SOURCE | OM_DUPLICATE_SAME_ACCESS;
    uint32_t error = om_duplicate(&om, current->number, source->member.process, handle, to, access, inherit, options, &made);
    return no_target != STATUS_SUCCESS ? no_target : duplicated(error, &made); /* the source is closed all the same */
}

uint32_t NtSetInformationObject(void) {
    enum { HANDLE_FLAGS = 4 };
    if ((uint32_t)arg(1) != HANDLE_FLAGS) {
        return STATUS_NOT_IMPLEMENTED;
    }
    uint32_t flags = (get(arg(2), 1) ? OM_HANDLE_FLAG_INHERIT : 0) | (get(arg(2) + 1, 1) ? OM_HANDLE_FLAG_PROTECT_FROM_CLOSE : 0);
    return om_nt_status(om_set_handle_flags(&om, current->number, handle_of(arg(0)), OM_HANDLE_FLAG_INHERIT | OM_HANDLE_FLAG_PROTECT_FROM_CLOSE, flags));
}

/* A UNICODE_STRING, and its text behind it where a structure of a size ends; how many bytes all that has. What is spelled is told as it was. */
static uint32_t tell_text(uint64_t to, uint32_t size, const char *text, bool is_spelled, uint32_t room) {
    uint16_t wide[NT_NAME_MOST];
    uint32_t length = 0;
    for (size_t i = 0, end = strlen(text); i < end; length++) {
        wide[length] = (uint8_t)text[i];
        i += is_spelled ? om_spelled(text + i, end - i, &wide[length]) : 1;
    }
    uint32_t need = size + 2 * length + (length > 0 ? 2 : 0);
    if (room < need) {
        return need;
    }
    memset(bytes_at(to, need), 0, need);
    put(to, 2 * length, 2);
    put(to + 2, length > 0 ? 2 * length + 2 : 0, 2);
    put(to + 8, length > 0 ? to + size : 0, 8);
    if (length > 0) {
        fill(to + size, wide, 2 * length);
    }
    return need;
}

static uint32_t tell_name(const om_handle_info *info, uint64_t to, uint32_t room) {
    char name[OM_NAME_MOST], text[NT_NAME_MOST] = "";
    om_row row = {0};
    om_name_of(&om, info->object.slot, info->object.generation, name, sizeof name, &row);
    if (row.length > 0 && row.session == 0) {
        snprintf(text, sizeof text, "\\BaseNamedObjects\\%.*s", (int)row.length, name);
    } else if (row.length > 0) {
        snprintf(text, sizeof text, "\\Sessions\\%u\\BaseNamedObjects\\%.*s", row.session, (int)row.length, name);
    } else if (info->kind == OM_HOST(A_FILE)) {
        snprintf(text, sizeof text, "%s", kept_at(info->data)->name);
    }
    return tell_text(to, 16, text, row.length > 0, room);
}

static uint32_t tell_type(uint32_t kind, uint64_t to, uint32_t room) {
    static const char *const kinds[] = {"Event", "Mutant", "Semaphore", "Timer"};
    static const char *const own[] = {"", "Thread", "Process", "File", "Section", "KeyedEvent", "Directory", "IoCompletion"};
    return tell_text(to, 0x68, kind < OM_ENDED ? kinds[kind] : own[kind - OM_HOST(0)], false, room);
}

/* PUBLIC_OBJECT_BASIC_INFORMATION, with the counts of handles and references. */
static uint32_t tell_basics(const om_handle_info *info, uint64_t to, uint32_t room) {
    om_references all = {0};
    if (room < 0x38) {
        return 0x38;
    }
    om_counts(&om, info->object.slot, info->object.generation, &all);
    memset(bytes_at(to, 0x38), 0, 0x38);
    put(to, info->flags, 4);
    put(to + 4, info->access, 4);
    put(to + 8, all.handles, 4);
    put(to + 12, all.handles + all.waits, 4);
    return 0x38;
}

uint32_t NtQueryObject(void) {
    enum { BASICS, NAME, TYPE, TYPES, HANDLE_FLAGS };
    om_handle_info info;
    uint32_t class = (uint32_t)arg(1), room = (uint32_t)arg(3), need;
    uint64_t to = arg(2), handle = arg(0);
    if (class == TYPES || class > HANDLE_FLAGS) {
        return STATUS_NOT_IMPLEMENTED;
    }
    if (handle == THIS_PROCESS || handle == THIS_THREAD) {
        const om_opening *own = handle == THIS_PROCESS ? &in->own : &current->own;
        om_query_handle(&om, host.process, own->handle, &info);
    } else if (om_query_handle(&om, in->member.process, handle_of(handle), &info) != OM_SUCCESS) {
        return STATUS_INVALID_HANDLE;
    }
    if (class == HANDLE_FLAGS) {
        need = 2;
        if (room >= need) {
            put(to, (info.flags & OM_HANDLE_FLAG_INHERIT) != 0, 1);
            put(to + 1, (info.flags & OM_HANDLE_FLAG_PROTECT_FROM_CLOSE) != 0, 1);
        }
    } else {
        need = class == BASICS ? tell_basics(&info, to, room) : class == NAME ? tell_name(&info, to, room) : tell_type(info.kind, to, room);
    }
    put(arg(4), need, 4);
    return room >= need ? STATUS_SUCCESS : class == NAME && room >= 16 ? 0x80000005u /* STATUS_BUFFER_OVERFLOW */ : STATUS_INFO_LENGTH_MISMATCH;
}
