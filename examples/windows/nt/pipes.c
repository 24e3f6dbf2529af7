/* Named pipes of bytes (Learn: "Named Pipes"), of which CreatePipe makes one too. Each end is a file; it keeps what there is to read at it, and the I/O that
 * its calls have begun. An I/O that doesn't end in its call ends in one of another thread: of the other end, or one that cancels it. */
#include "nt.h"

#include <stdlib.h>
#include <string.h>
#include <strings.h>

enum { QUOTA_LEAST = 0x1000, QUOTA_MOST = 0x10000, IOS_MOST = 1024 /* at one end */ };

/* How many bytes there may be in all pipes. */
#define HELD_MOST (64u << 20)

uint64_t held;

static uint64_t unread(const kept *k) {
    return k->entries_size - k->next_entry;
}

static uint64_t least(uint64_t a, uint64_t b) {
    return a < b ? a : b;
}

/* ---- I/O: (HANDLE, EVENT, ROUTINE, WITH, &IO, ..) ---- */

/* What the call begins, behind what its end of the pipe has; NULL where there is too much. */
static io *begin_io(kept *k, doing does, uint64_t bytes, uint64_t size) {
    io **end = &k->ios;
    uint32_t count = 0;
    for (; *end != NULL; end = &(*end)->next) {
        count++;
    }
    io *made = queued < QUEUED_MOST && count < IOS_MOST ? calloc(1, sizeof *made) : NULL;
    if (made == NULL) {
        return NULL;
    }
    *made = (io){.does = does, .process = in->member.process, .thread = current->number, .routine = arg(2), .with = arg(3), .told_at = arg(4)};
    made->bytes = bytes;
    made->size = size;
    queued++;
    return *end = made;
}

/* An I/O ends: that is written, its event is set, its routine is queued or the file's port is told, and who waits for it goes on. */
static void end_io(kept *k, io *i, uint32_t status, uint64_t count) {
    process *before = in;
    thread *t = thread_numbered(i->thread);
    io **at = &k->ios;
    while (*at != i) {
        at = &(*at)->next;
    }
    *at = i->next;
    queued--;
    i->has_ended = true;
    i->status = status;
    in = process_numbered(i->process);
    put_if(i->told_at, status);
    put_if(i->told_at + 8, count);
    in = before;
    if (i->event != 0) {
        om_set_event(&om, host.thread, i->event);
        give_back(i->event);
    }
    if (i->routine != 0 && t != NULL) {
        queue_apc(t, 0, i->routine, i->with, i->told_at, 0);
    }
    post(k, i->routine, i->with, status, count);
    set_signal(k, true);
    if (i->is_pending) {
        if (!k->is_overlapped && t != NULL && t->waits == FOR_IO) {
            wake(t, status);
        }
        free(i);
    }
}

/* What the call that began an I/O answers. */
static uint32_t rest_of_call(kept *k, io *i) {
    uint32_t status = i->status;
    om_opening event = {0};
    if (i->has_ended && arg(1) != 0) {
        om_set_event(&om, current->number, handle_of(arg(1)));
    }
    if (i->has_ended) {
        free(i);
        return status;
    }
    i->is_pending = true;
    if (arg(1) != 0) {
        om_reset_event(&om, current->number, handle_of(arg(1)));
        status = borrow(arg(1), &event);
        i->event = event.handle;
    }
    if (status != STATUS_SUCCESS) {
        i->told_at = i->routine = i->with = 0;
        end_io(k, i, STATUS_CANCELLED, 0);
        return status;
    }
    set_signal(k, false);
    return k->is_overlapped ? STATUS_PENDING : sleep_for(FOR_IO, OM_FOREVER, false);
}

/* ---- Bytes ---- */

/* The next bytes of a write come to the other end. Whether the writer's memory is still there. */
static bool take_bytes(kept *to, io *write, uint64_t count) {
    process *before = in;
    in = process_numbered(write->process);
    const void *from = bytes_if(write->bytes + write->count, count);
    in = before;
    if (from == NULL || count == 0) {
        return count == 0;
    }
    uint64_t rest = unread(to);
    if (to->next_entry > 0) {
        memmove(to->entries, to->entries + to->next_entry, rest);
    }
    to->entries = realloc(to->entries, rest + count);
    if (to->entries == NULL) {
        stop("no memory");
    }
    memcpy(to->entries + rest, from, count);
    to->entries_size = rest + count;
    to->next_entry = 0;
    write->count += count;
    held += count;
    return true;
}

static void drop_bytes(kept *k, uint64_t count) {
    k->next_entry += count;
    held -= count;
}

/* A read ends with what there is. */
static void give_bytes(kept *k, io *read) {
    process *before = in;
    uint64_t count = least(read->size, unread(k));
    in = process_numbered(read->process);
    void *to = bytes_if(read->bytes, count);
    in = before;
    bool is_there = to != NULL || count == 0;
    if (to != NULL) {
        memcpy(to, k->entries + k->next_entry, count);
        drop_bytes(k, count);
    }
    end_io(k, read, is_there ? STATUS_SUCCESS : STATUS_ACCESS_VIOLATION, is_there ? count : 0);
}

static io *first_io(const kept *k, doing does) {
    io *i = k == NULL ? NULL : k->ios;
    while (i != NULL && i->does != does) {
        i = i->next;
    }
    return i;
}

/* What one end writes comes to the other one, as far as there is room, and to its reads. */
static void flow(kept *from, kept *to) {
    for (bool goes_on = true; goes_on;) {
        io *write = first_io(from, WRITES), *read = first_io(to, READS);
        goes_on = false;
        if (write != NULL) {
            uint64_t room = unread(to) < to->quota ? least(to->quota - unread(to), HELD_MOST - held) : 0;
            bool is_there = take_bytes(to, write, least(room, write->size - write->count));
            goes_on = !is_there || write->count == write->size;
            if (goes_on) {
                end_io(from, write, is_there ? STATUS_SUCCESS : STATUS_ACCESS_VIOLATION, write->count);
            }
        }
        if (read != NULL && unread(to) > 0) {
            give_bytes(to, read);
            goes_on = true;
        }
    }
}

/* A call that reads or writes at an end: (.., BYTES, SIZE, ..) */
uint32_t move_in_pipe(kept *k, doing does) {
    uint64_t size = (uint32_t)arg(6);
    bool reads_rest = does == READS && k->pipe == CLOSING && unread(k) > 0;
    if (k->pipe != CONNECTED && !reads_rest) {
        uint32_t is_closed = does == READS ? STATUS_PIPE_BROKEN : STATUS_PIPE_CLOSING;
        return k->pipe == LISTENING ? STATUS_PIPE_LISTENING : k->pipe == DISCONNECTED ? STATUS_PIPE_DISCONNECTED : is_closed;
    }
    bytes_at(arg(4), 16);
    if (size > 0) {
        bytes_at(arg(5), size);
    }
    io *i = begin_io(k, does, arg(5), size);
    if (i == NULL) {
        return STATUS_INSUFFICIENT_RESOURCES;
    }
    flow(does == READS ? kept_at(k->other) : k, does == READS ? k : kept_at(k->other));
    return rest_of_call(k, i);
}

/* ---- Ends ---- */

/* The next server's end of a name, from a slot on, or NULL. */
static kept *next_server(const char *path, uint32_t *slot) {
    for (; *slot < SLOTS; ++*slot) {
        kept *k = all_kept[*slot];
        if (k != NULL && k->is_server && strcasecmp(k->name, path) == 0) {
            ++*slot;
            return k;
        }
    }
    return NULL;
}

/* NtCreateNamedPipeFile (&HANDLE, ACCESS, ATTRIBUTES, &IO, SHARING, DISPOSITION, OPTIONS, MESSAGES, READS MESSAGES, NEVER WAITS, INSTANCES, QUOTA, QUOTA, ..)
 * */
uint32_t NtCreateNamedPipeFile(void) {
    static const char folder[] = "\\??\\pipe\\";
    char path[2 * NT_NAME_MOST];
    uint32_t access = rights_of(OM_HOST(A_FILE), (uint32_t)arg(1)), sharing = (uint32_t)arg(4), most = (uint32_t)arg(10), count = 0, slot = 0;
    uint64_t quota = least((uint32_t)arg(11) > (uint32_t)arg(12) ? (uint32_t)arg(11) : (uint32_t)arg(12), QUOTA_MOST);
    uint32_t status = path_of(arg(2), path, sizeof path);
    bytes_at(arg(0), 8), bytes_at(arg(3), 16);
    if (status != STATUS_SUCCESS || strncasecmp(path, folder, strlen(folder)) != 0) {
        return status != STATUS_SUCCESS ? status : STATUS_OBJECT_NAME_INVALID;
    }
    if (sharing == 0 || (uint8_t)arg(7) != 0 || (uint8_t)arg(8) != 0 || (uint8_t)arg(9) != 0) {
        return sharing == 0 ? STATUS_INVALID_PARAMETER : STATUS_NOT_SUPPORTED;
    }
    for (kept *other; (other = next_server(path, &slot)) != NULL; count++) {
        most = other->instances_most;
    }
    kept *k;
    uint32_t handle = count < most ? new_handle(A_FILE, path, access, arg(2), &k) : 0;
    if (handle == 0) {
        return count < most ? STATUS_INSUFFICIENT_RESOURCES : STATUS_INSTANCE_NOT_AVAILABLE;
    }
    k->is_server = true;
    k->is_overlapped = is_overlapped((uint32_t)arg(6));
    k->pipe = LISTENING;
    k->sharing = sharing;
    k->instances_most = most;
    k->quota = quota < QUOTA_LEAST ? QUOTA_LEAST : (uint32_t)quota;
    put(arg(0), handle, 8);
    done(arg(3), STATUS_SUCCESS, count == 0 ? 2 : 1); /* made, or opened */
    return STATUS_SUCCESS;
}

/* An open of a pipe by its name: a client's end of one for which none has come. */
uint32_t open_pipe(const char *path, uint64_t to, uint32_t access, uint64_t attributes, uint32_t options) {
    enum { MAY_READ = 1, MAY_WRITE = 2 };
    uint32_t slot = 0;
    kept *k, *server = next_server(path, &slot);
    bool is_there = server != NULL;
    while (server != NULL && server->pipe != LISTENING) {
        server = next_server(path, &slot);
    }
    if (server == NULL) {
        return is_there ? STATUS_PIPE_NOT_AVAILABLE : STATUS_OBJECT_NAME_NOT_FOUND;
    }
    if ((access & READ_DATA && !(server->sharing & MAY_READ)) || (access & WRITE_DATA && !(server->sharing & MAY_WRITE))) {
        return STATUS_ACCESS_DENIED;
    }
    uint32_t handle = new_handle(A_FILE, path, access, attributes, &k);
    if (handle == 0) {
        return STATUS_INSUFFICIENT_RESOURCES;
    }
    k->is_overlapped = is_overlapped(options);
    k->pipe = server->pipe = CONNECTED;
    k->quota = server->quota;
    k->other = server->object.slot + 1;
    server->other = k->object.slot + 1;
    put(to, handle, 8);
    for (io *i; (i = first_io(server, LISTENS)) != NULL;) {
        end_io(server, i, STATUS_SUCCESS, 0);
    }
    return STATUS_SUCCESS;
}

/* An end has lost the other one; what waits there ends. */
static void cut(kept *k, pipe_end to, uint32_t status) {
    while (k->ios != NULL) {
        end_io(k, k->ios, status, k->ios->count);
    }
    k->pipe = to;
    k->other = 0;
    if (to == DISCONNECTED) {
        drop_bytes(k, unread(k));
    }
}

/* A file ends, which may be an end of a pipe. */
void end_pipe(kept *k) {
    kept *other = kept_at(k->other);
    if (k->pipe != NO_PIPE) {
        cut(k, DISCONNECTED, STATUS_CANCELLED);
    }
    if (other != NULL) {
        cut(other, CLOSING, STATUS_PIPE_BROKEN);
    }
}

/* ConnectNamedPipe: waits until a client comes. */
static uint32_t listen_at(kept *k) {
    if (k->pipe == CONNECTED || k->pipe == CLOSING) {
        return k->pipe == CONNECTED ? STATUS_PIPE_CONNECTED : STATUS_PIPE_CLOSING;
    }
    bytes_at(arg(4), 16);
    io *i = begin_io(k, LISTENS, 0, 0);
    k->pipe = LISTENING;
    return i == NULL ? STATUS_INSUFFICIENT_RESOURCES : rest_of_call(k, i);
}

/* DisconnectNamedPipe: what was written and not read is lost. */
static uint32_t disconnect(kept *k) {
    kept *other = kept_at(k->other);
    if (k->pipe == LISTENING || k->pipe == DISCONNECTED) {
        return k->pipe == LISTENING ? STATUS_PIPE_LISTENING : STATUS_PIPE_DISCONNECTED;
    }
    cut(k, DISCONNECTED, STATUS_PIPE_DISCONNECTED);
    if (other != NULL) {
        cut(other, DISCONNECTED, STATUS_PIPE_DISCONNECTED);
    }
    return STATUS_SUCCESS;
}

/* PeekNamedPipe, of FILE_PIPE_PEEK_BUFFER: what the end is, how much there is to read, two counts of messages, and bytes. */
static uint32_t peek(const kept *k) {
    enum { BEFORE_BYTES = 16 };
    uint64_t to = arg(8), room = (uint32_t)arg(9), count = unread(k);
    if (k->pipe == CLOSING ? count == 0 : k->pipe != CONNECTED) {
        return k->pipe == CLOSING ? STATUS_PIPE_BROKEN : k->pipe == DISCONNECTED ? STATUS_PIPE_DISCONNECTED : STATUS_INVALID_PIPE_STATE;
    }
    if (room < BEFORE_BYTES) {
        return STATUS_INFO_LENGTH_MISMATCH;
    }
    uint64_t copied = least(count, room - BEFORE_BYTES);
    uint8_t *bytes = bytes_at(to, BEFORE_BYTES + copied);
    memset(bytes, 0, BEFORE_BYTES);
    put(to, k->pipe, 4);
    put(to + 4, count, 4);
    if (copied > 0) {
        memcpy(bytes + BEFORE_BYTES, k->entries + k->next_entry, copied);
    }
    done(arg(4), STATUS_SUCCESS, BEFORE_BYTES + copied);
    return STATUS_SUCCESS;
}

uint32_t control_pipe(kept *k, uint32_t what) {
    enum { DISCONNECT = 0x110004, LISTEN = 0x110008, PEEK = 0x11400C }; /* FSCTL_PIPE_ .. */
    if (what == PEEK) {
        return peek(k);
    }
    if ((what != DISCONNECT && what != LISTEN) || !k->is_server) {
        return STATUS_NOT_SUPPORTED;
    }
    return what == LISTEN ? listen_at(k) : disconnect(k);
}

/* ---- What is cancelled ---- */

/* A thread ends (0: all of a process), and the I/O that it began, but for that of files with a port. */
void end_ios(uint32_t of, uint32_t number) {
    for (uint32_t slot = 0; queued > 0 && slot < SLOTS; slot++) {
        kept *k = all_kept[slot];
        for (io *i = k == NULL ? NULL : k->ios, *next; i != NULL; i = next) {
            bool is_its = i->process == of && (number == 0 || i->thread == number);
            next = i->next;
            if (is_its && (number == 0 || k->port.handle == 0)) {
                end_io(k, i, STATUS_CANCELLED, i->count);
            } else if (is_its) {
                i->thread = 0;
            }
        }
    }
}

/* Cancels the I/O at a file that a thread (0: any of the process) has begun, with its status at an address (0: all). */
static uint32_t cancel(uint32_t number, uint64_t told_at, uint64_t to) {
    kept *k;
    uint32_t status = named(arg(0), A_FILE, 0, &k), count = 0;
    bytes_at(to, 16);
    for (io *i = status == STATUS_SUCCESS ? k->ios : NULL, *next; i != NULL; i = next) {
        next = i->next;
        if (i->process == in->member.process && (number == 0 || i->thread == number) && (told_at == 0 || i->told_at == told_at)) {
            end_io(k, i, STATUS_CANCELLED, i->count);
            count++;
        }
    }
    if (status == STATUS_SUCCESS) {
        status = number == 0 && count == 0 ? STATUS_NOT_FOUND : STATUS_SUCCESS;
        done(to, status, 0);
    }
    return status;
}

uint32_t NtCancelIoFile(void) {
    return cancel(current->number, 0, arg(1));
}

uint32_t NtCancelIoFileEx(void) {
    return cancel(0, arg(1), arg(2));
}
