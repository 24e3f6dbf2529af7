/* All that there is in a file, and a run that goes on from there: the host's numbers, files that have no name, processes with what of their memory isn't
 * zeros, threads, the library's savestate, what is kept at objects, and a digest of it all, which finds what was cut or changed by accident. A file is for the
 * build of the host that wrote it; the files of the drive aren't in it. Of one that was changed on purpose, with its digest, each count and each place is
 * tested, and no more. */
#define _GNU_SOURCE
#include "nt.h"

#include <fcntl.h>
#include <stddef.h>
#include <stdio.h>
#include <stdlib.h>
#include <string.h>
#include <sys/mman.h>
#include <sys/stat.h>
#include <unistd.h>

enum { NAMELESS_MOST = 65536 };

/* One savestate as it is written or read; what is wrong with it is seen in the end. */
static struct {
    FILE *at;
    bool is_written, is_good;
    uint64_t digest, size;
} file;

static const char mark[24] = "nt of guests, state 1";

static void part(void *bytes, size_t size) {
    size_t moved = size == 0 ? 0 : file.is_written ? fwrite(bytes, 1, size, file.at) : fread(bytes, 1, size, file.at);
    file.is_good = file.is_good && moved == size;
    for (size_t i = 0; i < moved; i++) {
        file.digest = (file.digest ^ ((uint8_t *)bytes)[i]) * 1099511628211u;
    }
}

/* A number that is written, or what is read in its place: 0 where that fails. */
static uint64_t number(uint64_t value) {
    part(&value, sizeof value);
    return file.is_good ? value : 0;
}

/* Memory, without pages of zeros. */
static void pages(uint8_t *bytes, uint64_t size) {
    static const uint8_t zeros[PAGE];
    for (uint64_t at = 0; at < size && file.is_good; at += PAGE) {
        uint8_t has_any = file.is_written && memcmp(bytes + at, zeros, PAGE) != 0;
        part(&has_any, 1);
        if (has_any) {
            part(bytes + at, PAGE);
        }
    }
}

static bool open_file(const char *path, bool is_written) {
    file.at = fopen(path, is_written ? "wb" : "rb");
    file.is_written = is_written;
    file.is_good = file.at != NULL;
    file.digest = 14695981039346656037u;
    return file.is_good;
}

/* ---- The host's numbers ---- */

/* What a savestate begins with: its mark, and of which build the host is. */
static void head(void) {
    char found[sizeof mark];
    memcpy(found, mark, sizeof mark);
    part(found, sizeof found);
    bool is_build = number(sizeof(thread)) == sizeof(thread) && number(sizeof(process)) == sizeof(process) && number(sizeof(kept)) == sizeof(kept);
    file.is_good = file.is_good && is_build && memcmp(found, mark, sizeof mark) == 0;
}

static void numbers(void) {
    seed = number(seed);
    instructions = number(instructions);
    calls_count = number(calls_count);
    idle = number(idle);
    left = number(left);
    goes_on = number(goes_on) != 0;
    last_unique = number(last_unique);
    next_routine = number(next_routine);
    exit_code = (uint32_t)number(exit_code);
    has_first_ended = number(has_first_ended) != 0;
    threads_end = (uint32_t)number(threads_end);
    uint64_t place = number((uint64_t)(current - threads));
    part(&host, sizeof host);
    part(system_calls, sizeof system_calls);
    file.is_good = file.is_good && threads_end <= THREADS && place < THREADS;
    current = file.is_good ? &threads[place] : threads;
    for (size_t i = 0; i < CALLS; i++) {
        file.is_good = file.is_good && memchr(system_calls[i].name, 0, sizeof system_calls[i].name) != NULL;
    }
}

/* The drive's folder, unless the command line has another. */
static void drive(void) {
    char folder[NT_NAME_MOST] = "";
    memcpy(folder, drive_folder, file.is_written ? sizeof folder : 0);
    part(folder, sizeof folder);
    file.is_good = file.is_good && memchr(folder, 0, sizeof folder) != NULL;
    if (!file.is_written && file.is_good && drive_folder[0] == 0) {
        set_drive(folder);
    }
}

/* ---- Files without a name: the memory of sections, and what was deleted while it is open ---- */

static struct {
    struct stat is;
    int file;
} nameless[NAMELESS_MOST];
static uint64_t nameless_count;

/* From 1 on, a new one where the file wasn't met before. */
static uint64_t nameless_number(int descriptor) {
    uint64_t i = 0;
    struct stat is;
    if (fstat(descriptor, &is) != 0 || nameless_count == NAMELESS_MOST) {
        stop("a file can't be saved");
    }
    while (i < nameless_count && (nameless[i].is.st_dev != is.st_dev || nameless[i].is.st_ino != is.st_ino)) {
        i++;
    }
    if (i == nameless_count) {
        nameless[nameless_count].is = is;
        nameless[nameless_count++].file = descriptor;
    }
    return i + 1;
}

static bool is_nameless(const kept *k) {
    return k->file >= 0 && !k->is_standard && !is_named(k);
}

static void find_nameless(void) {
    for (const process *p = processes; p < processes + PROCESSES; p++) {
        for (uint32_t i = 0; i < p->regions_count; i++) {
            if (p->regions[i].file >= 0) {
                nameless_number(p->regions[i].file);
            }
        }
    }
    for (uint32_t i = 0; i < SLOTS; i++) {
        if (all_kept[i] != NULL && is_nameless(all_kept[i])) {
            if (all_kept[i]->is_directory) {
                stop("%s was deleted and is open: it can't be saved", all_kept[i]->name);
            }
            nameless_number(all_kept[i]->file);
        }
    }
}

static void nameless_files(void) {
    uint64_t count = number(nameless_count);
    file.is_good = file.is_good && count <= NAMELESS_MOST;
    for (uint64_t i = 0; i < count && file.is_good; i++) {
        uint64_t size = number((uint64_t)nameless[i].is.st_size), whole = whole_pages(size);
        file.is_good = file.is_good && size <= MEMORY_MOST;
        if (!file.is_written && file.is_good) {
            int made = memfd_create("saved", MFD_CLOEXEC);
            file.is_good = made >= 0 && ftruncate(made, (off_t)size) == 0 && nameless_number(made) == i + 1;
        }
        if (size > 0 && file.is_good) {
            uint8_t *bytes = mmap(NULL, whole, file.is_written ? PROT_READ : PROT_READ | PROT_WRITE, MAP_SHARED, nameless[i].file, 0);
            file.is_good = bytes != MAP_FAILED;
            pages(bytes, whole);
            munmap(bytes, whole);
        }
    }
}

/* ---- Processes and threads ---- */

/* A region as it was, but for its bytes. Those of a file lie in the file. */
static bool map_again(const region *r, uint64_t shared) {
    if (r->size % PAGE != 0 || map_at(r->address, r->size, PAGE_READWRITE, r->type) == NULL) {
        return false;
    }
    region *made = region_at(r->address);
    made->protect = r->protect;
    made->is_committed = r->is_committed;
    if (shared == 0 || shared > nameless_count) {
        return shared == 0;
    }
    uint64_t size = whole_pages((uint64_t)nameless[shared - 1].is.st_size);
    bool is_inside = r->offset % PAGE == 0 && r->offset <= size && r->size <= size - r->offset;
    return is_inside && share_at(r->address, nameless[shared - 1].file, r->offset);
}

static void regions(process *p) {
    for (uint64_t i = 0, count = number(p->regions_count); i < count && file.is_good; i++) {
        region r = file.is_written ? p->regions[i] : (region){.file = -1};
        r.address = number(r.address);
        r.size = number(r.size);
        r.protect = (uint32_t)number(r.protect);
        r.type = (uint32_t)number(r.type);
        r.is_committed = number(r.is_committed) != 0;
        r.offset = number(r.offset);
        uint64_t shared = number(r.file < 0 ? 0 : nameless_number(r.file));
        file.is_good = file.is_good && (file.is_written || map_again(&r, shared));
        if (shared == 0 && file.is_good) {
            pages(bytes_if(r.address, r.size), r.size);
        }
    }
}

static int by_address(const void *one, const void *other) {
    const uc_mem_region *a = one, *b = other;
    return a->begin < b->begin ? -1 : a->begin > b->begin;
}

/* What of a process's memory may be run, as Unicorn has it: from where to where, and 0 behind the last. */
static void write_runnable(const process *p) {
    uc_mem_region *all;
    uint32_t count, i = 0;
    if (uc_mem_regions(p->engine, &all, &count) != UC_ERR_OK) {
        stop("no memory for a savestate");
    }
    qsort(all, count, sizeof *all, by_address);
    while (i < count) {
        uint64_t from = all[i].begin, to = from;
        while (i < count && all[i].perms & UC_PROT_EXEC && (to == from || to == all[i].begin)) {
            to = all[i++].end + 1;
        }
        if (to > from) {
            number(from);
            number(to);
        } else {
            i++;
        }
    }
    number(0);
    uc_free(all);
}

static void read_runnable(const process *p) {
    for (uint64_t from; (from = number(0)) != 0;) {
        uint64_t to = number(0);
        file.is_good = file.is_good && from < to && uc_mem_protect(p->engine, from, to - from, UC_PROT_ALL) == UC_ERR_OK;
    }
}

static void all_processes(void) {
    for (process *p = processes; p < processes + PROCESSES && file.is_good; p++) {
        if (number(p->member.process != 0) == 0) {
            continue;
        }
        part(p, offsetof(process, engine));
        in = p;
        if (file.is_written) {
            regions(p);
            write_runnable(p);
        } else {
            begin_engine();
            regions(p);
            read_runnable(p);
        }
    }
}

static void *next_item(const void *item) {
    void *next;
    memcpy(&next, item, sizeof next);
    return next;
}

/* A list from where its first item is told; each item begins with the next one. */
static void items(void *at, size_t size) {
    uint64_t count = 0;
    for (const void *one = next_item(at); one != NULL; one = next_item(one)) {
        count++;
    }
    for (count = number(count); count > 0 && file.is_good; count--) {
        void *one = file.is_written ? next_item(at) : calloc(1, size);
        if (one == NULL) {
            stop("no memory");
        }
        memcpy(at, &one, sizeof one);
        part((uint8_t *)one + sizeof one, size - sizeof one);
        at = one;
    }
}

static void all_threads(void) {
    for (thread *t = threads; t < threads + threads_end && file.is_good; t++) {
        if (number(t->number != 0) == 0) {
            continue;
        }
        part(t, offsetof(thread, of));
        uint64_t place = number((uint64_t)(t->of - processes));
        file.is_good = file.is_good && place < PROCESSES;
        t->of = file.is_good ? &processes[place] : processes;
        items(&t->apcs, sizeof *t->apcs);
    }
}

/* ---- Objects, and what is kept at them ---- */

static void save_objects(void) {
    size_t size = 0;
    om_save(&om, &size, 0, &size);
    void *bytes = malloc(size);
    if (bytes == NULL) {
        stop("no memory for a savestate");
    }
    must(om_save(&om, bytes, size, &size), "a savestate");
    number(size);
    part(bytes, size);
    free(bytes);
}

static void load_objects(void) {
    uint64_t size = number(0);
    void *bytes = size < file.size ? malloc(size) : NULL;
    file.is_good = file.is_good && bytes != NULL;
    if (file.is_good) {
        part(bytes, size);
        file.is_good = file.is_good && om_load(bytes, size, &om) == OM_SUCCESS;
    }
    free(bytes);
}

/* What is kept at an object is read again at its place, with room for a name and for entries. */
static kept *read_kept(uint64_t place, uint64_t name_length, uint64_t entries_size) {
    file.is_good = file.is_good && place < SLOTS && all_kept[place] == NULL && name_length < 2 * NT_NAME_MOST && entries_size < file.size;
    if (!file.is_good) {
        return NULL;
    }
    char name[2 * NT_NAME_MOST] = "";
    memset(name, ' ', name_length);
    kept *k = new_kept((uint32_t)place, name);
    k->entries = calloc(entries_size + 1, 1);
    if (k->entries == NULL) {
        stop("no memory");
    }
    return k;
}

/* The file of what is kept: none, a standard one, one without a name, or one that is opened again on the drive in the same way. */
static void file_of(kept *k) {
    enum { NONE, STANDARD, NAMELESS, ON_DRIVE };
    uint64_t is = number(!file.is_written || k->file < 0 ? NONE : k->is_standard ? STANDARD : is_nameless(k) ? NAMELESS : ON_DRIVE), which = 0;
    if (file.is_written && is != NONE) {
        which = is == STANDARD ? (uint64_t)k->file : is == NAMELESS ? nameless_number(k->file) : (uint64_t)fcntl(k->file, F_GETFL) & O_ACCMODE;
    }
    which = number(which);
    if (file.is_written || is == NONE || !file.is_good) {
        return;
    }
    file.is_good = is == STANDARD ? which <= 2 : is == NAMELESS ? 0 < which && which <= nameless_count : is == ON_DRIVE && which <= O_RDWR;
    k->is_standard = is == STANDARD;
    if (file.is_good && is == ON_DRIVE && (k->file = open_path(k->name, (int)which)) < 0) {
        stop("%s isn't on the drive as it was", k->name);
    }
    if (file.is_good && is != ON_DRIVE) {
        k->file = is == STANDARD ? (int)which : fcntl(nameless[which - 1].file, F_DUPFD_CLOEXEC, 0);
    }
}

/* What of I/O there is of all, once more. */
static void count_again(kept *k) {
    for (packet *one = k->packets; one != NULL; one = one->next) {
        k->last_packet = one;
        queued++;
    }
    for (const io *i = k->ios; i != NULL; i = i->next) {
        queued++;
        borrowed += i->event != 0;
    }
    borrowed += k->port.handle != 0;
    held += k->pipe != NO_PIPE ? k->entries_size - k->next_entry : 0;
}

static uint64_t next_place(uint64_t from) {
    while (from < SLOTS && all_kept[from] == NULL) {
        from++;
    }
    return from;
}

static void all_that_is_kept(void) {
    for (uint64_t place = number(next_place(0)); place != SLOTS && file.is_good; place = number(next_place(place + 1))) {
        kept *k = file.is_written ? all_kept[place] : NULL;
        uint64_t name_length = number(k == NULL ? 0 : strlen(k->name)), entries_size = number(k == NULL ? 0 : k->entries_size);
        if (k == NULL && (k = read_kept(place, name_length, entries_size)) == NULL) {
            return;
        }
        part(k, offsetof(kept, file));
        part(k->name, name_length);
        part(k->entries, entries_size);
        bool is_whole = k->entries_size == entries_size && k->next_entry <= entries_size && memchr(k->form, 0, sizeof k->form) != NULL;
        file.is_good = file.is_good && is_whole && strlen(k->name) == name_length;
        file_of(k);
        struct stat is;
        items(&k->packets, sizeof *k->packets);
        items(&k->ios, sizeof *k->ios);
        if (!file.is_written) {
            count_again(k);
        }
        bool is_copied = k->is_image || k->is_copied || k->size == 0; /* else views are of the file itself */
        file.is_good = file.is_good && (is_copied || (k->name[0] == 0 && fstat(k->file, &is) == 0 && k->size <= whole_pages((uint64_t)is.st_size)));
    }
}

/* ---- Whether all parts are of one run ---- */

/* Whether the host's handle is of an object of a type that stands for a thread or process. */
static bool is_own(const om_opening *own, type is) {
    om_handle_info info;
    return om_query_handle(&om, host.process, own->handle, &info) == OM_SUCCESS && info.kind == OM_HOST(is) && info.object.slot == own->object.slot &&
           info.object.generation == own->object.generation;
}

/* Whether the ends of a pipe are of each other, and its I/O, and a file's port, is of what there is. */
static bool is_io_good(const kept *k) {
    const kept *other = kept_at(k->other);
    bool is_good = k->pipe == CONNECTED ? other != NULL && kept_at(other->other) == k : k->other == 0 && k->pipe <= CLOSING;
    for (const io *i = k->ios; i != NULL; i = i->next) {
        is_good = is_good && k->pipe != NO_PIPE && i->does <= LISTENS && process_numbered(i->process) != NULL;
    }
    return is_good && (k->port.handle == 0 || is_own(&k->port, A_PORT));
}

static bool is_one_run(void) {
    bool is_good = true;
    om_object object;
    om_object_state state;
    for (uint32_t from = 0; om_next_object(&om, from, &object) == OM_SUCCESS; from = object.slot + 1) {
        uint64_t data = om_object_data(&om, object.slot, object.generation);
        is_good = is_good && om_state(&om, object.slot, object.generation, &state) == OM_SUCCESS && (data == 0 || data == object.slot + (uint64_t)1);
        const kept *k = kept_at(data);
        is_good = is_good && (state.kind < OM_HOST(0) || k != NULL) && (k == NULL || (k->object.slot == object.slot && is_io_good(k)));
    }
    for (const process *p = processes; p < processes + PROCESSES && is_good; p++) {
        is_good = p->engine == NULL || (process_numbered(p->member.process) == p && is_own(&p->own, A_PROCESS));
    }
    for (const thread *t = threads; t < threads + threads_end && is_good; t++) {
        is_good = t->of == NULL || (thread_numbered(t->number) == t && t->of->engine != NULL && t->waits <= FOR_IO && is_own(&t->own, A_THREAD));
    }
    return is_good;
}

/* ---- The file ---- */

static void all_parts(void) {
    head();
    numbers();
    drive();
    nameless_files();
    all_processes();
    all_threads();
    if (file.is_written) {
        save_objects();
    } else if (file.is_good) {
        load_objects();
    }
    all_that_is_kept();
}

void save(const char *path) {
    if (!open_file(path, true)) {
        stop("%s can't be written", path);
    }
    for (process *p = processes; p < processes + PROCESSES; p++) {
        if (p->loaded != NULL) {
            take_floats(p->loaded);
        }
    }
    find_nameless();
    all_parts();
    uint64_t digest = file.digest;
    part(&digest, sizeof digest);
    if (fclose(file.at) != 0 || !file.is_good) {
        stop("%s can't be written", path);
    }
}

/* Whether the file is a savestate of this host, to its last byte. */
static bool is_whole(const char *path) {
    uint8_t bytes[PAGE];
    uint64_t told, digest;
    if (!open_file(path, false) || fseek(file.at, 0, SEEK_END) != 0) {
        stop("%s can't be read", path);
    }
    long size = ftell(file.at), rest = size - (long)sizeof digest;
    rewind(file.at);
    for (; rest > 0 && file.is_good; rest -= PAGE) {
        part(bytes, rest < PAGE ? (size_t)rest : PAGE);
    }
    digest = file.digest;
    part(&told, sizeof told);
    bool is_good = file.is_good && told == digest;
    file.size = (uint64_t)size;
    rewind(file.at);
    head();
    is_good = is_good && file.is_good;
    fclose(file.at);
    return is_good;
}

void load(const char *path) {
    if (!is_whole(path)) {
        stop("%s is no savestate of this host", path);
    }
    if (!open_file(path, false)) {
        stop("%s can't be read", path);
    }
    all_parts();
    fclose(file.at);
    if (!file.is_good || !is_one_run()) {
        stop("%s is no savestate of this host", path);
    }
    find_served();
    while (nameless_count > 0) {
        close(nameless[--nameless_count].file); /* those who have it have descriptors of their own */
    }
}
