/* The guests' drive C:, and files on it. The drive is one folder of the machine; C:\windows\system32 and C:\windows\globalization\sorting are Wine's, to be
 * read. A path is walked name by name from an open folder, never by a link and never upwards, so nothing else of the machine is found. Sharing modes aren't
 * kept. */
#define _GNU_SOURCE
#include "nt.h"

#include <dirent.h>
#include <errno.h>
#include <fcntl.h>
#include <stdio.h>
#include <stdlib.h>
#include <string.h>
#include <sys/stat.h>
#include <unistd.h>

enum {
    ONE_MOST = 256, /* bytes of a name in a path */
    SUPERSEDE = 0, OPEN, CREATE, OPEN_OR_CREATE, OVERWRITE, OVERWRITE_OR_CREATE, /* dispositions */
    DIRECTORY_FILE = 0x1, SYNCHRONOUS = 0x30, NON_DIRECTORY_FILE = 0x40, DELETE_ON_CLOSE = 0x1000, /* options */
    ATTRIBUTE_DIRECTORY = 0x10, ATTRIBUTE_NORMAL = 0x80
};

/* Where a path leads: an open folder, and the name in it, "." for the folder itself. */
typedef struct place {
    int folder;
    bool is_wines;
    char last[ONE_MOST];
} place;

char drive_folder[NT_NAME_MOST];
static int drive = -1;

void set_drive(const char *folder) {
    drive = open(folder, O_PATH | O_DIRECTORY | O_CLOEXEC);
    if (drive < 0 || strlen(folder) >= sizeof drive_folder) {
        stop("%s: %s", folder, strerror(drive < 0 ? errno : ENAMETOOLONG));
    }
    memmove(drive_folder, folder, strlen(folder) + 1);
}

/* ---- Paths ---- */

/* The status that stands for what Linux says. */
static uint32_t status_now(void) {
    switch (errno) {
    case ENOENT:
        return STATUS_OBJECT_NAME_NOT_FOUND;
    case EEXIST:
        return STATUS_OBJECT_NAME_COLLISION;
    case ENOTDIR:
        return STATUS_NOT_A_DIRECTORY;
    case EISDIR:
        return STATUS_FILE_IS_A_DIRECTORY;
    case ENAMETOOLONG:
        return STATUS_OBJECT_NAME_INVALID;
    case ENOTEMPTY:
        return 0xC0000101u; /* STATUS_DIRECTORY_NOT_EMPTY */
    default:
        return STATUS_ACCESS_DENIED;
    }
}

/* A name as the folder spells it, where it has it in another case alone. */
static void find_case(int folder, char *name) {
    struct stat is;
    if (fstatat(folder, name, &is, AT_SYMLINK_NOFOLLOW) == 0) {
        return;
    }
    int again = openat(folder, ".", O_RDONLY | O_DIRECTORY | O_CLOEXEC);
    DIR *all = again < 0 ? NULL : fdopendir(again);
    for (struct dirent *one; all != NULL && (one = readdir(all)) != NULL;) {
        if (strcasecmp(one->d_name, name) == 0) {
            memcpy(name, one->d_name, strlen(one->d_name));
            break;
        }
    }
    if (all != NULL) {
        closedir(all);
    }
}

/* What is behind a prefix, in any case, and the backslash behind it; or NULL. */
static const char *behind(const char *path, const char *prefix) {
    size_t length = strlen(prefix);
    bool is = strncasecmp(path, prefix, length) == 0 && (path[length] == '\\' || path[length] == 0);
    return is ? path + length + (path[length] == '\\') : NULL;
}

/* Takes the first name of a path off it; false where it isn't one. */
static bool take_name(const char **path, char *name) {
    size_t length = strcspn(*path, "\\");
    if (length >= ONE_MOST || memchr(*path, '/', length) != NULL) {
        return false;
    }
    memcpy(name, *path, length);
    name[length] = 0;
    *path += length + ((*path)[length] == '\\');
    return strcmp(name, "..") != 0;
}

/* A file of Wine's, which lie side by side with names in lower case. */
static uint32_t wines_place(const char *folder, const char *rest, place *to) {
    to->is_wines = true;
    if (!take_name(&rest, to->last) || *rest != 0) {
        return STATUS_OBJECT_PATH_NOT_FOUND;
    }
    for (char *c = to->last; *c != 0; c++) {
        *c = *c >= 'A' && *c <= 'Z' ? (char)(*c + 32) : *c;
    }
    if (to->last[0] == 0) {
        strcpy(to->last, ".");
    }
    to->folder = open(folder, O_PATH | O_DIRECTORY | O_CLOEXEC);
    return to->folder < 0 ? STATUS_OBJECT_PATH_NOT_FOUND : STATUS_SUCCESS;
}

/* Walks a path from the drive's folder to the last name. */
static uint32_t drive_place(const char *rest, place *to) {
    to->folder = fcntl(drive, F_DUPFD_CLOEXEC, 0);
    strcpy(to->last, ".");
    while (*rest != 0) {
        char name[ONE_MOST];
        int before = to->folder;
        if (!take_name(&rest, name)) {
            close(before);
            return STATUS_OBJECT_NAME_INVALID;
        }
        if (name[0] == 0 || strcmp(name, ".") == 0) {
            continue;
        }
        if (strcmp(to->last, ".") != 0) {
            to->folder = openat(before, to->last, O_PATH | O_DIRECTORY | O_NOFOLLOW | O_CLOEXEC);
            close(before);
            if (to->folder < 0) {
                return STATUS_OBJECT_PATH_NOT_FOUND;
            }
        }
        find_case(to->folder, name);
        strcpy(to->last, name);
    }
    return STATUS_SUCCESS;
}

/* The place of a path of NT's. Its folder is to be closed where it is found. */
static uint32_t place_of(const char *nt, place *to) {
    const char *path = behind(nt, "\\??\\C:"), *rest;
    *to = (place){.folder = -1};
    if (path == NULL) {
        return STATUS_OBJECT_PATH_NOT_FOUND;
    }
    if ((rest = behind(path, "windows\\system32")) != NULL) {
        return wines_place(wine_dlls, rest, to);
    }
    if ((rest = behind(path, "windows\\globalization\\sorting")) != NULL) {
        return wines_place(wine_nls, rest, to);
    }
    if ((rest = behind(path, "windows")) != NULL) {
        return *rest == 0 ? wines_place(wine_dlls, "", to) : STATUS_OBJECT_NAME_NOT_FOUND;
    }
    return drive_place(path, to);
}

/* The whole path that attributes name: one may begin at an open folder. */
uint32_t path_of(uint64_t attributes, char *path, size_t capacity) {
    kept *root = NULL;
    char text[NT_NAME_MOST];
    uint64_t handle = get(attributes + ATTRIBUTES_ROOT, 8);
    uint32_t status = handle == 0 ? STATUS_SUCCESS : named(handle, A_FILE, 0, &root);
    name_of(attributes, text, sizeof text);
    snprintf(path, capacity, "%s%s%s", root == NULL ? "" : root->name, root == NULL || text[0] == 0 ? "" : "\\", text);
    return status;
}

/* What is at a path, opened in one of Linux' ways, or -1. */
int open_path(const char *name, int how) {
    place at;
    if (place_of(name, &at) != STATUS_SUCCESS) {
        return -1;
    }
    int file = openat(at.folder, at.last, how | O_NONBLOCK | O_CLOEXEC | (at.is_wines ? 0 : O_NOFOLLOW));
    close(at.folder);
    return file;
}

/* A program on the drive by its path, as of NT or from the drive on, opened; or -1. */
int open_program(const char *name) {
    char path[NT_NAME_MOST + 16];
    snprintf(path, sizeof path, "%s%s", name[0] == '\\' ? "" : "\\??\\C:\\", name);
    return open_path(path, O_RDONLY);
}

/* Whether the path of what is open leads to it, and not to nothing or to another file of that name. */
bool is_named(const kept *k) {
    place at;
    struct stat is, there;
    if (k->name[0] == 0 || fstat(k->file, &is) != 0 || place_of(k->name, &at) != STATUS_SUCCESS) {
        return false;
    }
    bool is_found = fstatat(at.folder, at.last, &there, at.is_wines ? 0 : AT_SYMLINK_NOFOLLOW) == 0;
    close(at.folder);
    return is_found && is.st_dev == there.st_dev && is.st_ino == there.st_ino;
}

/* A handle of a first process to one of the host's own standard files. */
uint32_t standard_file(int file) {
    om_opening made;
    om_making inherited = om_inherited();
    must(om_create_host(&om, in->member.thread, &inherited, "", 0, A_FILE, true, true, &made), "a standard file");
    kept *k = keep(made.object, "");
    k->file = file;
    k->is_standard = true;
    return made.handle;
}

/* ---- Opening ---- */

void done(uint64_t io, uint32_t status, uint64_t information) {
    put(io, status, 8);
    put(io + 8, information, 8);
}

/* Opens or makes what is at a place: a descriptor, or -1. */
static int open_place(const place *at, bool is_there, uint32_t access, uint32_t disposition, uint32_t options) {
    bool truncates = disposition == SUPERSEDE || disposition >= OVERWRITE;
    bool writes = truncates || !is_there || (access & (WRITE_DATA | APPEND_DATA)) != 0;
    int flags = O_CLOEXEC | O_NONBLOCK | (at->is_wines ? 0 : O_NOFOLLOW) | (truncates ? O_TRUNC : 0);
    if (options & DIRECTORY_FILE && !is_there && mkdirat(at->folder, at->last, 0777) != 0) {
        return -1;
    }
    struct stat is;
    bool is_folder = fstatat(at->folder, at->last, &is, 0) == 0 && S_ISDIR(is.st_mode);
    if (is_folder) {
        return openat(at->folder, at->last, O_RDONLY | O_DIRECTORY | (flags & ~O_TRUNC));
    }
    return openat(at->folder, at->last, flags | (writes ? O_RDWR : O_RDONLY) | (is_there ? 0 : O_CREAT | O_EXCL), 0666);
}

bool is_overlapped(uint32_t options) {
    return (options & SYNCHRONOUS) == 0;
}

/* What was opened as a file of the guests'. */
static uint32_t open_handle(int file, const char *path, const struct stat *is, uint32_t access, uint64_t handle, uint64_t attributes, uint32_t options) {
    kept *k;
    if (!S_ISREG(is->st_mode) && !S_ISDIR(is->st_mode)) {
        close(file);
        return STATUS_ACCESS_DENIED; /* a device, a pipe, a socket */
    }
    uint32_t made = new_handle(A_FILE, path, access, attributes, &k);
    if (made == 0) {
        close(file);
        return STATUS_INSUFFICIENT_RESOURCES;
    }
    k->file = file;
    k->is_directory = S_ISDIR(is->st_mode);
    k->is_overlapped = is_overlapped(options);
    put(handle, made, 8);
    return STATUS_SUCCESS;
}

static uint32_t open_file(uint64_t handle, uint32_t asked, uint64_t attributes, uint64_t io, uint32_t disposition, uint32_t options) {
    char path[2 * NT_NAME_MOST];
    place at;
    struct stat is;
    uint32_t access = rights_of(OM_HOST(A_FILE), asked), status = path_of(attributes, path, sizeof path);
    bytes_at(handle, 8), bytes_at(io, 16);
    if (status == STATUS_SUCCESS && behind(path, "\\??\\pipe") != NULL) {
        status = open_pipe(path, handle, access, attributes, options);
        done(io, status, 1);
        return status;
    }
    status = status == STATUS_SUCCESS ? place_of(path, &at) : status;
    if (status != STATUS_SUCCESS) {
        return status;
    }
    bool is_there = fstatat(at.folder, at.last, &is, at.is_wines ? 0 : AT_SYMLINK_NOFOLLOW) == 0, is_folder = is_there && S_ISDIR(is.st_mode);
    bool changes = (access & (WRITE_DATA | APPEND_DATA | OM_DELETE)) != 0 || disposition != OPEN;
    int file = -1;
    errno = 0;
    if (is_there && disposition == CREATE) {
        status = STATUS_OBJECT_NAME_COLLISION;
    } else if (!is_there && (disposition == OPEN || disposition == OVERWRITE)) {
        status = STATUS_OBJECT_NAME_NOT_FOUND;
    } else if (at.is_wines && changes) {
        status = STATUS_ACCESS_DENIED;
    } else if (is_there && is_folder != ((options & DIRECTORY_FILE) != 0) && options & (DIRECTORY_FILE | NON_DIRECTORY_FILE)) {
        status = is_folder ? STATUS_FILE_IS_A_DIRECTORY : STATUS_NOT_A_DIRECTORY;
    } else if ((file = open_place(&at, is_there, access, disposition, options)) < 0 || fstat(file, &is) != 0) {
        status = status_now();
    }
    if (status == STATUS_SUCCESS) {
        status = open_handle(file, path, &is, access, handle, attributes, options);
    }
    if (status == STATUS_SUCCESS && options & DELETE_ON_CLOSE) {
        status = unlinkat(at.folder, at.last, is_folder ? AT_REMOVEDIR : 0) == 0 ? STATUS_SUCCESS : status_now(); /* its name goes at once */
    }
    close(at.folder);
    if (status == STATUS_SUCCESS) {
        done(io, status, !is_there ? 2 : disposition == SUPERSEDE ? 0 : disposition >= OVERWRITE ? 3 : 1);
    }
    return status;
}

/* NtOpenFile (&HANDLE, ACCESS, ATTRIBUTES, &IO, SHARING, OPTIONS) */
uint32_t NtOpenFile(void) {
    return open_file(arg(0), (uint32_t)arg(1), arg(2), arg(3), OPEN, (uint32_t)arg(5));
}

/* NtCreateFile (&HANDLE, ACCESS, ATTRIBUTES, &IO, SIZE, FILE ATTRIBUTES, SHARING, DISPOSITION, OPTIONS, ..) */
uint32_t NtCreateFile(void) {
    uint32_t disposition = (uint32_t)arg(7);
    return disposition > OVERWRITE_OR_CREATE ? STATUS_INVALID_PARAMETER : open_file(arg(0), (uint32_t)arg(1), arg(2), arg(3), disposition, (uint32_t)arg(8));
}

/* Takes the name of a path away. */
static uint32_t remove_path(const char *path, bool is_directory) {
    place at;
    uint32_t status = place_of(path, &at);
    if (status == STATUS_SUCCESS) {
        bool is_gone = !at.is_wines && unlinkat(at.folder, at.last, is_directory ? AT_REMOVEDIR : 0) == 0;
        status = is_gone ? STATUS_SUCCESS : at.is_wines ? STATUS_ACCESS_DENIED : status_now();
        close(at.folder);
    }
    return status;
}

uint32_t NtDeleteFile(void) {
    char path[2 * NT_NAME_MOST];
    uint32_t status = path_of(arg(0), path, sizeof path);
    return status == STATUS_SUCCESS ? remove_path(path, false) : status;
}

/* ---- What files say of themselves ---- */

static uint64_t moment_of(const struct timespec *since_1970) {
    return 116444736000000000u + (uint64_t)since_1970->tv_sec * 10000000u + (uint64_t)since_1970->tv_nsec / 100u;
}

/* Four moments (made, read, written, changed), each in 8 bytes. */
static void put_moments(uint64_t to, const struct stat *is) {
    put(to, moment_of(&is->st_ctim), 8);
    put(to + 8, moment_of(&is->st_atim), 8);
    put(to + 16, moment_of(&is->st_mtim), 8);
    put(to + 24, moment_of(&is->st_ctim), 8);
}

static uint32_t attributes_of(const struct stat *is) {
    return S_ISDIR(is->st_mode) ? ATTRIBUTE_DIRECTORY : ATTRIBUTE_NORMAL;
}

static uint32_t find_file(uint64_t attributes, struct stat *is) {
    char path[2 * NT_NAME_MOST];
    place at;
    uint32_t status = path_of(attributes, path, sizeof path);
    status = status == STATUS_SUCCESS ? place_of(path, &at) : status;
    if (status == STATUS_SUCCESS) {
        bool is_there = fstatat(at.folder, at.last, is, at.is_wines ? 0 : AT_SYMLINK_NOFOLLOW) == 0 && (S_ISREG(is->st_mode) || S_ISDIR(is->st_mode));
        close(at.folder);
        status = is_there ? STATUS_SUCCESS : STATUS_OBJECT_NAME_NOT_FOUND;
    }
    return status;
}

uint32_t NtQueryAttributesFile(void) {
    struct stat is;
    uint32_t status = find_file(arg(0), &is);
    if (status == STATUS_SUCCESS) {
        put_moments(arg(1), &is);
        put(arg(1) + 0x20, attributes_of(&is), 8);
    }
    return status;
}

uint32_t NtQueryFullAttributesFile(void) {
    struct stat is;
    uint32_t status = find_file(arg(0), &is);
    if (status == STATUS_SUCCESS) {
        put_moments(arg(1), &is);
        put(arg(1) + 0x20, (uint64_t)is.st_size, 8);
        put(arg(1) + 0x28, (uint64_t)is.st_size, 8);
        put(arg(1) + 0x30, attributes_of(&is), 8);
    }
    return status;
}

/* NtQueryVolumeInformationFile (HANDLE, &IO, TO, SIZE, CLASS): of what kind the device is. */
uint32_t NtQueryVolumeInformationFile(void) {
    enum { DEVICE = 4, IS_DISK = 7, IS_PIPE = 0x11, IS_MOUNTED = 0x20 };
    kept *k;
    uint32_t status = named(arg(0), A_FILE, 0, &k);
    if (status != STATUS_SUCCESS || (uint32_t)arg(4) != DEVICE) {
        return status != STATUS_SUCCESS ? status : STATUS_NOT_IMPLEMENTED;
    }
    bool is_pipe = k->is_standard || k->pipe != NO_PIPE;
    put(arg(2), is_pipe ? IS_PIPE : IS_DISK, 4);
    put(arg(2) + 4, is_pipe ? 0 : IS_MOUNTED, 4);
    done(arg(1), STATUS_SUCCESS, 8);
    return STATUS_SUCCESS;
}

/* NtQueryInformationFile (HANDLE, &IO, TO, SIZE, CLASS) */
uint32_t NtQueryInformationFile(void) {
    enum { BASICS = 4, STANDARD = 5, POSITION = 14, END = 20 };
    kept *k;
    struct stat is = {0};
    uint64_t to = arg(2), io = arg(1);
    uint32_t status = named(arg(0), A_FILE, 0, &k), class = (uint32_t)arg(4), need = class == BASICS ? 0x28 : class == STANDARD ? 0x18 : 8;
    if (status != STATUS_SUCCESS || (class != BASICS && class != STANDARD && class != POSITION && class != END)) {
        return status != STATUS_SUCCESS ? status : STATUS_NOT_IMPLEMENTED;
    }
    if ((uint32_t)arg(3) < need || (!k->is_standard && fstat(k->file, &is) != 0)) {
        return (uint32_t)arg(3) < need ? STATUS_INFO_LENGTH_MISMATCH : STATUS_ACCESS_DENIED;
    }
    if (class == BASICS) {
        put_moments(to, &is);
        put(to + 0x20, attributes_of(&is), 8);
    } else if (class == STANDARD) {
        put(to, (uint64_t)is.st_size, 8);
        put(to + 8, (uint64_t)is.st_size, 8);
        put(to + 0x10, 1, 4);
        put(to + 0x14, k->is_directory ? 0x100 : 0, 4); /* whether it is to be deleted, whether a directory */
    } else {
        put(to, class == END ? (uint64_t)is.st_size : k->at, 8);
    }
    done(io, STATUS_SUCCESS, need);
    return STATUS_SUCCESS;
}

/* What is open by a path is from now on by another one. */
static void have_path(const char *path, const char *to) {
    char before[2 * NT_NAME_MOST];
    snprintf(before, sizeof before, "%s", path);
    for (uint32_t i = 0; i < SLOTS; i++) {
        if (all_kept[i] != NULL && strcmp(all_kept[i]->name, before) == 0) {
            kept *k = realloc(all_kept[i], sizeof *k + strlen(to) + 1);
            if (k == NULL) {
                stop("no memory");
            }
            strcpy(k->name, to);
            all_kept[i] = k;
        }
    }
}

/* FILE_RENAME_INFORMATION: whether it replaces, from where on, how long, the name. */
static uint32_t rename_file(const kept *k, uint64_t from) {
    char to[2 * NT_NAME_MOST];
    uint64_t length = get(from + 16, 4), i = 0;
    place old, new;
    if (get(from + 8, 8) != 0 || length / 2 >= sizeof to) {
        return STATUS_NOT_SUPPORTED;
    }
    for (; i < length / 2; i++) {
        uint64_t one = get(from + 20 + 2 * i, 2);
        to[i] = one < 0x20 || one > 0x7E ? '?' : (char)one;
    }
    to[i] = 0;
    uint32_t status = place_of(k->name, &old);
    if (status != STATUS_SUCCESS) {
        return status;
    }
    if ((status = place_of(to, &new)) == STATUS_SUCCESS) {
        unsigned flags = get(from, 1) != 0 ? 0 : RENAME_NOREPLACE;
        bool is_done = !old.is_wines && !new.is_wines && renameat2(old.folder, old.last, new.folder, new.last, flags) == 0;
        status = is_done ? STATUS_SUCCESS : old.is_wines || new.is_wines ? STATUS_ACCESS_DENIED : status_now();
        close(new.folder);
    }
    close(old.folder);
    if (status == STATUS_SUCCESS) {
        have_path(k->name, to);
    }
    return status;
}

/* NtSetInformationFile (HANDLE, &IO, FROM, SIZE, CLASS) */
uint32_t NtSetInformationFile(void) {
    enum { RENAME = 10, DISPOSITION = 13, POSITION = 14, END = 20, PORT = 30 };
    kept *k;
    uint32_t class = (uint32_t)arg(4), right = class == END ? WRITE_DATA : class == RENAME || class == DISPOSITION ? OM_DELETE : 0;
    uint32_t status = named(arg(0), A_FILE, right, &k);
    if (status != STATUS_SUCCESS || k->is_standard) {
        return status != STATUS_SUCCESS ? status : STATUS_NOT_SUPPORTED;
    }
    if (class == POSITION) {
        k->at = get(arg(2), 8);
    } else if (class == END) {
        status = ftruncate(k->file, (off_t)get(arg(2), 8)) == 0 ? STATUS_SUCCESS : STATUS_INVALID_PARAMETER;
    } else if (class == DISPOSITION) {
        status = get(arg(2), 1) == 0 ? STATUS_SUCCESS : remove_path(k->name, k->is_directory);
    } else if (class == RENAME) {
        status = rename_file(k, arg(2));
    } else if (class == PORT) {
        status = set_port(k, arg(2));
    } else {
        return STATUS_NOT_IMPLEMENTED;
    }
    if (status == STATUS_SUCCESS) {
        done(arg(1), status, 0);
    }
    return status;
}

/* ---- Reading and writing: (HANDLE, EVENT, ROUTINE, WITH, &IO, BYTES, SIZE, &AT, ..) ---- */

/* An I/O has ended as soon as it began: its event is set, its routine is queued, or the file's port is told. */
static uint32_t moved(const kept *k, uint32_t status, uint64_t count) {
    done(arg(4), status, count);
    if (status == STATUS_SUCCESS) {
        post(k, arg(2), arg(3), status, count);
    }
    if (arg(1) != 0) {
        om_set_event(&om, current->number, handle_of(arg(1)));
    }
    if (arg(2) != 0) {
        queue_apc(current, 0, arg(2), arg(3), arg(4), 0);
    }
    return status;
}

/* From where on: the end of a file for one that appends, or where it is asked for by -1. */
static uint64_t place_to_move(kept *k, bool appends) {
    int64_t at = arg(7) == 0 ? -2 : (int64_t)get(arg(7), 8);
    struct stat is = {0};
    if (appends || at == -1) {
        fstat(k->file, &is);
        return (uint64_t)is.st_size;
    }
    return at >= 0 ? (uint64_t)at : k->at;
}

uint32_t NtReadFile(void) {
    kept *k;
    uint32_t size = (uint32_t)arg(6), status = named(arg(0), A_FILE, READ_DATA, &k);
    if (status != STATUS_SUCCESS || k->is_directory) {
        return status != STATUS_SUCCESS ? status : STATUS_FILE_IS_A_DIRECTORY;
    }
    if (k->pipe != NO_PIPE || (k->port.handle != 0 && queued >= QUEUED_MOST)) {
        return k->pipe != NO_PIPE ? move_in_pipe(k, READS) : STATUS_INSUFFICIENT_RESOURCES;
    }
    uint64_t at = place_to_move(k, false);
    void *to = size == 0 ? &size : bytes_at(arg(5), size);
    ssize_t count = k->is_standard ? read(k->file, to, size) : pread(k->file, to, size, (off_t)at);
    if (count < 0) {
        return STATUS_ACCESS_DENIED;
    }
    k->at = at + (uint64_t)count;
    return moved(k, count == 0 && size > 0 ? STATUS_END_OF_FILE : STATUS_SUCCESS, (uint64_t)count);
}

/* All of it, as far as it goes. */
static uint64_t write_all(const kept *k, const uint8_t *from, uint64_t size, uint64_t at) {
    uint64_t count = 0;
    while (count < size) {
        ssize_t one = k->is_standard ? write(k->file, from + count, size - count) : pwrite(k->file, from + count, size - count, (off_t)(at + count));
        if (one <= 0 && errno != EINTR) {
            break;
        }
        count += one > 0 ? (uint64_t)one : 0;
    }
    return count;
}

uint32_t NtWriteFile(void) {
    kept *k;
    om_handle_info info;
    uint32_t size = (uint32_t)arg(6), status = named(arg(0), A_FILE, 0, &k);
    if (status != STATUS_SUCCESS) {
        return status;
    }
    om_query_handle(&om, in->member.process, handle_of(arg(0)), &info);
    if (k->is_directory || !(info.access & (WRITE_DATA | APPEND_DATA))) {
        return k->is_directory ? STATUS_FILE_IS_A_DIRECTORY : STATUS_ACCESS_DENIED;
    }
    if (k->pipe != NO_PIPE || (k->port.handle != 0 && queued >= QUEUED_MOST)) {
        return k->pipe != NO_PIPE ? move_in_pipe(k, WRITES) : STATUS_INSUFFICIENT_RESOURCES;
    }
    uint64_t at = place_to_move(k, !k->is_standard && !(info.access & WRITE_DATA));
    uint64_t count = size == 0 ? 0 : write_all(k, bytes_at(arg(5), size), size, at);
    if (count < size) {
        return 0xC000007Fu; /* STATUS_DISK_FULL */
    }
    k->at = at + count;
    return moved(k, STATUS_SUCCESS, count);
}

/* What was written was given to Linux at once. */
uint32_t NtFlushBuffersFile(void) {
    uint32_t status = named(arg(0), A_FILE, 0, NULL);
    if (status == STATUS_SUCCESS) {
        done(arg(1), status, 0);
    }
    return status;
}

/* NtFsControlFile (HANDLE, EVENT, ROUTINE, WITH, &IO, WHAT, FROM, SIZE, TO, SIZE) */
uint32_t NtFsControlFile(void) {
    kept *k;
    uint32_t status = named(arg(0), A_FILE, 0, &k);
    return status != STATUS_SUCCESS ? status : k->pipe != NO_PIPE ? control_pipe(k, (uint32_t)arg(5)) : STATUS_NOT_SUPPORTED;
}

uint32_t NtDeviceIoControlFile(void) {
    return STATUS_NOT_SUPPORTED;
}

/* ---- Directories ---- */

/* Whether a name is of a form: * stands for any characters, ? for one; <, > and " are DOS' own spellings of *, ? and a dot. */
static bool matches(const char *form, const char *name) {
    if (*form == 0 || *name == 0) {
        return *name == 0 && form[strspn(form, "*<>?")] == 0 && (*form == 0 || strchr("*<", *form) != NULL);
    }
    if (*form == '*' || *form == '<') {
        return matches(form + 1, name) || matches(form, name + 1);
    }
    char wanted = *form == '"' ? '.' : *form;
    bool is = wanted == '?' || wanted == '>' || strncasecmp(&wanted, name, 1) == 0;
    return is && matches(form + 1, name + 1);
}

/* FILE_BOTH_DIR_INFORMATION of an entry; how many bytes that are. */
static uint64_t put_entry(uint64_t to, const char *name, const struct stat *is) {
    uint64_t length = strlen(name), size = 0x5E + 2 * length;
    memset(bytes_at(to, size), 0, size);
    put_moments(to + 0x08, is);
    put(to + 0x28, (uint64_t)is->st_size, 8);
    put(to + 0x30, (uint64_t)is->st_size, 8);
    put(to + 0x38, attributes_of(is), 4);
    put(to + 0x3C, 2 * length, 4);
    for (uint64_t i = 0; i < length; i++) {
        put(to + 0x5E + 2 * i, (uint8_t)name[i], 2);
    }
    return size;
}

/* Reads the names of a directory's entries of a form: that of the first call counts for all. */
static bool begin_entries(kept *k, const char *form) {
    int again = openat(k->file, ".", O_RDONLY | O_DIRECTORY | O_CLOEXEC);
    DIR *all = again < 0 ? NULL : fdopendir(again);
    if (all == NULL) {
        return false;
    }
    if (k->form[0] == 0) {
        snprintf(k->form, sizeof k->form, "%s", form[0] == 0 ? "*" : form);
    }
    k->entries_size = k->next_entry = 0;
    for (struct dirent *one; (one = readdir(all)) != NULL;) {
        size_t length = strlen(one->d_name) + 1;
        if (matches(k->form, one->d_name)) {
            k->entries = realloc(k->entries, k->entries_size + length);
            if (k->entries == NULL) {
                stop("no memory");
            }
            memcpy(k->entries + k->entries_size, one->d_name, length);
            k->entries_size += length;
        }
    }
    closedir(all);
    return true;
}

/* NtQueryDirectoryFile (HANDLE, EVENT, ROUTINE, WITH, &IO, TO, SIZE, CLASS, ONE, FORM, AGAIN) */
uint32_t NtQueryDirectoryFile(void) {
    enum { BOTH = 3, ENTRY_MOST = 0x5E + 2 * ONE_MOST };
    kept *k;
    char form[ONE_MOST];
    uint64_t to = arg(5), left = (uint32_t)arg(6), used = 0, last = 0;
    bool one = (uint8_t)arg(8) != 0, again = (uint8_t)arg(10) != 0;
    uint32_t status = named(arg(0), A_FILE, READ_DATA, &k);
    if (status != STATUS_SUCCESS || !k->is_directory || (uint32_t)arg(7) != BOTH) {
        return status != STATUS_SUCCESS ? status : !k->is_directory ? STATUS_INVALID_PARAMETER : STATUS_INVALID_INFO_CLASS;
    }
    text_of(arg(9), form, sizeof form);
    bytes_at(to, left);
    bool is_first = k->form[0] == 0 || again;
    if (is_first && !begin_entries(k, form)) {
        return STATUS_ACCESS_DENIED;
    }
    while (left >= used + ENTRY_MOST && !(one && used > 0) && k->next_entry < k->entries_size) {
        struct stat is;
        const char *entry = k->entries + k->next_entry;
        k->next_entry += strlen(entry) + 1;
        if (fstatat(k->file, entry, &is, AT_SYMLINK_NOFOLLOW) == 0) {
            if (used > 0) {
                put(to + last, used - last, 4);
            }
            last = used;
            used = (used + put_entry(to + used, entry, &is) + 7) / 8 * 8;
        }
    }
    if (used == 0) {
        return is_first ? STATUS_NO_SUCH_FILE : STATUS_NO_MORE_FILES;
    }
    done(arg(4), STATUS_SUCCESS, used);
    return STATUS_SUCCESS;
}
