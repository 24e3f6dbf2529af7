/* Sections: images, memory that processes share, and files as memory. */
#define _GNU_SOURCE
#include "nt.h"

#include <fcntl.h>
#include <stdio.h>
#include <string.h>
#include <sys/mman.h>
#include <sys/stat.h>
#include <unistd.h>

enum { SEC_IMAGE = 0x1000000, SEC_FILE = 0x800000, SEC_COMMIT = 0x8000000 };

/* Memory without a file is one of the host's alone, whose size nobody changes. */
static int memory_file(uint64_t size) {
    int file = memfd_create("section", MFD_CLOEXEC);
    if (file >= 0 && ftruncate(file, (off_t)whole_pages(size)) != 0) {
        close(file);
        file = -1;
    }
    return file;
}

static bool has_head(int file) {
    uint8_t head[HEAD];
    return pread(file, head, sizeof head, 0) == HEAD && is_program(head, sizeof head);
}

/* NtCreateSection (&MADE, ACCESS, ATTRIBUTES, &SIZE, PROTECT, FORM, FILE): a view of a file is a copy of it, so none can be written through. */
uint32_t NtCreateSection(void) {
    kept *file = NULL, *k;
    struct stat is = {0};
    bool is_image = ((uint32_t)arg(5) & SEC_IMAGE) != 0;
    uint32_t protect = (uint32_t)arg(4), status = arg(6) == 0 ? STATUS_SUCCESS : named(arg(6), A_FILE, 1, &file);
    uint64_t size = arg(3) == 0 ? 0 : get(arg(3), 8);
    if (status != STATUS_SUCCESS) {
        return status;
    }
    if (file != NULL && (file->is_standard || file->is_directory || fstat(file->file, &is) != 0)) {
        return 0xC0000020u; /* STATUS_INVALID_FILE_FOR_SECTION */
    }
    size = size == 0 ? (uint64_t)is.st_size : size;
    if (size == 0 || size > MEMORY_MOST || (is_image && (file == NULL || !has_head(file->file)))) {
        return is_image ? STATUS_INVALID_IMAGE_FORMAT : size == 0 ? STATUS_INVALID_PARAMETER : STATUS_NO_MEMORY;
    }
    if (file != NULL && !is_image && (protect & 0xFF) == PAGE_READWRITE) {
        return STATUS_NOT_SUPPORTED;
    }
    int bytes = file == NULL ? memory_file(size) : fcntl(file->file, F_DUPFD_CLOEXEC, 0);
    if (bytes < 0) {
        return STATUS_INSUFFICIENT_RESOURCES;
    }
    status = new_named(A_SECTION, file == NULL ? "" : file->name, (uint32_t)arg(1), arg(2), arg(0), &k);
    if (k == NULL) {
        close(bytes);
        return status;
    }
    k->file = bytes;
    k->size = size;
    k->is_image = is_image;
    k->is_copied = file != NULL;
    return status;
}

/* NtQuerySection (HANDLE, CLASS, TO, SIZE, &COUNT) */
uint32_t NtQuerySection(void) {
    enum { BASICS, IMAGE };
    kept *k;
    uint8_t head[HEAD];
    uint32_t status = named(arg(0), A_SECTION, 1, &k), class = (uint32_t)arg(1), need = class == BASICS ? 0x18 : 0x40;
    if (status != STATUS_SUCCESS || class > IMAGE || arg(3) < need) {
        return status != STATUS_SUCCESS ? status : class > IMAGE ? STATUS_INVALID_INFO_CLASS : STATUS_INFO_LENGTH_MISMATCH;
    }
    if (class == BASICS) {
        put(arg(2), 0, 8);
        put(arg(2) + 8, k->is_image ? SEC_IMAGE | SEC_FILE : k->is_copied ? SEC_FILE : SEC_COMMIT, 8);
        put(arg(2) + 16, k->size, 8);
    } else if (!k->is_image || pread(k->file, head, sizeof head, 0) != HEAD) {
        return 0xC0000049u; /* STATUS_SECTION_NOT_IMAGE */
    } else {
        image_information(head, 0, k->size, arg(2));
    }
    put(arg(4), need, 8);
    return STATUS_SUCCESS;
}

/* A view of bytes from an offset on. */
static uint32_t map_bytes(const kept *k, uint64_t offset, uint64_t *base, uint64_t *size) {
    if (offset % GRANULE != 0 || offset >= k->size || *size > k->size - offset) {
        return offset % GRANULE != 0 ? 0xC0000220u : 0xC000001Fu; /* STATUS_MAPPED_ALIGNMENT, STATUS_INVALID_VIEW_SIZE */
    }
    *size = whole_pages(*size == 0 ? k->size - offset : *size);
    if (*base == 0) {
        *base = map_anywhere(*size, 0, PAGE_READWRITE, IS_MAPPED);
    } else if (map_at(*base, *size, PAGE_READWRITE, IS_MAPPED) == NULL) {
        return STATUS_CONFLICTING_ADDRESSES;
    }
    if (*base == 0) {
        return STATUS_NO_MEMORY;
    }
    if (!k->is_copied) {
        return share_at(*base, k->file, offset) ? STATUS_SUCCESS : STATUS_NO_MEMORY;
    }
    return pread(k->file, bytes_if(*base, *size), *size, (off_t)offset) < 0 ? STATUS_ACCESS_DENIED : STATUS_SUCCESS;
}

/* NtMapViewOfSection (SECTION, PROCESS, &BASE, ZERO BITS, COMMIT, &OFFSET, &SIZE, ..) */
uint32_t NtMapViewOfSection(void) {
    kept *k;
    uint64_t base = get(arg(2), 8), size = get(arg(6), 8), offset = arg(5) == 0 ? 0 : get(arg(5), 8);
    uint32_t status = named(arg(0), A_SECTION, 0, &k);
    if (status != STATUS_SUCCESS || arg(1) != THIS_PROCESS) {
        return status != STATUS_SUCCESS ? status : STATUS_NOT_SUPPORTED; /* in another process */
    }
    status = k->is_image ? map_image(k->file, &base, &size) : map_bytes(k, offset, &base, &size);
    if (status == STATUS_SUCCESS || status == STATUS_IMAGE_NOT_AT_BASE) {
        put(arg(2), base, 8);
        put(arg(6), size, 8);
    }
    return status;
}

uint32_t NtUnmapViewOfSection(void) {
    region *r = region_at(arg(1));
    if (arg(0) != THIS_PROCESS || r == NULL || r->type == IS_PRIVATE) {
        return arg(0) != THIS_PROCESS ? STATUS_NOT_SUPPORTED : STATUS_NOT_MAPPED_VIEW;
    }
    unmap(r);
    return STATUS_SUCCESS;
}

/* ---- Tables of languages: Wine's files ---- */

static uint32_t map_table(const char *name, uint64_t to, uint64_t size_to) {
    char path[1024];
    struct stat is;
    uint64_t base = 0;
    snprintf(path, sizeof path, "%s/%s", wine_nls, name);
    int file = open(path, O_RDONLY | O_CLOEXEC);
    if (file >= 0 && fstat(file, &is) == 0 && is.st_size > 0) {
        base = map_anywhere((uint64_t)is.st_size, 0, PAGE_READONLY, IS_MAPPED);
    }
    bool is_read = base != 0 && pread(file, bytes_if(base, 1), (size_t)is.st_size, 0) == is.st_size;
    if (file >= 0) {
        close(file);
    }
    if (is_read) {
        put(to, base, 8);
        put(size_to, whole_pages((uint64_t)is.st_size), 8);
    }
    return is_read ? STATUS_SUCCESS : STATUS_OBJECT_NAME_NOT_FOUND;
}

uint32_t NtInitializeNlsFiles(void) {
    put(arg(1), 0x409, 4); /* American English */
    return map_table("locale.nls", arg(0), 0);
}

/* NtGetNlsSectionPtr (KIND, NUMBER, .., &BASE, &SIZE) */
uint32_t NtGetNlsSectionPtr(void) {
    enum { SORTING = 9, CASES = 10, CODE_PAGE = 11, NORMAL_FORM = 12 };
    static const char *const forms[] = {[1] = "normnfc.nls", [2] = "normnfd.nls", [5] = "normnfkc.nls", [6] = "normnfkd.nls", [13] = "normidna.nls"};
    char name[32];
    uint32_t kind = (uint32_t)arg(0), number = (uint32_t)arg(1);
    if (kind == CODE_PAGE) {
        snprintf(name, sizeof name, "c_%03u.nls", number);
        return map_table(name, arg(3), arg(4));
    }
    if (kind == NORMAL_FORM && number < sizeof forms / sizeof *forms && forms[number] != NULL) {
        return map_table(forms[number], arg(3), arg(4));
    }
    return kind == SORTING || kind == CASES ? map_table(kind == SORTING ? "sortdefault.nls" : "l_intl.nls", arg(3), arg(4)) : STATUS_INVALID_PARAMETER;
}
