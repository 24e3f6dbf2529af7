/* Programs and DLLs in a process's memory. What they import, and where they lie when their place is taken, is ntdll's own business. */
#define _GNU_SOURCE
#include "nt.h"

#include <fcntl.h>
#include <stdio.h>
#include <stdlib.h>
#include <string.h>
#include <sys/stat.h>
#include <unistd.h>

enum { MACHINE_AMD64 = 0x8664, FILE_MOST = 512 << 20, MAY_RUN = 0x20000000 /* of a section's characteristics */ };

static uint32_t half(const uint8_t *bytes) {
    return (uint32_t)bytes[0] | (uint32_t)bytes[1] << 8;
}

static uint32_t word(const uint8_t *bytes) {
    return half(bytes) | half(bytes + 2) << 16;
}

static uint64_t longer(const uint8_t *bytes) {
    return word(bytes) | (uint64_t)word(bytes + 4) << 32;
}

/* Whether a file begins as a 64-bit program or DLL does. */
bool is_program(const uint8_t *head, size_t length) {
    if (length < HEAD || head[0] != 'M' || head[1] != 'Z') {
        return false;
    }
    uint32_t at = word(head + IMAGE_NEW_HEADER);
    return at <= HEAD - IMAGE_OPTIONAL - OPTIONAL_LEAST && memcmp(head + at, "PE\0", 4) == 0 && half(head + at + 4) == MACHINE_AMD64 &&
           half(head + at + IMAGE_OPTIONAL) == 0x20B; /* PE32+ */
}

/* Wine's DLL of a name, opened, or -1. */
int open_dll(const char *name) {
    char path[1024];
    snprintf(path, sizeof path, "%s/%s", wine_dlls, name);
    return open(path, O_RDONLY | O_CLOEXEC);
}

/* The whole of a file, to be freed, or NULL. */
static uint8_t *whole_file(int file, size_t *length) {
    struct stat is;
    if (fstat(file, &is) != 0 || is.st_size < HEAD || is.st_size > FILE_MOST) {
        return NULL;
    }
    *length = (size_t)is.st_size;
    uint8_t *bytes = malloc(*length);
    if (bytes != NULL && pread(file, bytes, *length, 0) != is.st_size) {
        free(bytes);
        bytes = NULL;
    }
    return bytes;
}

/* One section of an image into its place, as far as both have it. */
static void put_section(const uint8_t *header, const uint8_t *file, size_t length, uint64_t base, uint8_t *bytes, uint32_t size) {
    uint32_t wanted = word(header + 8), address = word(header + 12), kept = word(header + 16), offset = word(header + 20);
    if (address >= size) {
        return;
    }
    uint64_t whole = whole_pages(wanted > kept ? wanted : kept), left = whole_pages(size) - address / PAGE * PAGE;
    if (word(header + 36) & MAY_RUN && uc_mem_protect(in->engine, base + address / PAGE * PAGE, whole < left ? whole : left, UC_PROT_ALL) != UC_ERR_OK) {
        stop("an image's code can't be run");
    }
    kept = wanted != 0 && kept > whole_pages(wanted) ? wanted : kept;
    if (offset < length) {
        kept = kept > length - offset ? (uint32_t)(length - offset) : kept;
        kept = kept > size - address ? size - address : kept;
        memcpy(bytes + address, file + offset, kept);
    }
}

/* Maps a program or DLL: STATUS_SUCCESS at the address that it is made for, STATUS_IMAGE_NOT_AT_BASE elsewhere. */
uint32_t map_image(int file, uint64_t *base, uint64_t *size) {
    size_t length;
    uint8_t *from = whole_file(file, &length), *to;
    if (from == NULL || !is_program(from, length)) {
        free(from);
        return STATUS_INVALID_IMAGE_FORMAT;
    }
    const uint8_t *new_header = from + word(from + IMAGE_NEW_HEADER), *optional = new_header + IMAGE_OPTIONAL;
    uint32_t whole = word(optional + OPTIONAL_IMAGE_SIZE), headers = word(optional + OPTIONAL_HEADERS_SIZE), status = STATUS_SUCCESS;
    *base = longer(optional + OPTIONAL_BASE);
    *size = whole_pages(whole);
    if ((to = map_at(*base, whole, PAGE_EXECUTE_READ, IS_IMAGE)) == NULL) {
        status = STATUS_IMAGE_NOT_AT_BASE;
        *base = map_anywhere(whole, 0, PAGE_EXECUTE_READ, IS_IMAGE);
        to = *base == 0 ? NULL : bytes_if(*base, whole);
    }
    if (to != NULL) {
        const uint8_t *section = optional + half(new_header + IMAGE_OPTIONAL_SIZE);
        headers = headers < whole ? headers : whole;
        memcpy(to, from, headers < length ? headers : length);
        for (uint32_t i = 0; i < half(new_header + IMAGE_SECTIONS_COUNT) && section + SECTION_HEADER <= from + length; i++, section += SECTION_HEADER) {
            put_section(section, from, length, *base, to, whole);
        }
    }
    free(from);
    return to == NULL ? STATUS_NO_MEMORY : status;
}

/* The address of what a DLL exports by a name, or 0. */
uint64_t export_of(uint64_t base, const char *name) {
    uint64_t directory = base + get(base + get(base + IMAGE_NEW_HEADER, 4) + IMAGE_OPTIONAL + OPTIONAL_EXPORTS, 4);
    uint64_t names = base + get(directory + 32, 4), functions = base + get(directory + 28, 4), ordinals = base + get(directory + 36, 4);
    for (uint64_t i = 0, count = get(directory + 24, 4); i < count; i++) {
        const char *one = bytes_at(base + get(names + 4 * i, 4), 1);
        if (strcmp(one, name) == 0) {
            return base + get(functions + 4 * get(ordinals + 2 * i, 2), 4);
        }
    }
    return 0;
}

/* SECTION_IMAGE_INFORMATION of a file that begins so, at its base or, for 0, the one that it is made for. All zeros where a guest has written over its head. */
void image_information(const uint8_t *head, uint64_t base, uint64_t file_size, uint64_t out) {
    memset(bytes_at(out, 0x40), 0, 0x40);
    if (!is_program(head, HEAD)) {
        return;
    }
    const uint8_t *new_header = head + word(head + IMAGE_NEW_HEADER), *optional = new_header + IMAGE_OPTIONAL;
    bool is_wines = memcmp(head + 0x40, "Wine builtin DLL", 16) == 0;
    put(out, (base != 0 ? base : longer(optional + OPTIONAL_BASE)) + word(optional + OPTIONAL_ENTRY), 8);
    put(out + 0x10, longer(optional + OPTIONAL_STACK_RESERVE), 8);
    put(out + 0x18, longer(optional + OPTIONAL_STACK_COMMIT), 8);
    put(out + 0x20, half(optional + OPTIONAL_SUBSYSTEM), 4);
    put(out + 0x24, half(optional + OPTIONAL_SUBSYSTEM_VERSION + 2), 2);
    put(out + 0x26, half(optional + OPTIONAL_SUBSYSTEM_VERSION), 2);
    put(out + 0x28, word(optional + OPTIONAL_OS_VERSION), 4);
    put(out + 0x2C, half(new_header + IMAGE_CHARACTERISTICS), 2);
    put(out + 0x2E, half(optional + OPTIONAL_DLL_CHARACTERISTICS), 2);
    put(out + 0x30, MACHINE_AMD64, 2);
    put(out + 0x32, 1, 1);                   /* it has code */
    put(out + 0x33, is_wines ? 0x40 : 0, 1); /* as Wine's server tells its own DLLs */
    put(out + 0x38, file_size, 4);
    put(out + 0x3C, word(optional + OPTIONAL_CHECKSUM), 4);
}
