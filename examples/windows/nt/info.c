/* What guests ask of the system, of processes and of threads; keys of the registry and tokens, of which there are none. */
#include "nt.h"

#include <stdio.h>
#include <stdlib.h>
#include <string.h>

/* ---- The system ---- */

uint32_t NtQuerySystemTime(void) {
    put(arg(0), now(), 8);
    return STATUS_SUCCESS;
}

uint32_t NtQueryPerformanceCounter(void) {
    put(arg(0), now() - BEGAN, 8);
    put(arg(1), 10000000, 8);
    return STATUS_SUCCESS;
}

/* The timer's period: what it can be at most, at least, and is, in units of 100 ns. */
uint32_t NtQueryTimerResolution(void) {
    put(arg(0), 156250, 4);
    put(arg(1), 10000, 4);
    put(arg(2), 10000, 4);
    return STATUS_SUCCESS;
}

uint32_t NtSetTimerResolution(void) {
    put(arg(2), 10000, 4);
    return STATUS_SUCCESS;
}

static void tell_machine(uint64_t to) {
    memset(bytes_at(to, 0x40), 0, 0x40);
    put(to + 0x04, 156250, 4);
    put(to + 0x08, PAGE, 4);
    put(to + 0x0C, MEMORY_MOST / PAGE, 4);
    put(to + 0x10, 1, 4);
    put(to + 0x14, MEMORY_MOST / PAGE, 4);
    put(to + 0x18, GRANULE, 8);
    put(to + 0x20, GRANULE, 8);        /* addresses of programs: the least, the greatest */
    put(to + 0x28, 0x7FFFFFFEFFFF, 8);
    put(to + 0x30, 1, 8);              /* the processors, and how many */
    put(to + 0x38, 1, 1);
}

/* NtQuerySystemInformation (CLASS, TO, SIZE, &COUNT) */
uint32_t NtQuerySystemInformation(void) {
    enum { BASICS = 0, PROCESSOR = 1, EMULATION_BASICS = 62 };
    uint32_t class = (uint32_t)arg(0), need = class == PROCESSOR ? 12 : 0x40;
    if (class != BASICS && class != PROCESSOR && class != EMULATION_BASICS) {
        return STATUS_INVALID_INFO_CLASS;
    }
    put(arg(3), need, 4);
    if ((uint32_t)arg(2) < need) {
        return STATUS_INFO_LENGTH_MISMATCH;
    }
    if (class == PROCESSOR) {
        put(arg(1), 9, 2); /* AMD64, family 6, model 1 */
        put(arg(1) + 2, 6, 2);
        put(arg(1) + 4, 1 << 16, 4);
        put(arg(1) + 8, 0, 4);
    } else {
        tell_machine(arg(1));
    }
    return STATUS_SUCCESS;
}

uint32_t NtQuerySystemInformationEx(void) {
    return STATUS_INVALID_INFO_CLASS;
}

uint32_t NtQueryDefaultLocale(void) {
    put(arg(1), 0x409, 4); /* American English */
    return STATUS_SUCCESS;
}

uint32_t NtQueryDefaultUILanguage(void) {
    put(arg(0), 0x409, 2);
    return STATUS_SUCCESS;
}

uint32_t NtQueryInstallUILanguage(void) {
    return NtQueryDefaultUILanguage();
}

uint32_t NtGetCurrentProcessorNumber(void) {
    return 0;
}

uint64_t last_unique = 1000;

uint32_t NtAllocateLocallyUniqueId(void) {
    put(arg(0), ++last_unique, 8);
    return STATUS_SUCCESS;
}

uint32_t NtDisplayString(void) {
    char text[1024];
    text_of(arg(0), text, sizeof text);
    fprintf(stderr, "%s\n", text);
    return STATUS_SUCCESS;
}

/* ---- Processes ---- */

/* PROCESS_BASIC_INFORMATION. */
static void tell_process(const kept *k, const process *p, uint64_t to) {
    memset(bytes_at(to, 0x30), 0, 0x30);
    put(to + 0x00, k->code, 4);
    put(to + 0x08, p == NULL ? 0 : p->peb, 8);
    put(to + 0x10, 1, 8); /* processors */
    put(to + 0x18, 8, 8); /* priority */
    put(to + 0x20, THREAD_NUMBER * (uint64_t)k->number, 8);
}

/* NtQueryInformationProcess (PROCESS, CLASS, TO, SIZE, &COUNT) */
uint32_t NtQueryInformationProcess(void) {
    enum { BASICS = 0, TIMES = 4, IMAGE = 37 };
    /* classes that are one number here: no debugger (7, 30, 31), hard errors (12), handles (20), affinity (21), session (24), not of 32 bits (26), stack (34),
     * cookie (36) */
    static const struct {
        uint32_t class, size;
        uint64_t value;
    } plain[] = {{7, 8, 0}, {12, 4, 0}, {20, 4, 10}, {21, 8, 1}, {24, 4, 1}, {26, 8, 0}, {31, 4, 1}, {34, 4, 0}, {36, 4, 0x12345678}};
    kept *k;
    process *p;
    uint64_t to = arg(2);
    uint32_t class = (uint32_t)arg(1), size = (uint32_t)arg(3), need = class == BASICS ? 0x30 : class == TIMES ? 0x20 : 0x40;
    uint32_t status = process_by(arg(0), PROCESS_QUERY_LIMITED, &k, &p);
    size_t i = 0;
    while (i < sizeof plain / sizeof *plain && plain[i].class != class) {
        i++;
    }
    bool is_plain = i < sizeof plain / sizeof *plain;
    if (status != STATUS_SUCCESS || (!is_plain && class != BASICS && class != TIMES && class != IMAGE)) {
        return status != STATUS_SUCCESS ? status : STATUS_INVALID_INFO_CLASS;
    }
    need = is_plain ? plain[i].size : need;
    if (size < need) {
        return STATUS_INFO_LENGTH_MISMATCH;
    }
    if (is_plain) {
        put(to, plain[i].value, (int)need);
    } else if (class == BASICS) {
        tell_process(k, p, to);
    } else if (class == TIMES) {
        memset(bytes_at(to, need), 0, need);
        put(to, BEGAN, 8);
        put(to + 24, instructions / PER_UNIT, 8);
    } else {
        image_information(bytes_at(in->image, HEAD), in->image, 0, to);
    }
    put(arg(4), need, 4);
    return STATUS_SUCCESS;
}

/* NtSetInformationProcess (PROCESS, CLASS, FROM, SIZE) */
uint32_t NtSetInformationProcess(void) {
    enum { TLS = 35, STACK = 41 };
    uint32_t class = (uint32_t)arg(1);
    if (class == STACK) { /* of a fiber: its size, .., where it lies */
        uint64_t base = map_anywhere(get(arg(2), 8), 0, PAGE_READWRITE, IS_PRIVATE);
        if (base == 0) {
            return STATUS_NO_MEMORY;
        }
        put(arg(2) + 16, base, 8);
    }
    return class == TLS ? STATUS_NOT_IMPLEMENTED : STATUS_SUCCESS; /* others change nothing that is served */
}

/* ---- Threads ---- */

static bool is_last(const thread *t) {
    for (const thread *other = threads; other < threads + threads_end; other++) {
        if (other->number != 0 && other != t && other->of == t->of) {
            return false;
        }
    }
    return true;
}

/* THREAD_BASIC_INFORMATION. */
static void tell_thread(const kept *k, const thread *t, uint64_t to) {
    int32_t priority = t == NULL ? k->priority : t->priority;
    memset(bytes_at(to, 0x30), 0, 0x30);
    put(to + 0x00, k->code, 4);
    put(to + 0x08, t == NULL ? 0 : t->block, 8);
    put(to + 0x10, t == NULL ? 0 : THREAD_NUMBER * (uint64_t)t->of->member.process, 8);
    put(to + 0x18, THREAD_NUMBER * (uint64_t)k->number, 8);
    put(to + 0x20, 1, 8); /* processors */
    put(to + 0x28, (uint32_t)priority, 4);
    put(to + 0x2C, (uint32_t)priority, 4);
}

/* What of a thread is asked and set, by the numbers of THREADINFOCLASS. */
enum {
    BASICS = 0,
    TIMES = 1,
    PRIORITY = 3,
    AFFINITY = 4,
    ENTRY = 9,
    ZERO_TLS = 10,
    IS_LAST = 12,
    IDEAL_PROCESSOR = 13,
    BOOST = 14,
    HIDES = 17,
    HAS_ENDED = 20,
    GROUP = 30,
    SUSPENDED = 35,
    DESCRIPTION = 38,
    GROUP_SIZE = 16 /* GROUP_AFFINITY: processors, their group, and nothing */
};

/* Whether a number is what a class asks of a thread, NULL of one that has ended, and that then. */
static bool number_of_thread(const thread *t, uint32_t class, uint64_t *value) {
    switch (class) {
    case AFFINITY:
        *value = 1;
        return true;
    case ENTRY:
        *value = t == NULL ? 0 : t->entry;
        return true;
    case IS_LAST:
        *value = t != NULL && is_last(t);
        return true;
    case BOOST:
        *value = t != NULL && t->has_no_boost;
        return true;
    case HAS_ENDED:
        *value = t == NULL;
        return true;
    case SUSPENDED:
        *value = t == NULL ? 0 : t->suspended;
        return true;
    default:
        return false;
    }
}

/* A UNICODE_STRING, and the text of a thread's description behind it (GetThreadDescription). */
static uint32_t tell_description(const kept *k, uint64_t to, uint64_t size) {
    uint64_t need = 16 + k->entries_size;
    put(arg(4), need, 4);
    if (size < need) {
        return STATUS_BUFFER_TOO_SMALL;
    }
    bytes_at(to, need);
    put(to, k->entries_size, 2);
    put(to + 2, k->entries_size, 2);
    put(to + 8, to + 16, 8);
    if (k->entries_size > 0) {
        fill(to + 16, k->entries, k->entries_size);
    }
    return STATUS_SUCCESS;
}

/* NtQueryInformationThread (THREAD, CLASS, TO, SIZE, &COUNT) */
uint32_t NtQueryInformationThread(void) {
    kept *k;
    thread *t;
    uint64_t to = arg(2), value = 0;
    uint32_t class = (uint32_t)arg(1), need = class == BASICS ? 0x30 : class == TIMES ? 0x20 : class == AFFINITY || class == ENTRY ? 8 : 4;
    bool is_limited = class == BASICS || class == TIMES || class == IS_LAST || class == BOOST || class == DESCRIPTION;
    uint32_t status = thread_by(arg(0), is_limited ? THREAD_QUERY_LIMITED : THREAD_QUERY, &k, &t);
    if (status != STATUS_SUCCESS || class == DESCRIPTION) {
        return status != STATUS_SUCCESS ? status : tell_description(k, to, (uint32_t)arg(3));
    }
    bool is_number = number_of_thread(t, class, &value);
    need = class == GROUP ? GROUP_SIZE : need;
    bool is_known = is_number || class == BASICS || class == TIMES || class == GROUP;
    if (!is_known || (uint32_t)arg(3) < need) {
        return is_known ? STATUS_INFO_LENGTH_MISMATCH : STATUS_INVALID_INFO_CLASS;
    }
    if (class == BASICS) {
        tell_thread(k, t, to);
    } else if (is_number) {
        put(to, value, (int)need);
    } else {
        memset(bytes_at(to, need), 0, need);
        put(to, class == GROUP ? 1 : BEGAN, 8); /* its processor, or when it began */
    }
    put(arg(4), need, 4);
    return STATUS_SUCCESS;
}

/* A place of thread-local storage is empty in each thread of the process. */
static void empty_tls(uint64_t place) {
    enum { IN_BLOCK = 64 };
    for (thread *t = threads; t < threads + threads_end; t++) {
        if (t->number != 0 && t->of == in) {
            uint64_t more = get(t->block + TEB_TLS_EXPANSION, 8);
            if (place < IN_BLOCK) {
                put(t->block + TEB_TLS_SLOTS + 8 * place, 0, 8);
            } else if (more != 0) {
                put(more + 8 * (place - IN_BLOCK), 0, 8);
            }
        }
    }
}

/* A priority below its process's, or above: from -2 to 2, or -15 and 15 for the least and the greatest. Turns don't go by it. */
static uint32_t set_priority(thread *t, int32_t priority) {
    if ((priority < -2 || priority > 2) && priority != -15 && priority != 15) {
        return STATUS_INVALID_PARAMETER;
    }
    t->priority = priority;
    return STATUS_SUCCESS;
}

/* A UNICODE_STRING, whose text is a thread's description from now on (SetThreadDescription). */
static uint32_t set_description(kept *k, uint64_t from) {
    uint64_t length = get(from, 2), text = get(from + 8, 8);
    const void *bytes = length == 0 ? NULL : bytes_at(text, length);
    char *made = length == 0 ? NULL : malloc(length);
    if (length > 0 && made == NULL) {
        stop("no memory");
    }
    if (length > 0) {
        memcpy(made, bytes, length);
    }
    free(k->entries);
    k->entries = made;
    k->entries_size = length;
    return STATUS_SUCCESS;
}

/* Processors on which a thread may run: there is the first one alone, and all that fit into 32 bits are that one. */
static uint32_t set_affinity(uint64_t processors) {
    return processors == 1 || (uint32_t)processors == UINT32_MAX ? STATUS_SUCCESS : STATUS_INVALID_PARAMETER;
}

/* NtSetInformationThread (THREAD, CLASS, FROM, SIZE) */
uint32_t NtSetInformationThread(void) {
    enum { PROCESSORS_MOST = 64 };
    kept *k;
    thread *t;
    uint64_t from = arg(2);
    uint32_t class = (uint32_t)arg(1), size = (uint32_t)arg(3);
    bool is_limited = class == PRIORITY || class == BOOST || class == DESCRIPTION;
    uint32_t status = thread_by(arg(0), is_limited ? THREAD_SET_LIMITED : THREAD_SET, &k, &t);
    if (status != STATUS_SUCCESS || t == NULL) {
        return status;
    }
    switch (class) {
    case PRIORITY:
        return set_priority(t, (int32_t)get(from, 4));
    case ZERO_TLS:
        empty_tls(get(from, 4));
        return STATUS_SUCCESS;
    case AFFINITY:
        return set_affinity(get(from, 8));
    case GROUP:
        return size == GROUP_SIZE && get(from, 8) == 1 && get(from + 8, 8) == 0 ? STATUS_SUCCESS : STATUS_INVALID_PARAMETER;
    case IDEAL_PROCESSOR:
        return get(from, 4) <= PROCESSORS_MOST ? STATUS_SUCCESS : STATUS_INVALID_PARAMETER;
    case BOOST:
        t->has_no_boost = get(from, 4) != 0;
        return STATUS_SUCCESS;
    case DESCRIPTION:
        return size == 16 ? set_description(k, from) : STATUS_INFO_LENGTH_MISMATCH;
    case HIDES:
        return STATUS_SUCCESS; /* there is no debugger */
    default:
        return STATUS_INVALID_INFO_CLASS;
    }
}

/* ---- Keys, tokens and links, of which there are none ---- */

uint32_t NtOpenKey(void) {
    return STATUS_OBJECT_NAME_NOT_FOUND;
}

uint32_t NtOpenKeyEx(void) {
    return STATUS_OBJECT_NAME_NOT_FOUND;
}

uint32_t NtCreateKey(void) {
    return STATUS_ACCESS_DENIED;
}

uint32_t NtOpenProcessToken(void) {
    return STATUS_ACCESS_DENIED;
}

uint32_t NtOpenProcessTokenEx(void) {
    return STATUS_ACCESS_DENIED;
}

uint32_t NtOpenThreadToken(void) {
    return STATUS_NO_TOKEN;
}

uint32_t NtOpenThreadTokenEx(void) {
    return STATUS_NO_TOKEN;
}

uint32_t NtQueryInformationToken(void) {
    return STATUS_INVALID_HANDLE;
}

uint32_t NtOpenSymbolicLinkObject(void) {
    return STATUS_OBJECT_NAME_NOT_FOUND;
}
