/* The system calls: which are served, by which numbers, and with what arguments. */
#include "nt.h"

#include <setjmp.h>
#include <stdio.h>
#include <stdlib.h>
#include <string.h>

enum { GRAPHICS = 0x2000 /* the numbers of win32u, of windows, are from CALLS to that */ };

uint64_t calls_count;
bool tells_calls, has_set_registers;

#define CALL(name) uint32_t name(void);
#include "calls.h"
#undef CALL

static const struct served {
    const char *name;
    uint32_t (*by)(void);
} all[] = {
#define CALL(name) {#name, name},
#include "calls.h"
#undef CALL
};

system_call system_calls[CALLS];
static const struct served *served_by[CALLS]; /* by number, or NULL */

static uint64_t stack;    /* of the thread whose call is served, as it made the call */
static jmp_buf no_memory; /* where a call ends that was passed a bad pointer */
static bool is_serving;

/* A call ends, wherever it stands, that was passed an address where no memory of the guest's is. What it did before stays, as in NT. */
_Noreturn void refuse_pointer(uint64_t address) {
    if (!is_serving) {
        stop("no memory at %llx", (unsigned long long)address);
    }
    longjmp(no_memory, 1);
}

/* The calls' numbers are those in ntdll's own stubs, which begin so: mov r10, rcx; mov eax, NUMBER. */
void read_numbers(void) {
    uint64_t directory = in->ntdll + get(in->ntdll + get(in->ntdll + IMAGE_NEW_HEADER, 4) + IMAGE_OPTIONAL + OPTIONAL_EXPORTS, 4);
    uint64_t names = in->ntdll + get(directory + 32, 4), functions = in->ntdll + get(directory + 28, 4), ordinals = in->ntdll + get(directory + 36, 4);
    for (uint64_t i = 0, count = get(directory + 24, 4); i < count; i++) {
        const char *name = bytes_at(in->ntdll + get(names + 4 * i, 4), 1);
        uint64_t code = in->ntdll + get(functions + 4 * get(ordinals + 2 * i, 2), 4);
        const uint8_t *bytes = bytes_if(code, 8);
        bool is_alias = strncmp(name, "Zw", 2) == 0 || strncmp(name, "Rtl", 3) == 0;
        if (bytes == NULL || memcmp(bytes, "\x4C\x8B\xD1\xB8", 4) != 0 || is_alias) {
            continue;
        }
        uint64_t number = get(code + 4, 4);
        if (number < CALLS) {
            snprintf(system_calls[number].name, sizeof system_calls[number].name, "%s", name);
        }
    }
    find_served();
}

/* Who serves each call, by its name. */
void find_served(void) {
    for (size_t number = 0; number < CALLS; number++) {
        for (size_t k = 0; system_calls[number].name[0] != 0 && k < sizeof all / sizeof *all; k++) {
            if (strcmp(all[k].name, system_calls[number].name) == 0) {
                served_by[number] = &all[k];
            }
        }
    }
}

/* An argument of the call, from 0: four are in registers, and others on the stack behind two returns and a room for those four. */
uint64_t arg(int i) {
    static const int in_registers[4] = {R10, RDX, R8, R9};
    return i < 4 ? current->now.whole[in_registers[i]] : get(stack + 0x10 + 8 * (uint64_t)i, 8);
}

static uint32_t serve_number(uint64_t number) {
    uint64_t first = arg(0);
    if (CALLS <= number && number < GRAPHICS) {
        return STATUS_SUCCESS; /* there are no windows: each answers 0 */
    }
    system_call *call = number < CALLS ? &system_calls[number] : NULL;
    if (call == NULL || call->name[0] == 0) {
        return 0xC000001Cu; /* STATUS_INVALID_SYSTEM_SERVICE */
    }
    bool is_served = served_by[number] != NULL;
    if (!is_served && !call->is_told) {
        fprintf(stderr, "nt: %s isn't served\n", call->name);
        call->is_told = true;
    }
    uint32_t by = current->number, status = is_served ? served_by[number]->by() : STATUS_NOT_IMPLEMENTED;
    if (tells_calls) {
        fprintf(stderr, "t%u %s %llx: %x\n", by, call->name, (unsigned long long)first, status);
    }
    return status;
}

/* What of Wine's Unix side ntdll asks for: the time. Its other calls are about code of Linux, such as how to unwind it, of which there is none here. */
static uint32_t serve_unix(void) {
    enum { SYSTEM_TIME_PRECISE = 2 };
    if ((uint32_t)current->now.whole[RDX] != SYSTEM_TIME_PRECISE) {
        return STATUS_UNSUCCESSFUL;
    }
    put(current->now.whole[R8], now(), 8);
    return STATUS_SUCCESS;
}

/* Serves the call at whose stub the current thread is. What a call sees or sets of the thread's registers is as behind it. */
void serve(uint64_t stub) {
    thread *t = current;
    uint64_t number = t->now.whole[RAX], *back = bytes_if(t->now.whole[RSP], 8);
    uint32_t status;
    calls_count++;
    stack = t->now.whole[RSP];
    if (back == NULL) {
        raise_exception(t, STATUS_ACCESS_VIOLATION, (uint64_t[2]){0, stack}, 2);
        return;
    }
    t->now.whole[RIP] = *back;
    t->now.whole[RSP] += 8;
    has_set_registers = false;
    is_serving = true;
    if (setjmp(no_memory) == 0) {
        status = stub == UNIX_CALL ? serve_unix() : serve_number(number);
    } else {
        status = STATUS_ACCESS_VIOLATION;
        in = t->of;
    }
    is_serving = false;
    if (t->number == 0 || has_set_registers) {
        return;
    }
    t->now.whole[RAX] = status;
    if (t->has_apc) {
        t->has_apc = false;
        run_apc(t, status);
    }
}

/* A line that a DLL of Wine's says of itself. */
uint32_t __wine_dbg_write(void) {
    uint32_t size = (uint32_t)arg(1);
    fwrite(bytes_at(arg(0), size), 1, size, stderr);
    return size;
}
