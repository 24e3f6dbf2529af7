/* A process's memory: regions, each of bytes of the host's, which the processor reads and writes in place. What isn't run lies in two arenas, since the
 * processor takes a time that grows with the square of its own regions. All memory can be read and written: rights of pages are told and not enforced. */
#define _DEFAULT_SOURCE
#include "nt.h"

#include <fcntl.h>
#include <stdlib.h>
#include <string.h>
#include <sys/mman.h>
#include <unistd.h>

/* Below 2 GiB, where blocks of threads and processes go, and above. */
static const struct {
    uint64_t from, to;
} arenas[ARENAS] = {{0x20000000u, 0x60000000u}, {0x300000000u, 0x400000000u}};

static uint64_t reserved; /* by all processes */

uint64_t whole_pages(uint64_t size) {
    return (size + PAGE - 1) / PAGE * PAGE;
}

/* How many regions begin at an address or below. */
static uint32_t place_of(uint64_t address) {
    uint32_t low = 0, high = in->regions_count;
    while (low < high) {
        uint32_t middle = (low + high) / 2;
        if (in->regions[middle].address <= address) {
            low = middle + 1;
        } else {
            high = middle;
        }
    }
    return low;
}

/* The region of an address, or NULL. */
region *region_at(uint64_t address) {
    uint32_t i = place_of(address);
    return i > 0 && address - in->regions[i - 1].address < in->regions[i - 1].size ? &in->regions[i - 1] : NULL;
}

void *bytes_if(uint64_t address, uint64_t size) {
    region *r = region_at(address);
    return r != NULL && size <= r->size - (address - r->address) ? r->bytes + (address - r->address) : NULL;
}

void *bytes_at(uint64_t address, uint64_t size) {
    void *bytes = bytes_if(address, size);
    if (bytes == NULL) {
        refuse_pointer(address);
    }
    return bytes;
}

uint64_t get(uint64_t address, int size) {
    uint64_t value = 0;
    memcpy(&value, bytes_at(address, (uint64_t)size), (size_t)size);
    return value;
}

void put(uint64_t address, uint64_t value, int size) {
    if (address != 0) {
        fill(address, &value, (uint64_t)size);
    }
}

void fill(uint64_t address, const void *bytes, uint64_t size) {
    memcpy(bytes_at(address, size), bytes, size);
}

/* 8 bytes, for a call that has been before, where that memory is still there. */
void put_if(uint64_t address, uint64_t value) {
    void *bytes = bytes_if(address, sizeof value);
    if (bytes != NULL) {
        memcpy(bytes, &value, sizeof value);
    }
}

/* ---- Regions ---- */

static uint8_t *mapped(uint64_t size) {
    void *bytes = mmap(NULL, size, PROT_READ | PROT_WRITE, MAP_PRIVATE | MAP_ANONYMOUS | MAP_NORESERVE, -1, 0);
    return bytes == MAP_FAILED ? NULL : bytes;
}

/* The bytes for a region in an arena, or NULL. */
static uint8_t *from_arena(int which, uint64_t address) {
    uint64_t size = arenas[which].to - arenas[which].from;
    if (in->arenas[which] == NULL) {
        uint8_t *bytes = mapped(size);
        if (bytes == NULL || uc_mem_map_ptr(in->engine, arenas[which].from, size, UC_PROT_READ | UC_PROT_WRITE, bytes) != UC_ERR_OK) {
            stop("no memory for a process");
        }
        in->arenas[which] = bytes;
    }
    return in->arenas[which] + (address - arenas[which].from);
}

/* The arena that has all or some of a range, or ARENAS. */
static int arena_of(uint64_t address, uint64_t size) {
    int i = 0;
    while (i < ARENAS && !(address < arenas[i].to && arenas[i].from < address + size)) {
        i++;
    }
    return i;
}

static bool is_runnable(uint32_t protect) {
    return (protect & ANY_EXECUTE) != 0;
}

/* The bytes of a new region, or NULL. Each write to what may be run goes a slow way in Unicorn, so an image's parts become so one by one. */
static uint8_t *bytes_for(region *r) {
    int arena = arena_of(r->address, r->size);
    r->in_arena = arena < ARENAS;
    if (r->in_arena) {
        bool is_inside = arenas[arena].from <= r->address && r->address + r->size <= arenas[arena].to && !is_runnable(r->protect);
        return is_inside ? from_arena(arena, r->address) : NULL;
    }
    uint8_t *bytes = mapped(r->size);
    uint32_t rights = is_runnable(r->protect) && r->type != IS_IMAGE ? UC_PROT_ALL : UC_PROT_READ | UC_PROT_WRITE;
    if (bytes != NULL && uc_mem_map_ptr(in->engine, r->address, r->size, rights, bytes) != UC_ERR_OK) {
        munmap(bytes, r->size);
        return NULL;
    }
    return bytes;
}

static bool has_room(void) {
    if (in->regions_count < in->regions_room) {
        return true;
    }
    uint32_t room = in->regions_room == 0 ? 256 : 2 * in->regions_room;
    region *more = realloc(in->regions, room * sizeof *more);
    if (more != NULL) {
        in->regions = more;
        in->regions_room = room;
    }
    return more != NULL;
}

/* Memory from now on, of zeros, or NULL where some of it was there before or there is no room for it. */
void *map_at(uint64_t address, uint64_t size, uint32_t protect, uint32_t type) {
    region made = {.address = address, .size = whole_pages(size), .protect = protect, .type = type, .is_committed = true, .file = -1};
    uint32_t i = place_of(address);
    bool is_free = size != 0 && size <= MEMORY_MOST && address % PAGE == 0 && address < UINT64_MAX / 2 &&
                   (i == 0 || address - in->regions[i - 1].address >= in->regions[i - 1].size) &&
                   (i == in->regions_count || in->regions[i].address - address >= made.size);
    if (!is_free || reserved + made.size > MEMORY_MOST || !has_room() || (made.bytes = bytes_for(&made)) == NULL) {
        return NULL;
    }
    memmove(&in->regions[i + 1], &in->regions[i], (in->regions_count - i) * sizeof made);
    in->regions[i] = made;
    in->regions_count++;
    in->reserved += made.size;
    reserved += made.size;
    return made.bytes;
}

/* The region that begins at an address, outside of the arenas, has the bytes of a file of the host's from now on, which others may have too. */
bool share_at(uint64_t address, int file, uint64_t offset) {
    region *r = region_at(address);
    r->file = r->in_arena ? -1 : fcntl(file, F_DUPFD_CLOEXEC, 0);
    r->offset = offset;
    return r->file >= 0 && mmap(r->bytes, r->size, PROT_READ | PROT_WRITE, MAP_SHARED | MAP_FIXED, file, (off_t)offset) != MAP_FAILED;
}

/* The first gap of a size between two addresses, at multiples of 64 KiB, or 0. */
static uint64_t gap_of(uint64_t size, uint64_t from, uint64_t to) {
    uint64_t address = from;
    for (uint32_t i = place_of(from); address + size <= to; i++) {
        if (i > 0 && in->regions[i - 1].address + in->regions[i - 1].size > address) {
            address = (in->regions[i - 1].address + in->regions[i - 1].size + GRANULE - 1) / GRANULE * GRANULE;
        }
        if (address + size <= to && (i == in->regions_count || in->regions[i].address >= address + size)) {
            return address;
        }
        if (i == in->regions_count) {
            return 0;
        }
    }
    return 0;
}

/* Memory anywhere, below an address where that isn't 0; or 0. */
uint64_t map_anywhere(uint64_t size, uint64_t below, uint32_t protect, uint32_t type) {
    uint64_t address = 0, most = below == 0 || below > arenas[LOW_ARENA].to ? arenas[LOW_ARENA].to : below;
    size = whole_pages(size);
    if (size == 0 || size > MEMORY_MOST) {
        return 0;
    }
    if (type == IS_PRIVATE && !is_runnable(protect)) {
        bool is_small = size <= 2 * GRANULE || below != 0;
        address = is_small ? gap_of(size, arenas[LOW_ARENA].from, most) : gap_of(size, arenas[HIGH_ARENA].from, arenas[HIGH_ARENA].to);
    } else if (below == 0) {
        address = gap_of(size, arenas[HIGH_ARENA].to, 0x7F0000000000u);
    }
    if (address == 0 && (below == 0 || below > arenas[LOW_ARENA].from)) {
        address = gap_of(size, arenas[LOW_ARENA].to, below == 0 ? SHARED : below);
    }
    if (address == 0) {
        address = gap_of(size, GRANULE, below == 0 || below > arenas[LOW_ARENA].from ? arenas[LOW_ARENA].from : below);
    }
    return address != 0 && map_at(address, size, protect, type) != NULL ? address : 0;
}

/* What was run there is read again, with the blocks that come from the page before. */
static void forget_code(uint64_t address, uint64_t size) {
    uc_ctl_remove_cache(in->engine, address, address + size);
    address -= PAGE;
    size += PAGE;
    for (uint64_t i = 0; i < (size < BLOCKS ? size : BLOCKS); i++) {
        block_length *b = size < BLOCKS ? length_at(in, address + i) : &in->lengths[i];
        if (b->address - address < size) {
            b->address = 0;
        }
    }
}

/* Bytes of a region outside of the arenas go. */
static void unmap_bytes(region *r) {
    munmap(r->bytes, r->size);
    if (r->file >= 0) {
        close(r->file);
    }
}

void unmap(region *r) {
    if (r->in_arena) {
        madvise(r->bytes, r->size, MADV_DONTNEED);
    } else {
        forget_code(r->address, r->size);
        if (uc_mem_unmap(in->engine, r->address, r->size) != UC_ERR_OK) {
            stop("memory at %llx stays", (unsigned long long)r->address);
        }
        unmap_bytes(r);
    }
    in->reserved -= r->size;
    reserved -= r->size;
    in->regions_count--;
    memmove(r, r + 1, (size_t)(in->regions + in->regions_count - r) * sizeof *r);
}

void end_memory(process *of) {
    uc_close(of->engine);
    for (region *r = of->regions; r < of->regions + of->regions_count; r++) {
        if (!r->in_arena) {
            unmap_bytes(r);
        }
    }
    for (int i = 0; i < ARENAS; i++) {
        if (of->arenas[i] != NULL) {
            munmap(of->arenas[i], arenas[i].to - arenas[i].from);
        }
    }
    reserved -= of->reserved;
    free(of->regions);
}

/* ---- The calls ---- */

/* Pages from the one of an address to that of the last of so many bytes behind it. */
static void round_out(uint64_t *address, uint64_t *size) {
    uint64_t low = *address / PAGE * PAGE;
    *size = whole_pages(*address - low + *size);
    *address = low;
}

/* From now on it may be run, and what was run there before is read again. */
static void make_runnable(region *r, uint64_t address, uint64_t size, uint32_t protect) {
    forget_code(address, size);
    if (is_runnable(protect) && !is_runnable(r->protect) && uc_mem_protect(in->engine, address, size, UC_PROT_ALL) != UC_ERR_OK) {
        stop("memory at %llx can't be run", (unsigned long long)address);
    }
}

static uint32_t allocate_anywhere(uint64_t *address, uint64_t size, uint64_t zero_bits, uint32_t type, uint32_t protect) {
    /* the number of zero bits on the left of 32, or a mask of all that may be set */
    uint64_t below = zero_bits == 0 ? 0 : zero_bits < 32 ? 1ull << (32 - zero_bits) : zero_bits + 1;
    if (!(type & (MEM_COMMIT | MEM_RESERVE))) {
        return STATUS_INVALID_PARAMETER;
    }
    *address = map_anywhere(size, below, protect, IS_PRIVATE);
    if (*address == 0) {
        return STATUS_NO_MEMORY;
    }
    region_at(*address)->is_committed = (type & MEM_COMMIT) != 0;
    return STATUS_SUCCESS;
}

static uint32_t allocate(uint64_t *address, uint64_t *size, uint64_t zero_bits, uint32_t type, uint32_t protect) {
    if (*size == 0 || *size > MEMORY_MOST) {
        return *size == 0 ? STATUS_INVALID_PARAMETER : STATUS_NO_MEMORY;
    }
    if (type & MEM_RESET) {
        return STATUS_SUCCESS;
    }
    if (*address == 0) {
        *size = whole_pages(*size);
        return allocate_anywhere(address, *size, zero_bits, type, protect);
    }
    if (type & MEM_RESERVE) {
        uint64_t low = *address / GRANULE * GRANULE;
        *size = whole_pages(*address - low + *size);
        *address = low;
        return map_at(low, *size, protect, IS_PRIVATE) == NULL ? STATUS_CONFLICTING_ADDRESSES : STATUS_SUCCESS;
    }
    round_out(address, size);
    if (bytes_if(*address, *size) == NULL) {
        return STATUS_CONFLICTING_ADDRESSES;
    }
    region *r = region_at(*address);
    make_runnable(r, *address, *size, protect);
    r->is_committed = true;
    r->protect = protect;
    return STATUS_SUCCESS;
}

/* A process that a call is about, by its handle; its memory is meant then. PROCESS_VM_OPERATION is the right that the calls below need. */
enum { VM_OPERATION = 0x8 };
static uint32_t mean(uint64_t handle, uint32_t right) {
    process *of;
    uint32_t status = process_by(handle, right, NULL, &of);
    in = status == STATUS_SUCCESS ? of : in;
    return status;
}

/* Has a call's own memory meant again, and tells there what it came to. */
static uint32_t told(uint32_t status, uint64_t address_to, uint64_t address, uint64_t size_to, uint64_t size) {
    in = current->of;
    if (status == STATUS_SUCCESS) {
        put(address_to, address, 8);
        put(size_to, size, 8);
    }
    return status;
}

/* NtAllocateVirtualMemory (PROCESS, &ADDRESS, ZERO BITS, &SIZE, TYPE, PROTECT) */
uint32_t NtAllocateVirtualMemory(void) {
    uint64_t address = get(arg(1), 8), size = get(arg(3), 8);
    uint32_t type = (uint32_t)arg(4), protect = (uint32_t)arg(5), status = mean(arg(0), VM_OPERATION);
    status = status == STATUS_SUCCESS ? allocate(&address, &size, arg(2), type, protect) : status;
    return told(status, arg(1), address, arg(3), size);
}

/* Whether a region isn't the guest's to free: what the host puts into each process, and the stack of a live thread, which goes with it. */
static bool is_needed(const region *r) {
    if (r->address == SHARED) {
        return true;
    }
    for (thread *t = threads; t < threads + threads_end; t++) {
        if (t->number != 0 && t->of == in && t->stack == r->address) {
            return true;
        }
    }
    return false;
}

static uint32_t release(uint64_t *address, uint64_t *size, uint32_t type) {
    region *r = region_at(*address);
    if (r == NULL || r->type != IS_PRIVATE) {
        return r == NULL ? STATUS_NOT_MAPPED_VIEW : STATUS_INVALID_PARAMETER;
    }
    if (type & MEM_RELEASE) {
        if (*size != 0 && *size < r->size) {
            return STATUS_SUCCESS; /* a part of a region stays with the rest */
        }
        if (r->address != *address) {
            return STATUS_INVALID_PARAMETER;
        }
        *size = r->size;
        if (!is_needed(r)) {
            unmap(r);
        }
        return STATUS_SUCCESS;
    }
    *size = *size == 0 ? r->size - (*address - r->address) : *size;
    round_out(address, size);
    void *bytes = bytes_if(*address, *size);
    if (bytes == NULL) {
        return STATUS_INVALID_PARAMETER;
    }
    memset(bytes, 0, *size);
    return STATUS_SUCCESS;
}

/* NtFreeVirtualMemory (PROCESS, &ADDRESS, &SIZE, TYPE) */
uint32_t NtFreeVirtualMemory(void) {
    uint64_t address = get(arg(1), 8), size = get(arg(2), 8);
    uint32_t status = mean(arg(0), VM_OPERATION);
    status = status == STATUS_SUCCESS ? release(&address, &size, (uint32_t)arg(3)) : status;
    return told(status, arg(1), address, arg(2), size);
}

uint32_t NtProtectVirtualMemory(void) {
    uint64_t address = get(arg(1), 8), size = get(arg(2), 8);
    uint32_t protect = (uint32_t)arg(3);
    round_out(&address, &size);
    region *r = region_at(address);
    if (arg(0) != THIS_PROCESS) {
        return STATUS_NOT_SUPPORTED;
    }
    if (r == NULL || bytes_if(address, size) == NULL) {
        return STATUS_INVALID_PARAMETER;
    }
    put(arg(1), address, 8);
    put(arg(2), size, 8);
    put(arg(4), r->type == IS_IMAGE ? PAGE_EXECUTE_READWRITE : r->protect, 4);
    if (r->type != IS_IMAGE) {
        make_runnable(r, address, size, protect);
        r->protect = is_runnable(r->protect) ? r->protect : protect;
    }
    return STATUS_SUCCESS;
}

/* MEMORY_BASIC_INFORMATION. */
static void tell_region(uint64_t address, uint64_t out) {
    region *r = region_at(address);
    uint32_t next = place_of(address);
    uint64_t end = next < in->regions_count ? in->regions[next].address : 0x7FFFFFFF0000u;
    memset(bytes_at(out, 0x30), 0, 0x30);
    put(out, address, 8);
    put(out + 0x18, (r == NULL ? end : r->address + r->size) - address, 8);
    put(out + 0x20, r == NULL ? MEM_FREE : r->is_committed ? MEM_COMMIT : MEM_RESERVE, 4);
    put(out + 0x24, r == NULL ? PAGE_NOACCESS : r->type == IS_IMAGE ? PAGE_EXECUTE_READWRITE : r->protect, 4);
    if (r != NULL) {
        put(out + 0x08, r->address, 8);
        put(out + 0x10, r->type == IS_IMAGE ? PAGE_EXECUTE_WRITECOPY : r->protect, 4);
        put(out + 0x28, r->type, 4);
    }
}

uint32_t NtQueryVirtualMemory(void) {
    enum { BASIC = 0, WINE_UNIX_CALLS = 1000 };
    uint64_t address = arg(1) / PAGE * PAGE;
    uint32_t class = (uint32_t)arg(2);
    if (arg(0) != THIS_PROCESS) {
        return STATUS_NOT_SUPPORTED;
    }
    if (class == WINE_UNIX_CALLS) {
        put(arg(3), 1, 8);
        return address == in->ntdll ? STATUS_SUCCESS : STATUS_DLL_NOT_FOUND; /* of ntdll alone, at UNIX_CALL */
    }
    if (class != BASIC) {
        return STATUS_INVALID_INFO_CLASS;
    }
    if (address >= 0x7FFFFFFF0000u) {
        return STATUS_INVALID_PARAMETER;
    }
    tell_region(address, arg(3));
    put(arg(5), 0x30, 8);
    return STATUS_SUCCESS;
}

uint32_t NtFlushInstructionCache(void) {
    uint64_t address = arg(1), size = arg(2);
    if (size != 0 && bytes_if(address, size) != NULL) {
        round_out(&address, &size);
        forget_code(address, size);
    }
    return STATUS_SUCCESS;
}

/* Between the caller's memory and that of a process that a handle names with a right. */
static uint32_t move_between(uint32_t right, bool writes) {
    uint64_t size = arg(3);
    process *of, *before = in;
    uint32_t status = process_by(arg(0), right, NULL, &of);
    if (status != STATUS_SUCCESS) {
        return status;
    }
    void *own = bytes_at(arg(2), size);
    in = of;
    void *its = bytes_if(arg(1), size);
    in = before;
    if (its != NULL) {
        memmove(writes ? its : own, writes ? own : its, size);
    }
    put(arg(4), its == NULL ? 0 : size, 8);
    return its == NULL ? STATUS_PARTIAL_COPY : STATUS_SUCCESS;
}

uint32_t NtReadVirtualMemory(void) { return move_between(0x10, false); } /* PROCESS_VM_READ */
uint32_t NtWriteVirtualMemory(void) { return move_between(0x20, true); } /* PROCESS_VM_WRITE */
