/* Processes and threads as they are before their first instruction: what Windows' kernel has put into a process's memory when ntdll begins in it. What Wine's
 * DLLs look at beyond Windows' structures was found by running them. */
#define _GNU_SOURCE
#include "nt.h"

#include <stdio.h>
#include <stdlib.h>
#include <string.h>
#include <unistd.h>

enum { TEXTS = 6, STACK_LEAST = 0x100000, DIRECTORY_ROOM = 520 /* bytes, for MAX_PATH characters */ };

/* The texts of a process's parameters. */
static const int texts[TEXTS] = {PARAMETERS_DIRECTORY, PARAMETERS_IMAGE, PARAMETERS_COMMAND, PARAMETERS_TITLE, PARAMETERS_DESKTOP, PARAMETERS_SHELL};

/* What a process is passed by who begins it: the parameters without their texts, these, and the environment, each in UTF-16. */
typedef struct passed {
    uint8_t fixed[PARAMETERS_TEXTS];
    const void *text[TEXTS];
    uint32_t bytes[TEXTS];
    const void *environment;
    uint64_t environment_size;
} passed;

/* ---- Threads ---- */

/* A thread's block and its stack, or false. */
static bool give_memory(thread *t, uint64_t size) {
    t->stack_size = size;
    t->block = map_anywhere(TEB_SIZE, SHARED, PAGE_READWRITE, IS_PRIVATE);
    t->stack = t->block == 0 ? 0 : map_anywhere(size, 0, PAGE_READWRITE, IS_PRIVATE);
    if (t->block != 0 && t->stack == 0) {
        unmap(region_at(t->block));
    }
    return t->stack != 0;
}

static void fill_block(const thread *t) {
    uint64_t block = t->block, frames = block + TEB_ACTIVATION_FRAMES;
    put(block + TEB_EXCEPTIONS, UINT64_MAX, 8); /* none */
    put(block + TEB_STACK_BASE, t->stack + t->stack_size, 8);
    put(block + TEB_STACK_LIMIT, t->stack + 2 * PAGE, 8);
    put(block + TEB_SELF, block, 8);
    put(block + TEB_PROCESS, THREAD_NUMBER * (uint64_t)in->member.process, 8);
    put(block + TEB_THREAD, THREAD_NUMBER * (uint64_t)t->number, 8);
    put(block + TEB_PEB, in->peb, 8);
    put(block + TEB_ACTIVATION, frames, 8);
    put(frames + 0x08, frames + 0x08, 8); /* an empty list */
    put(frames + 0x10, frames + 0x08, 8);
    put(block + TEB_STATIC_TEXT + 2, 261 * 2, 2);
    put(block + TEB_STATIC_TEXT + 8, block + TEB_STATIC_BUFFER + 8, 8);
    put(block + TEB_ALLOCATION_BASE, t->stack, 8);
}

/* A thread of the process whose memory is meant, which begins in ntdll's LdrInitializeThunk (CONTEXT), or NULL where there is no room for one. */
thread *begin_thread(uint32_t number, uint64_t entry, uint64_t with, uint64_t reserve, uint64_t commit) {
    uint64_t head = in->image + get(in->image + IMAGE_NEW_HEADER, 4) + IMAGE_OPTIONAL, size = reserve > commit ? reserve : commit;
    thread *t = threads;
    size = size == 0 ? get(head + OPTIONAL_STACK_RESERVE, 8) : size;
    size = size < STACK_LEAST ? STACK_LEAST : size;
    while (t < threads + THREADS && t->number != 0) {
        t++;
    }
    if (size > MEMORY_MOST || t == threads + THREADS) {
        return NULL;
    }
    memset(t, 0, sizeof *t);
    if (!give_memory(t, (size + GRANULE - 1) / GRANULE * GRANULE)) {
        return NULL;
    }
    if (om_set_thread_data(&om, number, (uint64_t)(t - threads) + 1) != OM_SUCCESS) {
        stop("no memory");
    }
    t->number = number;
    t->of = in;
    t->entry = entry;
    threads_end = t - threads < threads_end ? threads_end : (uint32_t)(t - threads) + 1;
    fill_block(t);
    uint64_t top = t->stack + t->stack_size - 0x28, context = (top & ~(uint64_t)15) - CONTEXT_SIZE;
    first_context(bytes_at(context, CONTEXT_SIZE), top, in->user_start, entry, with);
    t->now.whole[RSP] = context - 8;
    t->now.whole[RIP] = in->thread_start;
    t->now.whole[RCX] = context;
    t->now.whole[FLAGS] = 0x202;
    t->now.vector_control = 0x1F80;
    t->now.float_control = 0x27F;
    t->now.float_tags = 0xFFFF;
    t->own = host_object(A_THREAD, number);
    return t;
}

/* The value of an attribute in a PS_ATTRIBUTE_LIST, or 0. */
uint64_t attribute_of(uint64_t list, uint64_t number, uint64_t *size) {
    uint64_t end = list == 0 ? 0 : list + get(list, 8);
    for (uint64_t at = list + LIST_FIRST; at + LIST_STEP <= end; at += LIST_STEP) {
        if (get(at, 8) == number) {
            if (size != NULL) {
                *size = get(at + 8, 8);
            }
            return get(at + 16, 8);
        }
    }
    return 0;
}

/* ---- What lies in a process ---- */

/* KUSER_SHARED_DATA of a Windows 7, behind it the addresses of calls: the page of calls has instructions that halt, which are never run. */
static void map_shared(void) {
    static const uint8_t features[] = {2, 3, 6, 7, 8, 10, 12, 13, 14, 15, 18, 20, 32}; /* CMPXCHG8B, MMX, SSE, RDTSC, SSE2, SSE3, CMPXCHG16B .. */
    static const char windows[] = "C:\\windows";
    uint8_t *shared = map_at(SHARED, SHARED_SIZE, PAGE_READONLY, IS_PRIVATE);
    if (shared == NULL || uc_mem_protect(in->engine, SYSTEM_CALL, PAGE, UC_PROT_ALL) != UC_ERR_OK) {
        stop("no memory for a process");
    }
    memset(shared + (SYSTEM_CALL - SHARED), 0xF4, PAGE);
    put(DISPATCH, SYSTEM_CALL, 8);
    put(SHARED + SHARED_SYSTEM_CALL, 1, 1); /* by that address, not by the instruction */
    put(SHARED + SHARED_TICK_MULTIPLIER, 1 << 24, 4);
    for (size_t i = 0; i < sizeof windows; i++) {
        put(SHARED + SHARED_WINDOWS + 2 * i, (uint8_t)windows[i], 2);
    }
    put(SHARED + SHARED_BUILD, 7601, 4);
    put(SHARED + SHARED_BUILD + 4, 1, 4);
    put(SHARED + SHARED_BUILD + 8, 1, 1);
    put(SHARED + SHARED_BUILD + 12, 6, 4);
    put(SHARED + SHARED_BUILD + 16, 1, 4);
    put(SHARED + SHARED_FREQUENCY, 10000000, 8);
    for (size_t i = 0; i < sizeof features; i++) {
        put(SHARED + SHARED_FEATURES + features[i], 1, 1);
    }
}

/* A DLL of Wine's, without which nothing runs. */
static uint64_t map_dll(const char *name, uint64_t *size) {
    uint64_t base;
    int file = open_dll(name);
    uint32_t status = file < 0 ? STATUS_NO_SUCH_FILE : map_image(file, &base, size);
    if (file >= 0) {
        close(file);
    }
    if (status != STATUS_SUCCESS && (status != STATUS_IMAGE_NOT_AT_BASE || strcmp(name, "ntdll.dll") == 0)) {
        stop("%s of Wine isn't in %s (Debian: apt-get install libwine; else --wine DIR)", name, wine_dlls);
    }
    return base;
}

/* ntdll zeros 960 KiB of each new thread's stack, which is of zeros here: 123,000 stores that Unicorn is slow at. In the guests' copy that loop is left out.
 * */
static void leave_out_zeroing(uint64_t size) {
    static const uint8_t loop[] = {0x31, 0xC0, 0x48, 0xC1, 0xE9, 0x03, 0xF3, 0x48, 0xAB, 0x48, 0x8D, 0x63, 0xE0}; /* .. rep stosq .. */
    uint8_t *found = memmem(bytes_at(in->ntdll, size), size, loop, sizeof loop);
    if (found != NULL) {
        memset(found + 6, 0x90, 3);
    }
}

static void map_ntdll(void) {
    uint64_t size;
    in->ntdll = map_dll("ntdll.dll", &size);
    in->thread_start = export_of(in->ntdll, "LdrInitializeThunk");
    in->user_start = export_of(in->ntdll, "RtlUserThreadStart");
    in->exception_dispatcher = export_of(in->ntdll, "KiUserExceptionDispatcher");
    in->apc_dispatcher = export_of(in->ntdll, "KiUserApcDispatcher");
    uint64_t call = export_of(in->ntdll, "__wine_syscall_dispatcher"), unix_call = export_of(in->ntdll, "__wine_unix_call_dispatcher");
    if (in->thread_start == 0 || in->user_start == 0 || in->exception_dispatcher == 0 || in->apc_dispatcher == 0 || unix_call == 0) {
        stop("ntdll.dll in %s is none that is known: Wine 8.0 was tried", wine_dlls);
    }
    put(call, SYSTEM_CALL, 8);
    put(unix_call, UNIX_CALL, 8);
    leave_out_zeroing(size);
}

/* Which DLLs stand for the names of API sets, as apisetschema.dll has it in a section. */
static uint64_t map_api_sets(void) {
    uint64_t size, base = map_dll("apisetschema.dll", &size), head = base + get(base + IMAGE_NEW_HEADER, 4);
    uint64_t section = head + IMAGE_OPTIONAL + get(head + IMAGE_OPTIONAL_SIZE, 2);
    for (uint64_t i = 0, count = get(head + IMAGE_SECTIONS_COUNT, 2); i < count; i++, section += SECTION_HEADER) {
        if (memcmp(bytes_at(section, 8), ".apiset", 8) == 0) {
            return base + get(section + 12, 4);
        }
    }
    return 0;
}

static void fill_peb(uint64_t parameters) {
    static const uint64_t heap_sizes[4] = {0x100000, 0x2000, 0x10000, 0x1000};
    put(in->peb + PEB_IMAGE_BASE, in->image, 8);
    put(in->peb + PEB_PARAMETERS, parameters, 8);
    put(in->peb + PEB_API_SET_MAP, map_api_sets(), 8);
    put(in->peb + PEB_PROCESSORS, 1, 4);
    put(in->peb + PEB_SECTION_TIMEOUT, (uint64_t)-1500000000000, 8);
    fill(in->peb + PEB_HEAP_SIZES, heap_sizes, sizeof heap_sizes);
    put(in->peb + PEB_VERSION, 6, 4);
    put(in->peb + PEB_VERSION + 4, 1, 4);
    put(in->peb + PEB_VERSION + 8, 7601, 2);
    put(in->peb + PEB_VERSION + 12, 2, 4);
    put(in->peb + PEB_SUBSYSTEM, 3, 4); /* a console program's */
    put(in->peb + PEB_SUBSYSTEM + 4, 4, 4);
    put(in->peb + PEB_SESSION, 1, 4);
}

/* The parameters, with their texts and the environment behind them; or 0. */
static uint64_t map_parameters(const passed *from) {
    uint64_t size = PARAMETERS_TEXTS + DIRECTORY_ROOM + 16 + from->environment_size;
    for (int i = 0; i < TEXTS; i++) {
        size += from->bytes[i] + 16;
    }
    uint64_t made = map_anywhere(size, SHARED, PAGE_READWRITE, IS_PRIVATE), at = made + PARAMETERS_TEXTS;
    if (made == 0) {
        return 0;
    }
    fill(made, from->fixed, sizeof from->fixed);
    put(made + PARAMETERS_SIZES, size, 4);
    put(made + PARAMETERS_SIZES + 4, size, 4);
    put(made + PARAMETERS_FLAGS, 1, 4); /* its pointers are such */
    put(made + PARAMETERS_DLL_PATH, 0, 8);
    put(made + PARAMETERS_DLL_PATH + 8, 0, 8);
    for (int i = 0; i < TEXTS; i++) {
        uint32_t room = texts[i] == PARAMETERS_DIRECTORY ? DIRECTORY_ROOM : from->bytes[i] + 2;
        fill(at, from->text[i] == NULL ? "" : from->text[i], from->bytes[i]);
        put(made + (uint64_t)texts[i], from->bytes[i], 2);
        put(made + (uint64_t)texts[i] + 2, room, 2);
        put(made + (uint64_t)texts[i] + 8, at, 8);
        at += (room + 7) / 8 * 8;
    }
    fill(at, from->environment, from->environment_size);
    put(made + PARAMETERS_ENVIRONMENT, at, 8);
    put(made + PARAMETERS_ENVIRONMENT_SIZE, from->environment_size, 8);
    return made;
}

/* ---- Processes ---- */

static process *free_process(void) {
    process *p = processes;
    while (p < processes + PROCESSES && p->member.process != 0) {
        p++;
    }
    return p == processes + PROCESSES ? NULL : p;
}

/* A process of the library's begins over a program: its first thread, or NULL where that is no program or there is no room. Its memory is meant from then on.
 * */
static thread *begin_process(process *p, om_member member, int program, const passed *from) {
    uint64_t size;
    thread *first = NULL;
    memset(p, 0, sizeof *p);
    p->member = member;
    in = p;
    must(om_set_process_data(&om, member.process, (uint64_t)(p - processes) + 1), "a process");
    begin_engine();
    map_shared();
    uint32_t status = map_image(program, &in->image, &size);
    if (status == STATUS_SUCCESS || status == STATUS_IMAGE_NOT_AT_BASE) {
        map_ntdll();
        read_numbers();
        uint64_t parameters = map_parameters(from);
        in->peb = map_anywhere(PEB_SIZE, SHARED, PAGE_READWRITE, IS_PRIVATE);
        uint64_t entry = in->image + get(in->image + get(in->image + IMAGE_NEW_HEADER, 4) + IMAGE_OPTIONAL + OPTIONAL_ENTRY, 4);
        if (parameters != 0 && in->peb != 0) {
            fill_peb(parameters);
            first = begin_thread(member.thread, entry, in->peb, 0, 0);
        }
    }
    if (first == NULL) {
        end_memory(p);
        om_exit(&om, member.process);
        memset(p, 0, sizeof *p);
    } else {
        p->own = host_object(A_PROCESS, member.process);
    }
    return first;
}

static void set_text(passed *to, int i, uint16_t *room, const char *text) {
    size_t length = strlen(text);
    for (size_t k = 0; k < length; k++) {
        room[k] = (uint8_t)text[k];
    }
    to->text[i] = room;
    to->bytes[i] = 2 * (uint32_t)length;
}

/* The first process, of a program on the guests' drive. */
void begin_first(const char *path, const char *command) {
    static const char variables[] = "COMSPEC=C:\\windows\\system32\\cmd.exe\0PATH=C:\\windows\\system32;C:\\windows\0SystemDrive=C:\0"
                                    "SystemRoot=C:\\windows\0TEMP=C:\\\0TMP=C:\\\0USERNAME=guest\0windir=C:\\windows\0";
    static uint16_t room[3][NT_NAME_MOST], command_room[4 * NT_NAME_MOST], environment[sizeof variables];
    char image[NT_NAME_MOST];
    passed from = {.environment = environment, .environment_size = sizeof environment};
    om_member member;
    snprintf(image, sizeof image, "C:\\%s", path);
    set_text(&from, 0, room[0], "C:\\");
    set_text(&from, 1, room[1], image);
    set_text(&from, 2, command_room, command);
    set_text(&from, 3, room[2], image);
    for (size_t i = 0; i < sizeof variables; i++) {
        environment[i] = (uint8_t)variables[i];
    }
    must(om_spawn(&om, 1, &host), "the host's process");
    must(om_advance(&om, BEGAN), "the time");
    must(om_spawn(&om, 1, &member), "a process");
    in = processes;
    in->member = member;
    uint64_t numbers[5] = {(uint64_t)-4, 0}; /* no console, as where a shell began it without a window */
    for (int i = 0; i < 3; i++) {
        numbers[2 + i] = standard_file(i);
    }
    memcpy(from.fixed + PARAMETERS_NUMBERS, numbers, sizeof numbers);
    from.fixed[PARAMETERS_SHOW_WINDOW] = 1;
    int program = open_program(path);
    if (program < 0 || begin_process(processes, member, program, &from) == NULL) {
        stop("%s is no 64-bit program for Windows", path);
    }
    close(program);
}

/* What a parent's parameters pass to a child. The parent's memory stays as it is until the child has it. */
static void read_passed(passed *to, uint64_t parameters) {
    memcpy(to->fixed, bytes_at(parameters, sizeof to->fixed), sizeof to->fixed);
    for (int i = 0; i < TEXTS; i++) {
        to->bytes[i] = (uint32_t)get(parameters + (uint64_t)texts[i], 2);
        to->text[i] = to->bytes[i] == 0 ? NULL : bytes_at(get(parameters + (uint64_t)texts[i] + 8, 8), to->bytes[i]);
    }
    uint64_t environment = get(parameters + PARAMETERS_ENVIRONMENT, 8), size = 0;
    while (get(environment + size, 4) != 0) {
        size += 2;
    }
    to->environment_size = size + 4;
    to->environment = bytes_at(environment, size + 4);
    memcpy(to->fixed + PARAMETERS_NUMBERS, &(int64_t){-4}, 8);
}

/* A child that inherits nothing has handles of its own to its parent's standard files. */
static void pass_standard_files(passed *to, const om_member *child) {
    for (int i = 0; i < 3; i++) {
        uint64_t handle, made = 0;
        om_opening opening;
        memcpy(&handle, to->fixed + PARAMETERS_STANDARD + 8 * i, 8);
        uint32_t own = in->member.process, same = OM_DUPLICATE_SAME_ACCESS;
        if (om_duplicate(&om, current->number, own, handle_of(handle), child->process, 0, true, same, &opening) == OM_SUCCESS) {
            made = opening.handle;
        }
        memcpy(to->fixed + PARAMETERS_STANDARD + 8 * i, &made, 8);
    }
}

/* NtCreateUserProcess (&PROCESS, &THREAD, ACCESS, ACCESS, ATTRIBUTES, ATTRIBUTES, FLAGS, FLAGS, PARAMETERS, .., LIST) */
uint32_t NtCreateUserProcess(void) {
    enum { INHERITS = 4, SUSPENDED = 1 };
    char name[NT_NAME_MOST];
    uint64_t size = 0, list = arg(10), image = attribute_of(list, LIST_IMAGE_NAME, &size), information = attribute_of(list, LIST_IMAGE_INFORMATION, NULL);
    uint64_t client = attribute_of(list, LIST_CLIENT_ID, NULL), attributes[2] = {arg(4), arg(5)};
    uint32_t access[2] = {(uint32_t)arg(2), (uint32_t)arg(3)};
    bool inherit = ((uint32_t)arg(6) & INHERITS) != 0, suspended = ((uint32_t)arg(7) & SUSPENDED) != 0;
    uint64_t i = 0;
    for (; i < size / 2 && i + 1 < sizeof name; i++) {
        name[i] = (char)get(image + 2 * i, 2);
    }
    name[i] = 0;
    passed from = {.environment = NULL};
    read_passed(&from, arg(8));
    bytes_at(arg(0), 8), bytes_at(arg(1), 8);
    int program = open_program(name);
    process *parent = in, *child = free_process();
    om_member member;
    if (program < 0 || child == NULL) {
        if (program >= 0) {
            close(program);
        }
        return child == NULL ? STATUS_INSUFFICIENT_RESOURCES : STATUS_OBJECT_NAME_NOT_FOUND;
    }
    uint32_t error = om_child(&om, current->number, inherit, &member);
    thread *first = NULL;
    if (error == OM_SUCCESS) {
        if (!inherit) {
            pass_standard_files(&from, &member);
        }
        first = begin_process(child, member, program, &from);
        in = parent;
    }
    close(program);
    if (first == NULL) {
        return error != OM_SUCCESS ? om_nt_status(error) : STATUS_INVALID_IMAGE_FORMAT;
    }
    first->suspended = suspended ? 1 : 0;
    if (client != 0) {
        put(client, THREAD_NUMBER * (uint64_t)member.process, 8);
        put(client + 8, THREAD_NUMBER * (uint64_t)member.thread, 8);
    }
    if (information != 0) {
        in = child;
        uint8_t head[HEAD];
        memcpy(head, bytes_at(child->image, HEAD), HEAD);
        in = parent;
        image_information(head, child->image, 0, information);
    }
    access[0] = rights_of(OM_HOST(A_PROCESS), access[0]);
    access[1] = rights_of(OM_HOST(A_THREAD), access[1]);
    uint32_t status = answer_handle(arg(0), given(&child->own, access[0], inherits(attributes[0])));
    return status == STATUS_SUCCESS ? answer_handle(arg(1), given(&first->own, access[1], inherits(attributes[1]))) : status;
}
