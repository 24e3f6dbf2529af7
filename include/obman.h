/* The object layer of the NT kernel as Win32 programs see it, without a kernel: processes, threads, handles, events, mutexes,
 * semaphores, timers, names and waits, for programs that run others: emulators, sandboxes, compatibility layers.
 *
 * A manager does nothing by itself. Whoever runs the guests tells it what they do, and is told what comes of it: it has no thread,
 * takes no lock, reads no clock, and never waits. A call in which a guest's thread would wait answers OM_ERROR_IO_PENDING at once,
 * with the wait's number; om_take_answered says later which waits have ended, and how.
 *
 * Rules of use
 *
 * - One call at a time. Calls for one manager come from any thread, but one after another: keep a lock of your own around them.
 *   Different managers have nothing in common.
 * - om_new, om_new_reusing, om_new_with or om_load makes a manager and om_free ends it. In between an om_manager may be copied and moved:
 *   each copy is the same manager. A manager that was freed, or that none of them made, is as a pointer that was freed: passing it is undefined. But
 *   om_free of an om_manager of all zeros, and om_reader_free of an om_reader of all zeros, do nothing, so that one way out serves.
 * - A reader (om_reader_new) pins objects on any thread without that lock, beside calls for the manager and for other readers. It is
 *   given to one call at a time, and passed from thread to thread by a lock or a join; om_inspect takes it with the manager that it
 *   was made from. om_reader_free ends it, before the manager's end or after.
 * - A bool that is passed is 0 or 1, in a struct too. No pointer is null, not even for a name or a list of length 0 ("" will do). What a call writes to doesn't overlap with
 *   anything else that it is given. Nothing that is passed is kept: it is yours again once the call has returned.
 * - Each call but om_free, om_reader_free and the questions that have always an answer answers with 0 (OM_SUCCESS) or the number that the Win32 function leaves
 *   for GetLastError. What it writes is written with 0, and else only where its text says so. A refused call changes nothing, but
 *   that om_duplicate may close its source.
 * - Where a call takes memory and there is none it answers OM_ERROR_NOT_ENOUGH_MEMORY, has changed nothing, and may be made
 *   again. A call whose text doesn't name this number takes no memory, but for its lines where calls are recorded (om_record).
 * - Memory comes from malloc, realloc and free. Call nothing here from a signal handler, nor after fork in a child of a process
 *   with several threads.
 *
 * What a host does beside the calls of its guests
 *
 * - It takes the answers of waits (om_take_answered after each call): until then every call in that thread's name is refused with
 *   OM_ERROR_BUSY.
 * - It takes what ended (om_take_ended): an object that no handle and no pending wait refers to keeps its slot until then, and where
 *   each slot is taken a create is refused with OM_ERROR_NO_SYSTEM_RESOURCES.
 * - It makes the manager by om_new_reusing, whose numbers come back; or it sets the limits to what it needs in the manager's whole
 *   life, since om_new's gives numbers of processes, threads and waits once.
 * - It tells the time (om_advance, at om_next_due), or no timer fires and no wait with a timeout ends.
 *
 * docs/EMBEDDING.md says how a host does that, and what it does for what isn't here.
 *
 * What stays
 *
 * A program that was compiled with this header runs with each later library of the same first number, by its soname: functions, the
 * fields of structs, the values of constants and what a call answers stay. Functions, structs and constants may be added.
 * The library is compiled for x86-64-v2 (SSSE3, SSE4.1 and more, as processors since 2009 have them), and doesn't ask what it runs on.
 *
 * Handles are 4, 8, 12 and so on; their two lowest bits are ignored. Processes, threads and waits have numbers from 1.
 *
 * A name is 1 to 260 bytes of printable ASCII, 0x20 to 0x7E, in which case counts; it need not end in a zero byte, and a host maps other
 * text so. It may begin with Global\, for all sessions, or Local\, as without either for that of the process; session 0 is the global
 * one. The reasons that are given for a name: OM_ERROR_FILENAME_EXCED_RANGE past 260 bytes, the prefix counted in;
 * OM_ERROR_INVALID_PARAMETER for another byte, and for nothing behind the prefix; OM_ERROR_PATH_NOT_FOUND for a further backslash, so
 * for another prefix.
 *
 * Where it is said why a call is refused, the reasons stand in the order in which they are tested. In every call that a guest's
 * thread makes (its second parameter is `thread`; the end of a thread is nobody's call) these come first:
 * OM_ERROR_INVALID_PARAMETER where no such thread lives, and OM_ERROR_BUSY where it waits, or its wait's answer wasn't taken yet.
 */
#ifndef OBMAN_H
#define OBMAN_H

#include <stdbool.h>
#include <stddef.h>
#include <stdint.h>

#ifdef __cplusplus
extern "C" {
#endif

/* Which release this header is of, 1.2.0: two decimal digits each for the second number and the third. */
#define OM_VERSION 10200u

/* What a call answers: the numbers of the Win32 system error codes. */
#define OM_SUCCESS 0u
#define OM_ERROR_FILE_NOT_FOUND 2u
#define OM_ERROR_PATH_NOT_FOUND 3u
#define OM_ERROR_ACCESS_DENIED 5u
#define OM_ERROR_INVALID_HANDLE 6u
#define OM_ERROR_NOT_ENOUGH_MEMORY 8u
#define OM_ERROR_INVALID_DATA 13u
#define OM_ERROR_INVALID_PARAMETER 87u
#define OM_ERROR_INSUFFICIENT_BUFFER 122u
#define OM_ERROR_BUSY 170u
#define OM_ERROR_ALREADY_EXISTS 183u
#define OM_ERROR_FILENAME_EXCED_RANGE 206u
#define OM_ERROR_NO_MORE_ITEMS 259u
#define OM_ERROR_NOT_OWNER 288u
#define OM_ERROR_TOO_MANY_POSTS 298u
#define OM_ERROR_IO_PENDING 997u
#define OM_ERROR_NOT_FOUND 1168u
#define OM_ERROR_NO_SYSTEM_RESOURCES 1450u
#define OM_ERROR_NOT_ENOUGH_QUOTA 1816u

/* Access rights. Each kind of object has the standard rights and SYNCHRONIZE; events, semaphores and timers have MODIFY_STATE too,
 * and an object of the host's own what its type has, of sixteen specific rights. */
#define OM_MODIFY_STATE 0x00000002u
#define OM_DELETE 0x00010000u
#define OM_READ_CONTROL 0x00020000u
#define OM_WRITE_DAC 0x00040000u
#define OM_WRITE_OWNER 0x00080000u
#define OM_SYNCHRONIZE 0x00100000u
#define OM_EVENT_ALL_ACCESS 0x001F0003u
#define OM_SEMAPHORE_ALL_ACCESS 0x001F0003u
#define OM_MUTEX_ALL_ACCESS 0x001F0001u
#define OM_TIMER_ALL_ACCESS 0x001F0003u
#define OM_HOST_ALL_ACCESS 0x001FFFFFu

/* Generic rights, which each call refuses with 5: om_map_access has what they stand for. */
#define OM_GENERIC_ALL 0x10000000u
#define OM_GENERIC_EXECUTE 0x20000000u
#define OM_GENERIC_WRITE 0x40000000u
#define OM_GENERIC_READ 0x80000000u

/* Handle flags, and options of om_duplicate. */
#define OM_HANDLE_FLAG_INHERIT 1u
#define OM_HANDLE_FLAG_PROTECT_FROM_CLOSE 2u
#define OM_DUPLICATE_CLOSE_SOURCE 1u
#define OM_DUPLICATE_SAME_ACCESS 2u

/* How long a wait lasts, and how it ended. */
#define OM_INFINITE 0xFFFFFFFFu
#define OM_FOREVER 0x7FFFFFFFFFFFFFFF
#define OM_MAXIMUM_WAIT_OBJECTS 64u
#define OM_WAIT_OBJECT_0 0u
#define OM_WAIT_ABANDONED_0 128u
#define OM_WAIT_IO_COMPLETION 192u
#define OM_WAIT_TIMEOUT 258u

/* Kinds of objects, with what om_state says of one that has ended, and of one of the host's own of a type from 0 to 255; and what
 * became of a slot. */
#define OM_EVENT 0u
#define OM_MUTEX 1u
#define OM_SEMAPHORE 2u
#define OM_TIMER 3u
#define OM_ENDED 4u
#define OM_HOST(type) (256u + (type))
#define OM_FREED 0u
#define OM_RETIRED 1u
#define OM_HELD 2u

/* The most bytes of a name without its prefix. */
#define OM_NAME_MOST 260u

/* The most bytes of a line that om_take_record hands out, with its line feed. */
#define OM_LINE_MOST 4098u

/* Limits that serve most guests: om_limits limits = OM_LIMITS_DEFAULT; */
#define OM_LIMITS_DEFAULT {64u, 64u, 256u, 1024u, 1000000u, 1073741823u, 4294967295u, 2147483647u}

/* The greatest limits, for a host that runs for long over om_new: numbers of processes, threads and pending waits are given once there, and
 * two guests that wake each other in turn use up a million waits in less than a second. A manager reserves 14 MiB from the start, nearly
 * all for its slots, which come back, and uses some 3 of them while it is new. */
#define OM_LIMITS_MOST {65536u, 65536u, 65536u, 16384u, 4294967295u, 1073741823u, 4294967295u, 2147483647u}

/* The Win32 name of a number that a call answers, or of WAIT_TIMEOUT or WAIT_IO_COMPLETION, for logs; "unknown" for another. */
static inline const char *om_error_name(uint32_t number) {
    switch (number) {
    case OM_SUCCESS: return "ERROR_SUCCESS";
    case OM_ERROR_FILE_NOT_FOUND: return "ERROR_FILE_NOT_FOUND";
    case OM_ERROR_PATH_NOT_FOUND: return "ERROR_PATH_NOT_FOUND";
    case OM_ERROR_ACCESS_DENIED: return "ERROR_ACCESS_DENIED";
    case OM_ERROR_INVALID_HANDLE: return "ERROR_INVALID_HANDLE";
    case OM_ERROR_NOT_ENOUGH_MEMORY: return "ERROR_NOT_ENOUGH_MEMORY";
    case OM_ERROR_INVALID_DATA: return "ERROR_INVALID_DATA";
    case OM_ERROR_INVALID_PARAMETER: return "ERROR_INVALID_PARAMETER";
    case OM_ERROR_INSUFFICIENT_BUFFER: return "ERROR_INSUFFICIENT_BUFFER";
    case OM_ERROR_BUSY: return "ERROR_BUSY";
    case OM_ERROR_ALREADY_EXISTS: return "ERROR_ALREADY_EXISTS";
    case OM_ERROR_FILENAME_EXCED_RANGE: return "ERROR_FILENAME_EXCED_RANGE";
    case OM_WAIT_IO_COMPLETION: return "WAIT_IO_COMPLETION";
    case OM_WAIT_TIMEOUT: return "WAIT_TIMEOUT";
    case OM_ERROR_NO_MORE_ITEMS: return "ERROR_NO_MORE_ITEMS";
    case OM_ERROR_NOT_OWNER: return "ERROR_NOT_OWNER";
    case OM_ERROR_TOO_MANY_POSTS: return "ERROR_TOO_MANY_POSTS";
    case OM_ERROR_IO_PENDING: return "ERROR_IO_PENDING";
    case OM_ERROR_NOT_FOUND: return "ERROR_NOT_FOUND";
    case OM_ERROR_NO_SYSTEM_RESOURCES: return "ERROR_NO_SYSTEM_RESOURCES";
    case OM_ERROR_NOT_ENOUGH_QUOTA: return "ERROR_NOT_ENOUGH_QUOTA";
    default: return "unknown";
    }
}

/* An access mask with the rights of a kind (OM_EVENT, or OM_HOST(type)) in the place of generic ones, as NT maps them: each has READ_CONTROL;
 * to read is to query the state too, which is bit 0; to write, but for a mutex, MODIFY_STATE; to execute, SYNCHRONIZE; and all are all rights of
 * the kind. Of a host's object no right to read or write is known but READ_CONTROL: the host adds its type's own. */
static inline uint32_t om_map_access(uint32_t kind, uint32_t mask) {
    bool is_host = kind > OM_ENDED, has_state = !is_host && kind != OM_MUTEX;
    uint32_t rights = mask & 0x0FFFFFFFu;
    if (mask & (OM_GENERIC_READ | OM_GENERIC_WRITE | OM_GENERIC_EXECUTE)) rights |= OM_READ_CONTROL;
    if (mask & OM_GENERIC_READ && !is_host) rights |= 1u;
    if (mask & OM_GENERIC_WRITE && has_state) rights |= OM_MODIFY_STATE;
    if (mask & OM_GENERIC_EXECUTE) rights |= OM_SYNCHRONIZE;
    if (mask & OM_GENERIC_ALL) rights |= is_host ? OM_HOST_ALL_ACCESS : has_state ? OM_EVENT_ALL_ACCESS : OM_MUTEX_ALL_ACCESS;
    return rights;
}

/* Until when a wait of so many milliseconds lasts, as om_wait_until, om_sleep and om_signal_and_wait take it: OM_FOREVER for OM_INFINITE. */
static inline int64_t om_due_in(uint32_t milliseconds) {
    int64_t units = milliseconds;
    return milliseconds == OM_INFINITE ? OM_FOREVER : -10000 * units;
}

/* The NTSTATUS of a number that a call answers, or of WAIT_TIMEOUT or WAIT_IO_COMPLETION, for a host of native calls; where a number stands for several, the first of
 * the table in docs/EMBEDDING.md. STATUS_UNSUCCESSFUL (C0000001) for a number that no call of a guest is answered with. */
static inline uint32_t om_nt_status(uint32_t number) {
    switch (number) {
    case OM_SUCCESS: return 0x00000000u;
    case OM_ERROR_FILE_NOT_FOUND: return 0xC0000034u;
    case OM_ERROR_PATH_NOT_FOUND: return 0xC000003Au;
    case OM_ERROR_ACCESS_DENIED: return 0xC0000022u;
    case OM_ERROR_INVALID_HANDLE: return 0xC0000008u;
    case OM_ERROR_NOT_ENOUGH_MEMORY: return 0xC0000017u;
    case OM_ERROR_INVALID_PARAMETER: return 0xC000000Du;
    case OM_ERROR_ALREADY_EXISTS: return 0x40000000u;
    case OM_ERROR_FILENAME_EXCED_RANGE: return 0xC0000106u;
    case OM_WAIT_IO_COMPLETION: return 0x000000C0u;
    case OM_WAIT_TIMEOUT: return 0x00000102u;
    case OM_ERROR_NOT_OWNER: return 0xC0000046u;
    case OM_ERROR_TOO_MANY_POSTS: return 0xC0000047u;
    case OM_ERROR_IO_PENDING: return 0x00000103u;
    case OM_ERROR_NO_SYSTEM_RESOURCES: return 0xC000009Au;
    default: return 0xC0000001u;
    }
}

/* (C++ warns of the casts of C) */
#ifdef __cplusplus
#define OM_AS_(type, value) static_cast<type>(value)
#else
#define OM_AS_(type, value) ((type)(value))
#endif

/* A character of UTF-16 as a name may have it, whose bytes are printable ASCII: itself, or % and its number in four hexadecimal digits, so % too, and two
 * names stay two. Writes 1 or 5 bytes, and says how many. */
static inline size_t om_spell(uint16_t character, char *bytes) {
    if (character >= 0x20 && character <= 0x7E && character != '%') return *bytes = OM_AS_(char, character), 1;
    *bytes = '%';
    for (int i = 1; i <= 4; i++) bytes[i] = "0123456789ABCDEF"[character >> (16 - 4 * i) & 15];
    return 5;
}

/* The character that om_spell wrote at the front of bytes, of which there is one at least; says how many bytes it has. */
static inline size_t om_spelled(const char *bytes, size_t length, uint16_t *character) {
    unsigned number = 0;
    if (*bytes == '%' && length >= 5) {
        for (int i = 1; i <= 4; i++) number = number << 4 | OM_AS_(unsigned, bytes[i] <= '9' ? bytes[i] - '0' : bytes[i] - 'A' + 10);
        return *character = OM_AS_(uint16_t, number), 5;
    }
    return *character = OM_AS_(unsigned char, *bytes), 1;
}

/* A manager: a pointer that is its own business. */
typedef struct om_manager {
    void *at;
} om_manager;

/* A reader of a manager's slots: a pointer likewise. */
typedef struct om_reader {
    void *at;
} om_reader;

/* How much a manager may hold. */
typedef struct om_limits {
    uint32_t slots;         /* objects at a time: 1 to 65,536 */
    uint32_t processes;     /* process numbers ever given; by om_new_reusing processes at a time: 1 to 65,536 */
    uint32_t threads;       /* thread numbers ever given; by om_new_reusing threads at a time: 1 to 65,536 */
    uint32_t handles;       /* handles of one process at a time: 1 to 16,384 */
    uint32_t waits;         /* numbers of pending waits ever given: 1 to 4,294,967,295; by om_new_reusing it limits nothing */
    uint32_t max_pins;      /* pins of one slot: 1 to 1,073,741,823 */
    uint32_t max_gen;       /* the last generation of a slot: 1 to 4,294,967,295 */
    uint32_t max_recursion; /* how often a thread may own a mutex: 1 to 2,147,483,647 */
} om_limits;

/* What can still come before a call is refused with OM_ERROR_NO_SYSTEM_RESOURCES for want of it. */
typedef struct om_room {
    uint32_t slots;         /* vacant slots: so many objects can be made before one is taken back (om_take_ended) */
    uint32_t processes;     /* process numbers */
    uint32_t threads;       /* thread numbers, of which each new process takes one */
    uint32_t handles;       /* handles of one process */
    uint32_t waits;         /* wait numbers; 0xFFFFFFFF where they come back, which is without end */
} om_room;

/* A process and a thread of it. */
typedef struct om_member {
    uint32_t process;
    uint32_t thread;
} om_member;

/* An object for its whole life: its slot, from 0, and the slot's generation, from 1. No two objects have both the same. */
typedef struct om_object {
    uint32_t slot;
    uint32_t generation;
} om_object;

/* A handle and the object that it names. */
typedef struct om_opening {
    uint32_t handle;
    om_object object;
} om_opening;

/* What a create asks for. All zeros ask for no name, a handle that isn't inherited, and all rights. A name without `named`, and rights
 * without `has_access` or `has_grant`, count for nothing, and no call says so: om_named and the four below it set what belongs together.
 * Who fills it by hand begins with = {0}, since a bool that is neither 0 nor 1 is undefined. */
typedef struct om_making {
    uint32_t access;  /* the rights of the handle, with has_access */
    uint32_t grant;   /* the rights that opens of a new object may get, with has_grant */
    bool named;       /* the bytes that come with it are a name; without it they count for nothing */
    bool inherit;     /* children inherit the handle */
    bool has_access;  /* else the handle has all rights of the kind */
    bool has_grant;   /* else opens may get all rights of the kind */
} om_making;

/* A create of a name: the bytes that come with it. */
static inline om_making om_named(void) {
    om_making made = {0, 0, true, false, false, false};
    return made;
}

/* A create whose handle children inherit. */
static inline om_making om_inherited(void) {
    om_making made = {0, 0, false, true, false, false};
    return made;
}

/* A create whose handle has these rights. */
static inline om_making om_with_access(uint32_t access) {
    om_making made = {0, 0, false, false, true, false};
    made.access = access;
    return made;
}

/* A create of an object whose opens may get these rights, and no others. */
static inline om_making om_with_grant(uint32_t grant) {
    om_making made = {0, 0, false, false, false, true};
    made.grant = grant;
    return made;
}

/* What both ask for: om_both(om_named(), om_with_access(OM_SYNCHRONIZE)). Where both have rights it is those of both. */
static inline om_making om_both(om_making one, om_making other) {
    one.access |= other.access;
    one.grant |= other.grant;
    one.named = one.named || other.named;
    one.inherit = one.inherit || other.inherit;
    one.has_access = one.has_access || other.has_access;
    one.has_grant = one.has_grant || other.has_grant;
    return one;
}

/* What an object was created as. */
typedef struct om_description {
    uint32_t kind;    /* OM_EVENT, OM_MUTEX, OM_SEMAPHORE or OM_TIMER; an object of the host's own is told as an event */
    uint32_t max;     /* of a semaphore; else 0 */
    uint32_t grant;   /* the rights that opens may get */
    bool manual;      /* an event that is reset by hand, or a timer that stays signaled */
} om_description;

/* What never changes of an object, as a reader reads it without the manager's lock. */
typedef struct om_descriptor {
    uint32_t kind;    /* OM_EVENT, OM_MUTEX, OM_SEMAPHORE or OM_TIMER; an object of the host's own is told as an event */
    uint32_t max;     /* of a semaphore; else 0 */
    bool manual;      /* an event that is reset by hand, or a timer that stays signaled */
} om_descriptor;

/* What state an object is in. What its kind hasn't is 0. */
typedef struct om_object_state {
    uint64_t due;     /* the moment at which a timer is due, in units of 100 ns, with has_due */
    uint32_t kind;    /* OM_EVENT, OM_MUTEX, OM_SEMAPHORE, OM_TIMER or OM_HOST(type); OM_ENDED where no handle and no pending wait refers to it */
    uint32_t count;   /* of a semaphore; of a mutex how often its owner owns it */
    uint32_t max;     /* of a semaphore */
    uint32_t owner;   /* the thread that owns a mutex, or 0 */
    bool signaled;    /* an event or a host's object is set, a mutex isn't owned, a semaphore has a count, a timer's moment has come */
    bool abandoned;   /* the last owner of a mutex ended, and nobody has acquired it since */
    bool has_due;     /* a timer is set for a moment to come */
} om_object_state;

/* A handle with what it names. */
typedef struct om_entry {
    om_object object;
    uint32_t handle;
    uint32_t access;   /* the rights that it grants */
    uint32_t flags;    /* OM_HANDLE_FLAG_INHERIT and OM_HANDLE_FLAG_PROTECT_FROM_CLOSE */
} om_entry;

/* What a handle names, with what the host keeps there. */
typedef struct om_handle_info {
    uint64_t data;     /* of om_set_object_data, or 0 */
    om_object object;
    uint32_t kind;     /* OM_EVENT, OM_MUTEX, OM_SEMAPHORE, OM_TIMER or OM_HOST(type) */
    uint32_t access;   /* the rights that the handle grants */
    uint32_t flags;    /* OM_HANDLE_FLAG_INHERIT and OM_HANDLE_FLAG_PROTECT_FROM_CLOSE */
    uint32_t reserved; /* 0 */
} om_handle_info;

/* What became of a slot. */
typedef struct om_reaping {
    om_object object;  /* what was in it */
    uint32_t outcome;  /* OM_FREED, OM_RETIRED or OM_HELD */
    uint32_t pins;     /* how many pins hold it; else 0 */
} om_reaping;

/* What refers to an object. */
typedef struct om_references {
    uint64_t waits;    /* places of pending waits */
    uint32_t handles;
    uint32_t hold;     /* 1 where there is neither, else 0 */
} om_references;

/* The answer of a wait: the thread that waited may make calls again. */
typedef struct om_answer {
    uint32_t wait;     /* its number; the thread's, where numbers come back */
    uint32_t thread;
    uint32_t code;     /* OM_WAIT_OBJECT_0 and an index, OM_WAIT_ABANDONED_0 and an index, OM_WAIT_TIMEOUT or OM_WAIT_IO_COMPLETION */
} om_answer;

/* What a pending wait is for, but for its objects. */
typedef struct om_pending {
    uint64_t deadline; /* the moment at which its time is up, in units of 100 ns, with has_deadline */
    uint32_t thread;   /* the thread that waits */
    bool all;          /* all objects together satisfy it, else each of them */
    bool has_deadline; /* else it lasts until it is satisfied */
} om_pending;

/* A row of the directory of names. */
typedef struct om_row {
    om_object object;
    uint32_t session;  /* whose namespace the name is in; 0 for the global one */
    uint32_t length;   /* how many bytes the name has without its prefix */
} om_row;

/* ---- A manager ---- */

/* Makes a manager with no process, and writes it to *m, whatever stood there. It gives each number of a process, a thread and a wait once.
 * OM_ERROR_INVALID_PARAMETER for a limit out of its range; OM_ERROR_NOT_ENOUGH_MEMORY. */
uint32_t om_new(const om_limits *limits, om_manager *m);

/* The same, and the manager's numbers come back. A new process or thread has the least number that no live one has, and the limits
 * processes and threads are of those that live at a time. A wait is called by the number of its thread, which has one wait at a time: that
 * is the number that om_wait tells with OM_ERROR_IO_PENDING. No wait is refused for want of a number: the limit waits has to be in its
 * range and limits nothing.
 *
 * A number isn't given again before the host was told that it is free: a thread's by the answer of om_end_thread or, with its process, of
 * om_exit; a process's by that of om_exit, or of om_end_thread for its last live thread; a wait's when its answer is taken, or by the end of
 * its thread. From then on a call in the name of the number is one of whoever has it now. So a host that ends a thread tells those that may
 * still make calls for it; and one that keeps deadlines of its own by wait drops that of a wait when it takes its answer, since a late
 * om_expire ends the thread's next wait (the deadlines of om_wait, by om_tick, need no such care).
 * OM_ERROR_INVALID_PARAMETER for a limit out of its range; OM_ERROR_NOT_ENOUGH_MEMORY. */
uint32_t om_new_reusing(const om_limits *limits, om_manager *m);

/* The same, with two ways that a manager has for its whole life, in its savestates too: `reuse` is whether its numbers come back, and
 * `repeats` whether a handle may stand twice in a wait for any, as NT takes it and thread pools do it: then the least place that is
 * signaled is told. Without it such a wait is refused with OM_ERROR_INVALID_PARAMETER, as a wait for all with a handle twice always is.
 * OM_ERROR_INVALID_PARAMETER for a limit out of its range; OM_ERROR_NOT_ENOUGH_MEMORY. */
uint32_t om_new_with(const om_limits *limits, bool reuse, bool repeats, om_manager *m);

/* Ends a manager and gives its memory back. Of all zeros, as in om_manager m = {0}, there is nothing to end. */
void om_free(om_manager m);

/* The limits of a manager: those that it was made with, also where it was saved and loaded since. It answers always 0. */
uint32_t om_limits_of(om_manager *m, om_limits *limits);

/* What can still come, for a host that warns or makes room before calls are refused: slots, numbers, and handles of a process (of 0, or another
 * that isn't live: none). It takes constant time, and answers always 0. */
uint32_t om_room_of(om_manager *m, uint32_t process, om_room *room);

/* ---- Processes and threads ---- */

/* A guest's process begins in a session, with its first thread (CreateProcess, by nobody's process). A session is any number: 1 will
 * do for guests that are one user's.
 * OM_ERROR_NO_SYSTEM_RESOURCES where no process number or no thread number is left; OM_ERROR_NOT_ENOUGH_MEMORY. */
uint32_t om_spawn(om_manager *m, uint32_t session, om_member *member);

/* A thread begins a process of its own process's session (CreateProcess). With `inherit` the new process has each inheritable
 * handle of the thread's process, at the same value and with the same rights and flags (bInheritHandles).
 * OM_ERROR_NO_SYSTEM_RESOURCES where no process number or no thread number is left; OM_ERROR_NOT_ENOUGH_MEMORY. */
uint32_t om_child(om_manager *m, uint32_t thread, bool inherit, om_member *member);

/* A thread begins in a process (CreateThread).
 * OM_ERROR_INVALID_PARAMETER where no such process lives; OM_ERROR_NO_SYSTEM_RESOURCES where no thread number is left;
 * OM_ERROR_NOT_ENOUGH_MEMORY. */
uint32_t om_thread(om_manager *m, uint32_t process, uint32_t *thread);

/* A thread ends, whether it waits or not (ExitThread, TerminateThread): its wait is dropped, or its answer, though what that took stays
 * taken; its mutexes are abandoned; and with its last thread a process ends, as om_next_thread from 0 tells then by 0.
 * OM_ERROR_INVALID_PARAMETER where no such thread lives. */
uint32_t om_end_thread(om_manager *m, uint32_t thread);

/* A process ends (ExitProcess, TerminateProcess): its threads end, then its handles are closed, protected ones too.
 * OM_ERROR_INVALID_PARAMETER where no such process lives. */
uint32_t om_exit(om_manager *m, uint32_t process);

/* ---- Objects ---- */

/* A new event and a handle to it (CreateEvent, CreateEventEx). `manual`: it stays set until it is reset. `set`: it begins so.
 * Where an event has the name already the handle is to that one, *opening is written too, and the answer is OM_ERROR_ALREADY_EXISTS.
 * OM_ERROR_INVALID_PARAMETER for a grant with a right that events haven't; for the name OM_ERROR_FILENAME_EXCED_RANGE,
 * OM_ERROR_INVALID_PARAMETER or OM_ERROR_PATH_NOT_FOUND; OM_ERROR_INVALID_HANDLE where an object of another kind has it;
 * OM_ERROR_ACCESS_DENIED for rights that events haven't, or that the object's grant doesn't allow; OM_ERROR_NO_SYSTEM_RESOURCES
 * where the process has each handle or each slot has an object; OM_ERROR_NOT_ENOUGH_MEMORY. */
uint32_t om_create_event(om_manager *m, uint32_t thread, const om_making *making, const char *name, size_t length, bool manual,
                         bool set, om_opening *opening);

/* A new mutex and a handle to it, as om_create_event makes an event (CreateMutex, CreateMutexEx). `owned`: the thread owns a new
 * one once. */
uint32_t om_create_mutex(om_manager *m, uint32_t thread, const om_making *making, const char *name, size_t length, bool owned,
                         om_opening *opening);

/* A new semaphore and a handle to it, as om_create_event makes an event (CreateSemaphore, CreateSemaphoreEx).
 * OM_ERROR_INVALID_PARAMETER too for a maximum of 0 or less, and for a count below 0 or above the maximum. */
uint32_t om_create_semaphore(om_manager *m, uint32_t thread, const om_making *making, const char *name, size_t length,
                             int32_t initial, int32_t max, om_opening *opening);

/* A new timer and a handle to it, as om_create_event makes an event (CreateWaitableTimer, CreateWaitableTimerEx). It isn't
 * signaled and isn't set. Once signaled, one that is `manual` stays so until it is set again, another until it satisfies a wait. */
uint32_t om_create_timer(om_manager *m, uint32_t thread, const om_making *making, const char *name, size_t length, bool manual,
                         om_opening *opening);

/* A new object of the host's own, such as a thread, a process, a file or a section, and a handle to it, as om_create_event makes an
 * event. `object_type` is the host's to choose. `manual`: it stays signaled until the host resets it, as a thread or a process that
 * has ended does; else the wait that it satisfies resets it. `signaled`: it begins so. What the type has of rights the host says by
 * making->access and making->grant (OM_HOST_ALL_ACCESS, unless they are given). Guests wait for it, close, duplicate and inherit it
 * as they do events; by name it is opened by om_open_host alone, with its type, and no call for another kind takes it. */
uint32_t om_create_host(om_manager *m, uint32_t thread, const om_making *making, const char *name, size_t length,
                        uint8_t object_type, bool manual, bool signaled, om_opening *opening);

/* A handle to the event of a name (OpenEvent).
 * For the name OM_ERROR_FILENAME_EXCED_RANGE, OM_ERROR_INVALID_PARAMETER or OM_ERROR_PATH_NOT_FOUND; OM_ERROR_FILE_NOT_FOUND
 * where no object has it; OM_ERROR_INVALID_HANDLE where an object of another kind has it; OM_ERROR_ACCESS_DENIED for no rights,
 * and for one that the object's grant hasn't; OM_ERROR_NO_SYSTEM_RESOURCES where the process has each handle;
 * OM_ERROR_NOT_ENOUGH_MEMORY. */
uint32_t om_open_event(om_manager *m, uint32_t thread, uint32_t access, bool inherit, const char *name, size_t length,
                       om_opening *opening);

/* The same of a mutex (OpenMutex). */
uint32_t om_open_mutex(om_manager *m, uint32_t thread, uint32_t access, bool inherit, const char *name, size_t length,
                       om_opening *opening);

/* The same of a semaphore (OpenSemaphore). */
uint32_t om_open_semaphore(om_manager *m, uint32_t thread, uint32_t access, bool inherit, const char *name, size_t length,
                           om_opening *opening);

/* The same of a timer (OpenWaitableTimer). */
uint32_t om_open_timer(om_manager *m, uint32_t thread, uint32_t access, bool inherit, const char *name, size_t length,
                       om_opening *opening);

/* The same of an object of the host's own: OM_ERROR_INVALID_HANDLE too where it has another type. */
uint32_t om_open_host(om_manager *m, uint32_t thread, uint8_t object_type, uint32_t access, bool inherit, const char *name,
                      size_t length, om_opening *opening);

/* ---- Handles ---- */

/* A handle of the process `target` to what a handle of the process `source` names (DuplicateHandle). With the option
 * OM_DUPLICATE_SAME_ACCESS it has the source's rights, and `access` counts for nothing. With OM_DUPLICATE_CLOSE_SOURCE the
 * source is closed once it was found, whatever the answer is but OM_ERROR_NOT_ENOUGH_MEMORY, unless it is protected. With the
 * target 0 there is no new handle, nothing is written, and the source alone is closed.
 * OM_ERROR_INVALID_PARAMETER where the source process isn't live, for another option, and for no target without
 * OM_DUPLICATE_CLOSE_SOURCE; OM_ERROR_INVALID_HANDLE where there is no such handle, and without a target for a protected one;
 * OM_ERROR_INVALID_PARAMETER where the target isn't live; OM_ERROR_ACCESS_DENIED for a right that neither the source has nor the
 * object's grant; OM_ERROR_NO_SYSTEM_RESOURCES where the target has each handle; OM_ERROR_NOT_ENOUGH_MEMORY, with a target. */
uint32_t om_duplicate(om_manager *m, uint32_t thread, uint32_t source, uint32_t handle, uint32_t target, uint32_t access,
                      bool inherit, uint32_t options, om_opening *opening);

/* Closes a handle of the thread's process (CloseHandle). With its last handle an object's name is free again; with its last
 * reference the object ends.
 * OM_ERROR_INVALID_HANDLE where there is no such handle, and for a protected one. */
uint32_t om_close(om_manager *m, uint32_t thread, uint32_t handle);

/* A handle's flags (GetHandleInformation).
 * OM_ERROR_INVALID_HANDLE where there is no such handle. */
uint32_t om_handle_flags(om_manager *m, uint32_t thread, uint32_t handle, uint32_t *flags);

/* The flags in the mask become what they are in `flags` (SetHandleInformation).
 * OM_ERROR_INVALID_PARAMETER for a mask with another bit; OM_ERROR_INVALID_HANDLE where there is no such handle. */
uint32_t om_set_handle_flags(om_manager *m, uint32_t thread, uint32_t handle, uint32_t mask, uint32_t flags);

/* What a handle of a process names. No guest asks it: it is for whoever runs them.
 * OM_ERROR_INVALID_PARAMETER where no such process lives; OM_ERROR_INVALID_HANDLE where there is no such handle. */
uint32_t om_resolve(om_manager *m, uint32_t process, uint32_t handle, om_object *object);

/* ---- Events, semaphores, mutexes, and objects of the host's own ---- */

/* Sets an event, and lets who waits for it go on (SetEvent).
 * OM_ERROR_INVALID_HANDLE where there is no such handle or it is no event's; OM_ERROR_ACCESS_DENIED without OM_MODIFY_STATE. */
uint32_t om_set_event(om_manager *m, uint32_t thread, uint32_t handle);

/* Resets an event (ResetEvent). It is refused as om_set_event is. */
uint32_t om_reset_event(om_manager *m, uint32_t thread, uint32_t handle);

/* Sets an event, and resets it (PulseEvent): who waits for it may go on, one of them where it isn't reset by hand. It is refused as
 * om_set_event is. */
uint32_t om_pulse_event(om_manager *m, uint32_t thread, uint32_t handle);

/* Raises a semaphore's count, and says what it was (ReleaseSemaphore).
 * OM_ERROR_INVALID_PARAMETER for a count of 0 or less; OM_ERROR_INVALID_HANDLE where there is no such handle or it is no
 * semaphore's; OM_ERROR_ACCESS_DENIED without OM_MODIFY_STATE; OM_ERROR_TOO_MANY_POSTS where the maximum would be passed. */
uint32_t om_release_semaphore(om_manager *m, uint32_t thread, uint32_t handle, int32_t count, uint32_t *previous);

/* Releases a mutex once (ReleaseMutex).
 * OM_ERROR_INVALID_HANDLE where there is no such handle or it is no mutex's; OM_ERROR_NOT_OWNER where the thread doesn't own
 * it. */
uint32_t om_release_mutex(om_manager *m, uint32_t thread, uint32_t handle);

/* Signals an object of the host's own, and lets who waits for it go on; or resets it. The host names the object itself, so it needs no
 * handle, no thread and no right.
 * OM_ERROR_INVALID_HANDLE where no object of the host's own has this slot and generation, or it has ended. */
uint32_t om_signal_host(om_manager *m, uint32_t slot, uint32_t generation, bool signaled);

/* ---- Timers, and the time ---- */

/* Sets a timer (SetWaitableTimer). `due` is a moment in units of 100 ns, or below 0 so many units from now. The timer isn't
 * signaled until then; where the moment isn't after now it is at once, and lets who waits for it go on.
 * OM_ERROR_INVALID_HANDLE where there is no such handle or it is no timer's; OM_ERROR_ACCESS_DENIED without OM_MODIFY_STATE. */
uint32_t om_set_timer(om_manager *m, uint32_t thread, uint32_t handle, int64_t due);

/* The same with a period in milliseconds (of 10,000 units each), 0 for none: each time its moment comes the timer is signaled, and due again
 * at the first moment after now that lies whole periods behind `due`; where several have passed it is signaled once. So it lasts until it
 * is set anew or cancelled, or ends. OM_ERROR_INVALID_PARAMETER for a period below 0; else it is refused as om_set_timer is. */
uint32_t om_set_periodic_timer(om_manager *m, uint32_t thread, uint32_t handle, int64_t due, int32_t period);

/* Takes a timer's moment away, and its period; it stays as signaled as it is (CancelWaitableTimer). It is refused as om_set_timer is. */
uint32_t om_cancel_timer(om_manager *m, uint32_t thread, uint32_t handle);

/* It is this moment now, in units of 100 ns; a new manager's is 0. Each timer that is due is signaled and lets who waits for it go
 * on, and then each pending wait whose time is up is answered with OM_WAIT_TIMEOUT.
 * OM_ERROR_INVALID_PARAMETER for a moment before that of the last tick, or above 9,223,372,036,854,775,807. */
uint32_t om_tick(om_manager *m, uint64_t now);

/* It is this moment now, and time has passed without a jump: as many om_tick as there are moments before it at which something is due, in
 * their order, and one to it. So a wait whose time was up before a timer fired is answered with OM_WAIT_TIMEOUT, where one om_tick
 * would have let the timer satisfy it. Who is answered makes no call before all of these are done: a guest that shall run between two
 * such moments needs an om_tick to each. A record has each of them as a line.
 * It is refused as om_tick to that moment is, and then nothing has changed. */
uint32_t om_advance(om_manager *m, uint64_t now);

/* The next moment at which something is due: the least of those of all set timers and of the deadlines of all pending waits that a tick
 * can reach, which is after now; however many there are, it is known at once. A tick to an earlier moment wakes nobody. What is due
 * behind the last moment (a timer that was set for so many units from now, a deadline) never comes.
 * OM_ERROR_NO_MORE_ITEMS where nothing is due that a tick can reach. */
uint32_t om_next_due(om_manager *m, uint64_t *moment);

/* ---- Waits ---- */

/* A thread waits for any or all of 1 to 64 objects (WaitForSingleObject, WaitForMultipleObjects), for so many milliseconds. Where
 * the wait is satisfied at once, the thread has what satisfies it, the answer is 0, and *answer is the wait's code: for any,
 * OM_WAIT_OBJECT_0 and the index of the object, or OM_WAIT_ABANDONED_0 and it where that is an abandoned mutex; for all,
 * OM_WAIT_OBJECT_0, or OM_WAIT_ABANDONED_0 where one is an abandoned mutex. Else, for 0 milliseconds, the answer is 0 and *answer
 * OM_WAIT_TIMEOUT; and for others the answer is OM_ERROR_IO_PENDING and *answer the wait's number, which is its thread's where
 * numbers come back: it lasts until a tick to the moment so many milliseconds (of 10,000 units each) from now, and for OM_INFINITE
 * until it is satisfied. A pending wait keeps its objects; until its answer is taken (om_take_answered, om_wait_result) its thread
 * makes no other call.
 * OM_ERROR_INVALID_PARAMETER for no handle, more than 64, or one that stands twice (but by om_new_with); OM_ERROR_INVALID_HANDLE where
 * there is no such handle; OM_ERROR_ACCESS_DENIED without OM_SYNCHRONIZE; OM_ERROR_INVALID_PARAMETER where a wait for all is for one object twice;
 * OM_ERROR_NO_SYSTEM_RESOURCES for a mutex that the thread owns as often as it may, and where the wait would be pending and no
 * wait number is left, which is never so where numbers come back; OM_ERROR_NOT_ENOUGH_MEMORY where it would be pending. */
uint32_t om_wait(om_manager *m, uint32_t thread, bool all, uint32_t milliseconds, const uint32_t *handles, size_t count,
                 uint32_t *answer);

/* The same until a moment: `due` is one in units of 100 ns, or below 0 so many units from now, and OM_FOREVER is for good. Where the moment
 * isn't after now the wait never becomes pending, as for 0 milliseconds (NtWaitForMultipleObjects). It is refused as om_wait is. */
uint32_t om_wait_until(om_manager *m, uint32_t thread, bool all, int64_t due, const uint32_t *handles, size_t count, uint32_t *answer);

/* Signals the object of one handle and waits for that of another until such a moment, as one call (SignalObjectAndWait): an event is set, a
 * semaphore raised by 1, a mutex released. It is answered as om_wait is, for one object; the wait stands behind those that stood before
 * the signal was given, and takes a number though it is satisfied at once. All that may refuse is looked at before anything changes:
 * OM_ERROR_INVALID_HANDLE where there is no handle `signal`, or none `handle`; OM_ERROR_ACCESS_DENIED where that lacks OM_SYNCHRONIZE;
 * OM_ERROR_INVALID_HANDLE where the object to signal is no event, semaphore or mutex; OM_ERROR_ACCESS_DENIED without OM_MODIFY_STATE for an
 * event or a semaphore; OM_ERROR_TOO_MANY_POSTS where the count would pass the maximum; OM_ERROR_NOT_OWNER where the thread doesn't own
 * the mutex; OM_ERROR_NO_SYSTEM_RESOURCES for a mutex to wait for that the thread owns as often as it may, before the call, and where no
 * wait number is left; OM_ERROR_NOT_ENOUGH_MEMORY. */
uint32_t om_signal_and_wait(om_manager *m, uint32_t thread, uint32_t signal, uint32_t handle, int64_t due, uint32_t *answer);

/* Waits for nothing until such a moment (Sleep, NtDelayExecution): 0 with OM_WAIT_TIMEOUT where it isn't after now; else
 * OM_ERROR_IO_PENDING with the wait's number, and its answer is OM_WAIT_TIMEOUT then.
 * OM_ERROR_NO_SYSTEM_RESOURCES where no wait number is left; OM_ERROR_NOT_ENOUGH_MEMORY where it would be pending. */
uint32_t om_sleep(om_manager *m, uint32_t thread, int64_t due, uint32_t *answer);

/* Takes a wait's answer: 0 with its code, and the wait is over; or OM_ERROR_IO_PENDING with its number.
 * OM_ERROR_INVALID_PARAMETER where there is no such wait. */
uint32_t om_wait_result(om_manager *m, uint32_t wait, uint32_t *answer);

/* Takes the answers of waits that were answered, in the order in which the waits began: each is one om_wait_result, so the wait is over.
 * `capacity` places stand at `answers`, and *count says how many were written. Where that is all of them there may be more, and the
 * next call goes on. What it does grows with the answers alone, however many waits are pending. It answers always 0. */
uint32_t om_take_answered(om_manager *m, om_answer *answers, size_t capacity, size_t *count);

/* A pending wait's time is up: its answer is OM_WAIT_TIMEOUT. Where numbers come back that is the wait which the thread of this number
 * has now.
 * OM_ERROR_INVALID_PARAMETER where no such wait is pending. */
uint32_t om_expire(om_manager *m, uint32_t wait);

/* A pending wait ends for what was queued to its thread, as an alertable one does: its answer is OM_WAIT_IO_COMPLETION. Which waits are
 * alertable the host knows; what it queues (QueueUserAPC) is its own. It is refused as om_expire is. */
uint32_t om_alert(om_manager *m, uint32_t wait);

/* ---- For whoever runs the guests ---- */

/* What an object was created as, until its slot is taken back.
 * OM_ERROR_INVALID_HANDLE where there is no such object. */
uint32_t om_card(om_manager *m, uint32_t slot, uint32_t generation, om_description *description);

/* What state an object is in, until its slot is taken back; nothing is changed (NtQueryEvent, NtQueryMutant, NtQuerySemaphore,
 * NtQueryTimer).
 * OM_ERROR_INVALID_HANDLE where there is no such object. */
uint32_t om_state(om_manager *m, uint32_t slot, uint32_t generation, om_object_state *state);

/* The same of what a handle of a process names: in front of a call also what NtSetEvent, NtResetEvent, NtReleaseMutant, NtSetTimer and
 * NtCancelTimer tell of the state before, for a mutex 1 less its count.
 * OM_ERROR_INVALID_PARAMETER where no such process lives; OM_ERROR_INVALID_HANDLE where there is no such handle. */
uint32_t om_handle_state(om_manager *m, uint32_t process, uint32_t handle, om_object_state *state);

/* What a handle of a process names, and what it grants.
 * OM_ERROR_INVALID_PARAMETER where no such process lives; OM_ERROR_INVALID_HANDLE where there is no such handle. */
uint32_t om_handle(om_manager *m, uint32_t process, uint32_t handle, om_entry *entry);

/* What a handle of a process names in one call, as for a call of the host's own on it (WriteFile, GetExitCodeThread): with its kind, and
 * with what the host keeps at the object.
 * OM_ERROR_INVALID_PARAMETER where no such process lives; OM_ERROR_INVALID_HANDLE where there is no such handle. */
uint32_t om_query_handle(om_manager *m, uint32_t process, uint32_t handle, om_handle_info *info);

/* What the host keeps at each object, thread and process: 64 bits of its own, such as a pointer or a place of a table, at which the
 * library never looks. They are 0 at first. To set one takes memory up to the highest slot or number at which something is kept.
 * OM_ERROR_INVALID_HANDLE where there is no such object, or its slot was taken back; OM_ERROR_INVALID_PARAMETER where no such thread or
 * process lives; OM_ERROR_NOT_ENOUGH_MEMORY. */
uint32_t om_set_object_data(om_manager *m, uint32_t slot, uint32_t generation, uint64_t data);
uint32_t om_set_thread_data(om_manager *m, uint32_t thread, uint64_t data);
uint32_t om_set_process_data(om_manager *m, uint32_t process, uint64_t data);

/* What was kept there, or 0. It may still be asked of an object that om_take_ended has just told, and of a thread or process that has
 * ended: until something is kept at a later object of the slot, and until the number comes back. */
uint64_t om_object_data(om_manager *m, uint32_t slot, uint32_t generation);
uint64_t om_thread_data(om_manager *m, uint32_t thread);
uint64_t om_process_data(om_manager *m, uint32_t process);

/* Walks over all that there is: begin with 0, go on with what was found (behind a slot: with the next one).
 * OM_ERROR_NO_MORE_ITEMS behind the last. */
uint32_t om_next_object(om_manager *m, uint32_t from, om_object *object);                          /* from a slot on */
uint32_t om_next_handle(om_manager *m, uint32_t process, uint32_t after, om_entry *entry);         /* a process's handles */

/* The session of a process.
 * OM_ERROR_INVALID_PARAMETER where no such process lives. */
uint32_t om_session_of(om_manager *m, uint32_t process, uint32_t *session);

/* What a pending wait is for: its thread, whether all objects together satisfy it, its deadline, and the objects in the order of the
 * handles, so that the code of a wait for any counts in them. `capacity` places stand at `objects`, and *count says how many the wait
 * has, 1 to 64, or 0 where it is om_sleep's: OM_MAXIMUM_WAIT_OBJECTS places are always enough. Nothing is changed.
 * OM_ERROR_INVALID_PARAMETER where no such wait is pending; OM_ERROR_INSUFFICIENT_BUFFER where the objects don't fit: then *pending
 * and *count are written, and no object. */
uint32_t om_objects_waited_for(om_manager *m, uint32_t wait, om_pending *pending, om_object *objects, size_t capacity, size_t *count);

/* What refers to an object.
 * OM_ERROR_INVALID_PARAMETER where there is no such slot; OM_ERROR_INVALID_HANDLE where it has no such object. */
uint32_t om_counts(om_manager *m, uint32_t slot, uint32_t generation, om_references *references);

/* Takes the slot of an object that nothing refers to back, for objects to come, unless somebody pins it.
 * OM_ERROR_INVALID_PARAMETER where there is no such slot; OM_ERROR_INVALID_HANDLE where it has no such object. */
uint32_t om_reap(om_manager *m, uint32_t slot, om_reaping *reaping);

/* Takes back the slots of all objects that nothing refers to, by rising slot: each is one om_reap, and those that somebody pins are told
 * too, once in each call: so don't repeat it until there is nothing left. `capacity` places stand at `reapings`, and *count says how many
 * were written; where that is all of them, what is behind the last is for the next call, which needs more places than there are pinned
 * objects to come to it. A reader pins 16 at most. It answers always 0. */
uint32_t om_take_ended(om_manager *m, om_reaping *reapings, size_t capacity, size_t *count);

/* A row of the directory, which has the names in the order in which their objects were made. The name is written without its
 * prefix and with no zero byte behind it; `capacity` bytes stand at `name`, and OM_NAME_MOST are always enough.
 * OM_ERROR_NO_MORE_ITEMS behind the last row; OM_ERROR_INSUFFICIENT_BUFFER where the name doesn't fit, and the row is written. Constant
 * time, but for the first call behind the removal of a name, which takes a time that grows with the number of names. */
uint32_t om_directory_at(om_manager *m, size_t at, char *name, size_t capacity, om_row *row);

/* What has a name in a session, without an open: what om_query_handle tells of a handle with all rights that an open can get (those that
 * MAXIMUM_ALLOWED asks for) and no flags. It takes constant time, however many names there are.
 * For the name OM_ERROR_FILENAME_EXCED_RANGE, OM_ERROR_INVALID_PARAMETER or OM_ERROR_PATH_NOT_FOUND; OM_ERROR_FILE_NOT_FOUND
 * where no object has it. */
uint32_t om_find(om_manager *m, uint32_t session, const char *name, size_t length, om_handle_info *info);

/* The name of an object, written as om_directory_at writes it (NtQueryObject). An object loses its name with its last handle: the row of
 * one that has none says the session 0 and the length 0. Constant time.
 * OM_ERROR_INVALID_HANDLE where there is no such object; OM_ERROR_INSUFFICIENT_BUFFER where the name doesn't fit, and the row is written. */
uint32_t om_name_of(om_manager *m, uint32_t slot, uint32_t generation, char *name, size_t capacity, om_row *row);

/* Records each call from now on that a line of a script can make (docs/FORMATS.md), or no more: all that changes something, om_counts
 * and om_handle_flags, and each wait and slot that om_take_answered and om_take_ended take. A manager begins with it off. Where memory is wanting for a line the recording stops behind
 * the line "# recording stopped: no memory", and the call answers as ever. What was recorded stays until it is taken.
 * OM_ERROR_NOT_ENOUGH_MEMORY, where `on`: then it is as it was. */
uint32_t om_record(om_manager *m, bool on);

/* Takes what was recorded since, whole lines only, as many as `capacity` bytes at `lines` have room for: *written says how many bytes. A
 * call is the line of a script that asks for it (docs/FORMATS.md), with its answer behind # in the next line, so that obman replays it
 * under the same limits, with --reuse where numbers come back, --repeats where a handle may stand twice, and --more where objects of the
 * host's own are asked for; where a line can't make the call again it stands behind # too. Repeat it until *written is 0.
 * OM_ERROR_INSUFFICIENT_BUFFER where lines are left and not one fits, with 0 in *written: OM_LINE_MOST bytes are always enough. */
uint32_t om_take_record(om_manager *m, char *lines, size_t capacity, size_t *written);

/* Answers a whole script over a manager of its own, whose numbers are given once, as the program obman does without --more: script and
 * answers are as its format has them.
 * `capacity` bytes stand at `answers`; *written says how many the answers have.
 * OM_ERROR_INVALID_PARAMETER for a limit out of its range; OM_ERROR_NOT_ENOUGH_MEMORY; OM_ERROR_INSUFFICIENT_BUFFER where the
 * answers don't fit: then *written says how many bytes they need, and nothing else is written. */
uint32_t om_script(const om_limits *limits, const char *script, size_t length, char *answers, size_t capacity, size_t *written);

/* All that a manager holds, as lines that a person reads, with what is called so in scripts: the moment, each process with its threads, for
 * what they wait and until when, and its handles; each object with its kind, name, state, counts and who waits for it; and last the threads
 * that wait for one another for ever, each without a deadline for a mutex that another one of them owns. Its time grows with all of that.
 * `capacity` bytes stand at `text`; *written says how many the lines have. Lines may be added, and more stand in one, in later versions.
 * OM_ERROR_INSUFFICIENT_BUFFER where they don't fit: then *written says how many bytes they need, and nothing else is written;
 * OM_ERROR_NOT_ENOUGH_MEMORY. */
uint32_t om_dump(om_manager *m, char *text, size_t capacity, size_t *written);

/* ---- Savestates ---- */

/* Writes the whole manager as bytes, from which om_load makes it again: limits, processes, handles, objects, names, waits and the time.
 * What readers pin and what was recorded aren't in them, and readers need not stop. The same state is always the same bytes.
 * `capacity` bytes stand at `bytes`; *written says how many the savestate has. With a capacity of 0 it says how many it would have.
 * OM_ERROR_INSUFFICIENT_BUFFER where it doesn't fit: then *written says how many bytes it needs, and nothing else is written;
 * OM_ERROR_NOT_ENOUGH_MEMORY. */
uint32_t om_save(om_manager *m, void *bytes, size_t capacity, size_t *written);

/* Makes the manager of a savestate of `length` bytes, and writes it to *m, whatever stood there: it answers each further call as the one
 * that was saved would (its numbers come back where that one's did), but nothing is pinned and nothing is recorded. It is ended by
 * om_free. Any bytes may be passed: where they are no savestate, be it by one bit, they are refused. A count that passes its bound is refused
 * before what it counts is read, so what a load takes goes with the length: some 20 to 40 bytes for each byte that says a handle's place,
 * and up to some 500 for each process or thread number, of which there are 65,536 each at the most; limits.threads alone asks for some, 8
 * bytes a thread number, and where numbers come back limits.slots for as much as om_new_reusing does.
 * OM_ERROR_INVALID_DATA where the bytes are no savestate of this version; OM_ERROR_NOT_ENOUGH_MEMORY. */
uint32_t om_load(const void *bytes, size_t length, om_manager *m);

/* ---- Readers: pins without the manager's lock, on any thread ---- */

/* A reader, which pins nothing yet; this is a call for the manager. What stood at `r` isn't read.
 * OM_ERROR_NOT_ENOUGH_MEMORY. */
uint32_t om_reader_new(om_manager *m, om_reader *r);

/* Lets all go that a reader pins, and ends it. Its manager may have ended before. Of all zeros there is nothing to end. */
void om_reader_free(om_reader r);

/* Pins an object's slot once more: while it is pinned, its slot isn't given to another object. A reader has 16 pins at a time, each to
 * be let go by om_reader_unpin. An object may end while it is pinned; a handle of the host's own keeps it.
 * OM_ERROR_INVALID_PARAMETER where there is no such slot; OM_ERROR_NOT_ENOUGH_QUOTA where 16 pins are held; OM_ERROR_NOT_FOUND
 * where the slot had no such object yet; OM_ERROR_INVALID_HANDLE where the object ended; OM_ERROR_NO_SYSTEM_RESOURCES where the
 * slot has all its pins; and OM_ERROR_BUSY where another thread changed the slot meanwhile: then it may be tried again. */
uint32_t om_reader_pin(om_reader *r, uint32_t slot, uint32_t generation);

/* Lets one pin of an object go.
 * OM_ERROR_INVALID_HANDLE where the reader has none. */
uint32_t om_reader_unpin(om_reader *r, uint32_t slot, uint32_t generation);

/* What never changes of an object that the reader pins.
 * OM_ERROR_INVALID_HANDLE where it has no pin of it. */
uint32_t om_reader_describe(om_reader *r, uint32_t slot, uint32_t generation, om_descriptor *descriptor);

/* What an object that the reader pins was created as, also when it has ended; this is a call for the manager, the one that the reader
 * was made from.
 * OM_ERROR_INVALID_HANDLE where the reader has no pin of it. */
uint32_t om_inspect(om_manager *m, om_reader *r, uint32_t slot, uint32_t generation, om_description *description);

/* Whether a reader pins an object. */
bool om_reader_holds(om_reader *r, uint32_t slot, uint32_t generation);

/* ---- Questions that have always an answer ---- */

/* Whether a wait is pending. */
bool om_is_pending(om_manager *m, uint32_t wait);

/* The moment of the last tick, in units of 100 ns. */
uint64_t om_now(om_manager *m);

/* The next live process, and the next live thread of a process, by rising number: begin with 0. 0 behind the last. */
uint32_t om_next_process(om_manager *m, uint32_t after);
uint32_t om_next_thread(om_manager *m, uint32_t process, uint32_t after);

/* The process of a thread, or 0 where no such thread lives; and a thread's wait that is pending, or whose answer wasn't taken, or 0. */
uint32_t om_process_of(om_manager *m, uint32_t thread);
uint32_t om_wait_of(om_manager *m, uint32_t thread);

/* How many names objects have. */
size_t om_directory_len(om_manager *m);

/* Which release the library is of, as OM_VERSION says it of the header. */
uint32_t om_version(void);

/* ---- Calls that are made of others ---- */

/* What NtSetEvent, NtReleaseMutant, NtSetTimer and their like tell as the state before, asked in front of the call: 1 for an event, a timer or an
 * object of the host's own that is signaled, else 0; a semaphore's count; 1 less how often its owner owns a mutex. 0 where the handle names nothing. */
static inline int32_t om_previous(om_manager *m, uint32_t process, uint32_t handle) {
    om_object_state it;
    if (om_handle_state(m, process, handle, &it) != OM_SUCCESS) return 0;
    int32_t count = OM_AS_(int32_t, it.count);
    return it.kind == OM_MUTEX ? 1 - count : it.kind == OM_SEMAPHORE ? count : it.signaled;
}

/* om_child with those of the inheritable handles alone that are listed (CreateProcess with PROC_THREAD_ATTRIBUTE_HANDLE_LIST): the process begins with all
 * of them, and the others are closed. It looks at each handle of the new process, and at the list for each.
 * OM_ERROR_INVALID_PARAMETER for a handle that isn't there or isn't inheritable; else it is refused as om_child is. */
static inline uint32_t om_child_with(om_manager *m, uint32_t thread, const uint32_t *handles, size_t count, om_member *member) {
    uint32_t parent = om_process_of(m, thread), status;
    om_entry it;
    for (size_t i = 0; i < count; i++) {
        if (om_handle(m, parent, handles[i], &it) != OM_SUCCESS || (it.flags & OM_HANDLE_FLAG_INHERIT) == 0) return OM_ERROR_INVALID_PARAMETER;
    }
    if ((status = om_child(m, thread, true, member)) != OM_SUCCESS) return status;
    for (it.handle = 0; om_next_handle(m, member->process, it.handle, &it) == OM_SUCCESS;) {
        size_t i = 0;
        while (i < count && (handles[i] & ~3u) != it.handle) i++;
        if (i < count) continue;
        om_set_handle_flags(m, member->thread, it.handle, OM_HANDLE_FLAG_PROTECT_FROM_CLOSE, 0);
        om_close(m, member->thread, it.handle);
    }
    return OM_SUCCESS;
}

#ifdef __cplusplus
}
#endif

#endif
