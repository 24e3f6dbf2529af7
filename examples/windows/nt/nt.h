/* A host that runs 64-bit Windows programs at the system calls: ntdll, kernelbase, kernel32 and msvcrt of an installed Wine are guest code like the program
 * itself, Unicorn is the processor, libobman the kernel's objects, and the host serves the Nt calls alone.
 *
 * main.c     the command line                      calls.c     which calls are served, and their arguments
 * seeds.c    a program by many seeds               objects.c   events, mutexes, semaphores, timers, names, handles
 * start.c    processes, and what each begins with  waits.c     waits, sleeps, alerts, keyed events
 * memory.c   a process's memory                    control.c   threads and processes: begin, suspend, end
 * image.c    programs and DLLs in it               context.c   registers told, exceptions, APCs
 * threads.c  turns, the clock, the processor       files.c     the guests' drive, and files on it
 * fault.c    which instruction of a block failed   sections.c  files as memory, and shared memory
 * stuck.c    who waits for whom                    ports.c     completion ports
 * fast.c     Unicorn's stores, less slow           pipes.c     named pipes, and their I/O
 * save.c     all of it in a file                   info.c      what is asked of the system, processes and threads
 * layout.h   what of Windows' own structures lies where */
#ifndef NT_H
#define NT_H

#include "layout.h"

#include <obman.h>
#include <unicorn/unicorn.h>

enum {
    PROCESSES = 64, /* that live at a time */
    THREADS = 4096, /* of all processes */
    SLOTS = 65536,  /* objects at a time */
    PAGE = 0x1000,
    GRANULE = 0x10000, /* where memory begins that is asked for anywhere */
    NT_NAME_MOST = 1024,
    QUEUED_MOST = 65536, /* packets at completion ports, and I/O that is pending, together */
    BORROWED_MOST = 8192, /* handles of the host's for I/O, so that it has some for threads */
    NO_END = 124, /* statuses of the host's own */
    HOST_FAILED = 125,
    SEEDS_MOST = 10000,
    PER_UNIT = 10, /* instructions in 100 ns of the guests' time */
    THREAD_NUMBER = 4 /* so many times the library's is the guest's, and a process's */
};

#define LIMITS {SLOTS, PROCESSES + 1u, THREADS + 1u, 16384u, 4294967295u, 1073741823u, 4294967295u, 2147483647u}

/* What all guests together have of memory, reserved or not, since what is reserved can be written. */
#define MEMORY_MOST (4ull << 30)

/* The moment at which a run begins, in units of 100 ns since 1601, as the guests and the library have it: the first of January 2026. */
#define BEGAN 134116992000000000u

/* Where nothing is due until then the guests wait for ever: some 14,000 years. */
#define LAST_MOMENT (UINT64_MAX / 4)

/* Status codes, by their names in ntstatus.h. */
#define STATUS_SUCCESS 0x00000000u
#define STATUS_ABANDONED 0x00000080u
#define STATUS_USER_APC 0x000000C0u
#define STATUS_ALERTED 0x00000101u
#define STATUS_TIMEOUT 0x00000102u
#define STATUS_PENDING 0x00000103u
#define STATUS_IMAGE_NOT_AT_BASE 0x40000003u
#define STATUS_BREAKPOINT 0x80000003u
#define STATUS_SINGLE_STEP 0x80000004u
#define STATUS_NO_MORE_FILES 0x80000006u
#define STATUS_PARTIAL_COPY 0x8000000Du
#define STATUS_UNSUCCESSFUL 0xC0000001u
#define STATUS_NOT_IMPLEMENTED 0xC0000002u
#define STATUS_INVALID_INFO_CLASS 0xC0000003u
#define STATUS_INFO_LENGTH_MISMATCH 0xC0000004u
#define STATUS_ACCESS_VIOLATION 0xC0000005u
#define STATUS_INVALID_HANDLE 0xC0000008u
#define STATUS_INVALID_CID 0xC000000Bu
#define STATUS_INVALID_PARAMETER 0xC000000Du
#define STATUS_NO_SUCH_FILE 0xC000000Fu
#define STATUS_END_OF_FILE 0xC0000011u
#define STATUS_NO_MEMORY 0xC0000017u
#define STATUS_CONFLICTING_ADDRESSES 0xC0000018u
#define STATUS_NOT_MAPPED_VIEW 0xC0000019u
#define STATUS_ILLEGAL_INSTRUCTION 0xC000001Du
#define STATUS_ACCESS_DENIED 0xC0000022u
#define STATUS_BUFFER_TOO_SMALL 0xC0000023u
#define STATUS_OBJECT_TYPE_MISMATCH 0xC0000024u
#define STATUS_OBJECT_NAME_INVALID 0xC0000033u
#define STATUS_OBJECT_NAME_NOT_FOUND 0xC0000034u
#define STATUS_OBJECT_NAME_COLLISION 0xC0000035u
#define STATUS_OBJECT_PATH_NOT_FOUND 0xC000003Au
#define STATUS_SUSPEND_COUNT_EXCEEDED 0xC000004Au
#define STATUS_THREAD_IS_TERMINATING 0xC000004Bu
#define STATUS_INVALID_IMAGE_FORMAT 0xC000007Bu
#define STATUS_NO_TOKEN 0xC000007Cu
#define STATUS_INTEGER_DIVIDE_BY_ZERO 0xC0000094u
#define STATUS_PRIVILEGED_INSTRUCTION 0xC0000096u
#define STATUS_INSUFFICIENT_RESOURCES 0xC000009Au
#define STATUS_INSTANCE_NOT_AVAILABLE 0xC00000ABu
#define STATUS_PIPE_NOT_AVAILABLE 0xC00000ACu
#define STATUS_INVALID_PIPE_STATE 0xC00000ADu
#define STATUS_PIPE_DISCONNECTED 0xC00000B0u
#define STATUS_PIPE_CLOSING 0xC00000B1u
#define STATUS_PIPE_CONNECTED 0xC00000B2u
#define STATUS_PIPE_LISTENING 0xC00000B3u
#define STATUS_FILE_IS_A_DIRECTORY 0xC00000BAu
#define STATUS_NOT_SUPPORTED 0xC00000BBu
#define STATUS_INVALID_PARAMETER_1 0xC00000EFu
#define STATUS_STACK_OVERFLOW 0xC00000FDu
#define STATUS_NOT_A_DIRECTORY 0xC0000103u
#define STATUS_PROCESS_IS_TERMINATING 0xC000010Au
#define STATUS_CANCELLED 0xC0000120u
#define STATUS_DLL_NOT_FOUND 0xC0000135u
#define STATUS_PIPE_BROKEN 0xC000014Bu
#define STATUS_NOT_FOUND 0xC0000225u
#define STATUS_HANDLE_NOT_CLOSABLE 0xC0000235u

/* Memory, by the names in winnt.h: what is asked for, what its pages are, what a region is. */
enum {
    MEM_COMMIT = 0x1000,
    MEM_RESERVE = 0x2000,
    MEM_RELEASE = 0x8000,
    MEM_FREE = 0x10000,
    MEM_RESET = 0x80000,
    PAGE_NOACCESS = 0x01,
    PAGE_READONLY = 0x02,
    PAGE_READWRITE = 0x04,
    PAGE_EXECUTE_READ = 0x20,
    PAGE_EXECUTE_READWRITE = 0x40,
    PAGE_EXECUTE_WRITECOPY = 0x80,
    ANY_EXECUTE = 0xF0,
    IS_PRIVATE = 0x20000,
    IS_MAPPED = 0x40000,
    IS_IMAGE = 0x1000000
};

/* Where each process has what the host puts there: KUSER_SHARED_DATA; the address that Wine's stubs call, to which it says; and the page of that address, of
 * halts that are never run: an instruction in it is a system call, or one of Wine's calls of its Unix side. */
#define SHARED 0x7FFE0000u
#define DISPATCH (SHARED + PAGE)
#define SYSTEM_CALL (SHARED + 2 * PAGE)
#define UNIX_CALL (SYSTEM_CALL + 0x10u)
#define SHARED_SIZE (3 * PAGE)

/* Rights to a file; and to a thread or process those for which others stand (Learn: "Thread Security and Access Rights"). */
enum { READ_DATA = 0x1, WRITE_DATA = 0x2, APPEND_DATA = 0x4 };
enum { THREAD_SET = 0x20, THREAD_QUERY = 0x40, THREAD_SET_LIMITED = 0x400, THREAD_QUERY_LIMITED = 0x800 };
enum { PROCESS_QUERY = 0x400, PROCESS_QUERY_LIMITED = 0x1000 };

#define THIS_PROCESS UINT64_MAX
#define THIS_THREAD (UINT64_MAX - 1)

/* The registers of a thread by their places in `registers.whole`. */
enum { RAX, RBX, RCX, RDX, RSI, RDI, RBP, RSP, R8, R9, R10, R11, R12, R13, R14, R15, RIP, FLAGS, WHOLE };

/* All that a thread has of the processor. */
typedef struct registers {
    uint64_t whole[WHOLE];
    uint8_t vectors[16][16];
    uint8_t floats[8][16];
    uint32_t vector_control;
    uint16_t float_control, float_status, float_tags;
} registers;

typedef struct process process;

/* A call that a thread makes as soon as it may: of a routine with three arguments. (Each list's items begin with the next one.) */
typedef struct apc {
    struct apc *next;
    uint64_t routine, arguments[3];
    uint64_t timer; /* the data of the timer that made it, or 0 */
} apc;

/* What NtSetIoCompletion, or an I/O that ends, leaves at a completion port. */
typedef struct packet {
    struct packet *next;
    uint64_t key, value, status, count;
} packet;

/* An I/O of a pipe, as its call has it. */
typedef enum doing { READS, WRITES, LISTENS } doing;
typedef struct io {
    struct io *next;
    doing does;
    uint32_t process, thread; /* whose it is */
    uint32_t event;           /* the host's handle, or 0 */
    uint32_t status;          /* with which it has ended in its call */
    bool is_pending : 1;      /* its call has answered, or waits */
    bool has_ended : 1;
    uint64_t routine, with, told_at; /* as ReadFileEx and OVERLAPPED have them: a routine, or a value for a port; where the status is written */
    uint64_t bytes, size, count;
} io;

/* For what a thread waits in the library: an object; a moment alone; or, until a moment, an alert by NtAlertThreadByThreadId, the other side of a keyed event,
 * a packet of a completion port, as NtRemoveIoCompletion or NtRemoveIoCompletionEx takes it, or the end of an I/O. The host has ended the wait of one that
 * wakes. */
typedef enum waiting { RUNS, WAKES, FOR_OBJECTS, FOR_TIME, FOR_ALERT, FOR_RELEASE, FOR_WAITER, FOR_PACKET, FOR_PACKETS, FOR_IO } waiting;

/* (A bool here is one bit, so that whatever byte a savestate has is one.) */
typedef struct thread {
    registers now;
    uint32_t number; /* the library's; 0 where there is none */
    waiting waits;
    bool alertable : 1; /* its wait ends for an APC */
    bool alerted : 1;   /* its next wait for an alert ends at once */
    bool has_apc : 1;   /* it runs the first of its APCs when its call returns */
    bool has_no_boost : 1; /* as SetThreadPriorityBoost has it; turns don't go by it */
    uint32_t outcome;   /* the status of its wait, where the host ends it */
    uint32_t suspended;
    int32_t priority;
    uint64_t block, stack, stack_size;
    uint64_t entry;
    uint64_t key;         /* of a keyed event, or the address of a wait for an alert, or the data of a completion port */
    uint64_t began;       /* behind so many calls, to wait there */
    om_opening own;       /* the object that stands for it, by the host's handle */
    process *of;          /* (what is before this is in a savestate as it stands) */
    apc *apcs;
} thread;

/* The types of objects of the host's own. */
typedef enum type { A_THREAD = 1, A_PROCESS, A_FILE, A_SECTION, A_KEYED_EVENT, AN_OBJECT_DIRECTORY, A_PORT } type;

/* What a file is of a pipe: none; an end that was cut off; a server's for which no client has come; one with another end, or whose other end was closed. (These
 * are the numbers of FILE_PIPE_LOCAL_INFORMATION.) */
typedef enum pipe_end { NO_PIPE, DISCONNECTED, LISTENING, CONNECTED, CLOSING } pipe_end;

/* What the host keeps at an object of its own. */
typedef struct kept {
    om_object object;
    uint32_t number; /* of a thread or process; of a timer with a routine its thread */
    uint32_t code;   /* with which it has ended */
    bool has_ended : 1;
    bool is_directory : 1, is_standard : 1, is_overlapped : 1; /* a file */
    bool is_server : 1;                     /* an end of a pipe */
    pipe_end pipe;
    uint32_t other;                         /* the data of the other end, or 0 */
    uint32_t sharing, instances_most;       /* what a server's client may do, as of files, and how many there are of that name */
    uint32_t quota;                         /* how many bytes wait for its reader at most */
    om_opening port;                        /* a file's completion port, by the host's handle, or 0 */
    uint64_t key;                           /* and the key that it is told */
    bool is_image : 1, is_copied : 1;       /* a section: of a program, or of a file's bytes */
    int32_t priority;
    uint64_t at;    /* where it is read next */
    uint64_t size;  /* of a section */
    uint64_t routine, with, due; /* of a timer: what its thread runs at that moment, or 0 */
    uint32_t period;             /* and each so many milliseconds, or 0 */
    uint64_t entries_size, next_entry; /* of a directory that was asked for its entries, or of what there is to read in a pipe */
    char form[256]; /* of which form those are */
    int file;       /* of a file or a section: the descriptor, or -1 (what is before this is in a savestate as it stands) */
    char *entries;  /* their names, each with a 0 behind it; or a pipe's bytes; or what a thread's description is, in UTF-16 */
    packet *packets, *last_packet; /* of a port */
    io *ios;        /* of a pipe's end, by their age */
    char name[];    /* of a file, as the guests see it; of a section, its file's */
} kept;

typedef struct region {
    uint64_t address, size;
    uint8_t *bytes;
    uint32_t protect, type;
    bool is_committed, in_arena;
    int file;        /* whose bytes it has, a descriptor of its own, or -1 */
    uint64_t offset; /* from there on */
} region;

/* How many instructions the block at an address has. */
typedef struct block_length {
    uint64_t address;
    uint32_t count;
} block_length;

enum { LOW_ARENA, HIGH_ARENA, ARENAS, BLOCKS = 65536, CALLS = 0x1000 /* numbers of system calls are below */ };

/* A system call by its number. */
typedef struct system_call {
    char name[63];
    bool is_told : 1; /* that it isn't served */
} system_call;

struct process {
    om_member member; /* the library's numbers of it and its first thread; 0 where there is none */
    om_opening own;
    uint64_t peb, image;
    uint64_t ntdll, thread_start, user_start, exception_dispatcher, apc_dispatcher;
    uc_engine *engine; /* (what is before this is in a savestate as it stands) */
    thread *loaded; /* whose registers the engine has */
    region *regions; /* by rising address */
    uint32_t regions_count, regions_room;
    uint8_t *arenas[ARENAS];
    uint64_t reserved; /* bytes of all regions */
    block_length lengths[BLOCKS];
};

extern om_manager om;
extern om_member host; /* the host's own process */
extern process processes[PROCESSES];
extern thread threads[THREADS];
extern kept *all_kept[SLOTS];
extern system_call system_calls[CALLS];
extern uint32_t threads_end; /* behind the last place where one is */
extern thread *current;      /* the thread whose call is served */
extern process *in;          /* whose memory and engine are meant */
extern uint64_t instructions, instructions_most, calls_count, seed;
extern uint64_t idle; /* time that has passed while no thread could run */
extern uint64_t left; /* instructions of this turn */
extern bool goes_on;  /* a turn that a run stopped within, by so many instructions */
extern uint64_t last_unique;
extern bool tells_calls;
extern uint32_t exit_code; /* of the first process */
extern bool has_first_ended;
extern char drive_folder[NT_NAME_MOST];
extern char wine_dlls[512], wine_nls[512];

static inline block_length *length_at(process *of, uint64_t address) {
    return &of->lengths[(address ^ address >> 16) % BLOCKS];
}

/* main.c */
_Noreturn void stop(const char *format, ...) __attribute__((format(printf, 1, 2)));
void must(uint32_t status, const char *what);
void write_trace(void);

/* save.c */
void save(const char *path);
void load(const char *path);

/* seeds.c */
int run_seeds(uint64_t from, uint64_t to, int (*program)(void));

/* memory.c */
void *bytes_at(uint64_t address, uint64_t size);  /* or the call ends with STATUS_ACCESS_VIOLATION */
void *bytes_if(uint64_t address, uint64_t size);  /* or NULL */
uint64_t get(uint64_t address, int size);
void put(uint64_t address, uint64_t value, int size); /* nowhere, where that is 0 */
void fill(uint64_t address, const void *bytes, uint64_t size);
void put_if(uint64_t address, uint64_t value);
region *region_at(uint64_t address);
void *map_at(uint64_t address, uint64_t size, uint32_t protect, uint32_t type);
bool share_at(uint64_t address, int file, uint64_t offset);
uint64_t map_anywhere(uint64_t size, uint64_t below, uint32_t protect, uint32_t type);
void unmap(region *r);
void end_memory(process *of);
uint64_t whole_pages(uint64_t size);

/* image.c */
uint32_t map_image(int file, uint64_t *base, uint64_t *size);
uint64_t export_of(uint64_t base, const char *name);
bool is_program(const uint8_t *head, size_t length);
void image_information(const uint8_t *head, uint64_t base, uint64_t file_size, uint64_t out);
int open_dll(const char *name);

/* threads.c */
uint64_t now(void);
void tell_time(void);
void look_round(void);
thread *thread_numbered(uint32_t number);
process *process_numbered(uint32_t number);
void take_floats(thread *t);
void put_floats(thread *t);
void begin_engine(void);
bool run(void);
extern bool ends_turn;

/* fault.c */
uint64_t failed_at(const thread *t, uint64_t block, uint64_t address);

/* stuck.c */
void tell_waits(void);

/* calls.c */
uint64_t arg(int i);
void read_numbers(void);
void find_served(void);
void serve(uint64_t stub);
_Noreturn void refuse_pointer(uint64_t address);
extern bool has_set_registers;

/* start.c */
void begin_first(const char *path, const char *command);
thread *begin_thread(uint32_t number, uint64_t entry, uint64_t with, uint64_t reserve, uint64_t commit);
uint64_t attribute_of(uint64_t list, uint64_t number, uint64_t *size);

/* objects.c */
om_opening host_object(type is, uint32_t number);
kept *kept_at(uint64_t data);
kept *new_kept(uint32_t place, const char *name);
kept *keep(om_object object, const char *name);
uint32_t new_handle(type is, const char *name, uint32_t access, uint64_t attributes, kept **made);
uint32_t new_named(type is, const char *name, uint32_t access, uint64_t attributes, uint64_t to, kept **made);
typedef uint32_t (*opener)(om_manager *m, uint32_t thread, uint32_t access, bool inherit, const char *name, size_t length, om_opening *opening);
uint32_t open_named(opener by, uint32_t kind);
uint64_t given(const om_opening *own, uint32_t access, bool inherit);
uint32_t handle_of(uint64_t guest);
uint32_t named(uint64_t handle, type is, uint32_t right, kept **found);
uint32_t status_of(uint32_t error, uint64_t handle);
uint32_t rights_of(uint32_t kind, uint32_t access);
uint32_t answer_handle(uint64_t to, uint64_t handle);
bool inherits(uint64_t attributes);
void text_of(uint64_t unicode, char *out, size_t capacity);
void name_of(uint64_t attributes, char *out, size_t capacity);
bool forget(uint64_t data);
void run_routines(void);
void drop_routines(uint32_t of);
extern uint64_t next_routine;

/* waits.c */
void answered(thread *t, uint32_t code);
bool wake(thread *t, uint32_t status);
int64_t until(uint64_t pointer);
bool has_apc(bool alertable);
uint32_t sleep_for(waiting waits, int64_t due, bool alertable);

/* control.c */
uint32_t thread_by(uint64_t handle, uint32_t right, kept **k, thread **t);
uint32_t process_by(uint64_t handle, uint32_t right, kept **k, process **p);
void end_thread(thread *t, uint32_t code);
void end_process(process *p, uint32_t code);
void end_all(void);

/* context.c */
void raise_exception(thread *t, uint32_t code, const uint64_t *information, uint32_t count);
void run_apc(thread *t, uint32_t status);
void queue_apc(thread *t, uint64_t timer, uint64_t routine, uint64_t a, uint64_t b, uint64_t c);
void cancel_apc(thread *t, uint64_t timer);
void first_context(uint8_t *context, uint64_t stack, uint64_t start, uint64_t entry, uint64_t with);

/* files.c */
void set_drive(const char *folder);
int open_program(const char *name);
bool is_named(const kept *k);
uint32_t path_of(uint64_t attributes, char *path, size_t capacity);
bool is_overlapped(uint32_t options);
void done(uint64_t to, uint32_t status, uint64_t information);
int open_path(const char *name, int how);
uint32_t standard_file(int file);

/* ports.c */
extern uint64_t queued;
void set_signal(const kept *k, bool signaled);
void end_port(kept *k);
uint32_t set_port(kept *k, uint64_t from);
uint32_t borrow(uint64_t handle, om_opening *made);
void give_back(uint32_t handle);
extern uint32_t borrowed;
void post(const kept *k, uint64_t routine, uint64_t with, uint32_t status, uint64_t count);

/* pipes.c */
extern uint64_t held;
uint32_t open_pipe(const char *path, uint64_t to, uint32_t access, uint64_t attributes, uint32_t options);
uint32_t move_in_pipe(kept *k, doing does);
uint32_t control_pipe(kept *k, uint32_t what);
void end_ios(uint32_t process, uint32_t thread);
void end_pipe(kept *k);

#endif
