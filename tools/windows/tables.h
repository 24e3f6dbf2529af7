/* The script's numbers: its processes, threads, handles and objects, each with what is real of it. */
#ifndef TABLES_H
#define TABLES_H

#include "play.h"

#define ENTRIES 2048
#define SLOTS 4096
#define LEAST_SLOTS 64 /* of obman, if nothing else is asked for */
#define UNKNOWN UINT32_MAX
#define NOWHERE 0x7ffffff0u /* a value that no handle has */

typedef struct {
    HANDLE real;
    uint32_t slot; /* of its object */
    bool is_used;
} entry;

typedef struct {
    HANDLE real;
    seat clerk;
    bool is_live;
    uint32_t session, threads;
    entry entries[ENTRIES];
} process;

typedef struct {
    seat seat;
    bool is_live;
    uint32_t process;
    uint32_t wait; /* the number of its wait, pending or answered, or 0 */
    bool is_pending, has_deadline;
    uint64_t deadline;
    uint32_t count, slots[MAXIMUM_WAIT_OBJECTS];
} thread;

typedef struct {
    bool is_there, is_due, is_host;
    uint32_t generation, handles;
    uint64_t path; /* 0 without a name */
    uint64_t due, period; /* of a timer; 0 for none */
} object;

extern struct tables {
    char name[64];
    desk *desks;
    DWORD settle;
    uint64_t now;
    bool has_pinned;
    uint32_t processes_given, threads_given, waits_given;
    process processes[PROCESSES];
    thread threads[THREADS];
    object objects[SLOTS];
} all;

/* Ends the workers and the program, with a status that says whether there is a cause. */
void stop(const char *why);

/* By their numbers; NULL for a number that wasn't given. */
process *process_of(uint32_t number);
thread *thread_of(uint32_t number);
process *home_of(const thread *of);

/* A thread that may make a call: a live one that has no wait. */
thread *caller(uint32_t number);

/* The entry of a handle, if there is one; and the real handle for it or for none, with the same two lowest bits. */
entry *entry_of(process *of, uint32_t handle);
HANDLE real_of(process *of, uint32_t handle);

/* Gives a real handle the least value that is free. */
uint32_t place(process *in, HANDLE real, uint32_t slot);
void displace(entry *of);

/* The least slot, for a new object, which then has its name alone. */
uint32_t new_slot(uint64_t path);
uint32_t slot_named(uint64_t path);

/* The places of pending waits where an object is. */
uint32_t waits_for(uint32_t slot);

/* A live process that has a handle to an object, and the handle. */
process *holder_of(uint32_t slot, HANDLE *real);

#endif
