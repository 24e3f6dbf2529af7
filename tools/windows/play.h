/* What the player and its workers share: a desk for each, on which a call is laid and its answer found. */
#ifndef PLAY_H
#define PLAY_H

#include "script.h"

#define WIN32_LEAN_AND_MEAN
#ifndef _WIN32_WINNT
#define _WIN32_WINNT 0x0601 /* Windows 7 */
#endif
#include <windows.h>

#define PROCESSES 128 /* numbers of processes ever given */
#define THREADS 512
#define DESKS (PROCESSES + THREADS) /* the clerk of each process first, and then the threads */
#define WAITED (MAXIMUM_WAIT_OBJECTS + 1)

/* A call, with the real handles in the place of the script's; then its answer. */
typedef struct {
    line asked;
    HANDLE real[WAITED];
    HANDLE source, target; /* the processes of a duplicate */
    bool by_force; /* a thread that waits is terminated */
    DWORD error; /* Win32's number, or 0 */
    DWORD value; /* a wait's code, a count, flags, the number of a process */
    HANDLE made;
    bool existed;
    uint64_t path; /* a hash of the whole name of a named object */
    volatile bool pending; /* the call is a wait, and blocks */
} desk;

/* The handles to a desk and to its two auto-reset events. */
typedef struct {
    desk *at;
    HANDLE go, done;
} seat;

/* The desks of a name, which the first comer makes; and one of them. */
desk *open_desks(const char *name);
seat take_seat(desk *desks, const char *name, unsigned number);

/* Starts this program once more, as the worker that is a process of the script. */
BOOL start_worker(const char *name, unsigned player, unsigned process, BOOL inherit, PROCESS_INFORMATION *started);

/* What a worker does until its process ends: its first thread is the clerk, who does what no script's thread can. */
int work(const char *name, unsigned player, unsigned process);

#endif
