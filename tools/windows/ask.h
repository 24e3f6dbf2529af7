/* How the player asks a worker: a thread of the script or the process's clerk. */
#ifndef ASK_H
#define ASK_H

#include "tables.h"

#define GRACE 20000 /* milliseconds, after which a call that can't block has gone wrong */

/* Whether an answer is there after so many milliseconds; a worker that has ended stops the run. */
bool is_answered(const seat *by, const process *in, DWORD time);

/* Has a process's clerk do what a verb stands for, about a thread or a real handle. */
desk *ask_clerk(process *of, enum verb verb, uint32_t number, HANDLE real);

/* Has a thread make a call, with the real handles of its process; those of a duplicate are at the desk already. */
desk *ask_thread(thread *of, const line *call);

/* Whether a process has a real handle. */
bool is_handle(process *of, HANDLE real);

/* Whether a thread's wait is answered, and takes notice of that. */
bool is_over(thread *of, DWORD time);
void look_at_waits(DWORD time);

/* Ends a wait. False where it was satisfied before. */
bool expire(thread *of);

#endif
