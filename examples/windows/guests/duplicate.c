/* Duplicates of handles: with fewer rights; into a child, which takes its parent's handle away by closing the source; of a handle that is
 * protected from closing; and for what is no process, which closes the source too. */
#include "child.h"

/* The child has its parent's process as a handle, and the value that an event's handle has there. */
static void child(HANDLE parent, HANDLE there) {
    HANDLE mine, again, self = GetCurrentProcess();
    BOOL done = DuplicateHandle(parent, there, self, &mine, 0, FALSE, DUPLICATE_SAME_ACCESS | DUPLICATE_CLOSE_SOURCE);
    must(done, "the child takes the handle");
    done = DuplicateHandle(parent, there, self, &again, 0, FALSE, DUPLICATE_SAME_ACCESS);
    must(!done, "it can't be taken twice");
    say("child: the parent has it no more: error %u", (unsigned)GetLastError());
    must(SetEvent(mine), "the event is set");
    ExitProcess(7);
}

static void fewer_rights(HANDLE self) {
    HANDLE event = CreateEventA(NULL, TRUE, FALSE, NULL), waits, sets;
    must(event != NULL, "an event");
    must(DuplicateHandle(self, event, self, &waits, SYNCHRONIZE, FALSE, 0), "a handle to wait");
    must(DuplicateHandle(self, event, self, &sets, EVENT_MODIFY_STATE, FALSE, 0), "a handle to set");
    must(!SetEvent(waits), "a handle to wait doesn't set");
    say("set by a handle to wait: error %u", (unsigned)GetLastError());
    must(WaitForSingleObject(sets, 0) == WAIT_FAILED, "a handle to set doesn't wait");
    say("wait by a handle to set: error %u", (unsigned)GetLastError());
    must(SetEvent(sets) && WaitForSingleObject(waits, 0) == WAIT_OBJECT_0, "both are one event");
    must(CloseHandle(event) && CloseHandle(sets), "handles are closed");
    must(WaitForSingleObject(waits, 0) == WAIT_OBJECT_0, "the last handle keeps the event");
    must(CloseHandle(waits), "the last one is closed");
}

static void taken_away(HANDLE self) {
    SECURITY_ATTRIBUTES kept = {.nLength = sizeof kept};
    HANDLE event = CreateEventW(&kept, FALSE, FALSE, NULL), second, me, made;
    must(event && DuplicateHandle(self, event, self, &second, 0, FALSE, DUPLICATE_SAME_ACCESS), "two handles");
    must(DuplicateHandle(self, self, self, &me, 0, TRUE, DUPLICATE_SAME_ACCESS), "a handle to this process");
    made = begin_child(TRUE, (ULONG_PTR)me, (ULONG_PTR)event);
    take(second);
    say("the child ended with %u", end_of_child(made));
    must(!SetEvent(event), "the first handle is gone");
    say("set by what was taken: error %u", (unsigned)GetLastError());
    must(!SetEvent(me), "a process is no event");
    say("set of a process: error %u", (unsigned)GetLastError());
    must(CloseHandle(second) && CloseHandle(me), "handles are closed");
}

static void protected_from_closing(void) {
    HANDLE event = CreateEventA(NULL, TRUE, TRUE, NULL);
    must(event && SetHandleInformation(event, HANDLE_FLAG_PROTECT_FROM_CLOSE, HANDLE_FLAG_PROTECT_FROM_CLOSE), "a protected handle");
    must(!CloseHandle(event), "a protected handle isn't closed");
    say("close of a protected handle: error %u", (unsigned)GetLastError());
    must(SetHandleInformation(event, HANDLE_FLAG_PROTECT_FROM_CLOSE, 0) && CloseHandle(event), "now it is");
    must(!CloseHandle(event), "but once");
    say("close of what is closed: error %u", (unsigned)GetLastError());
}

static void for_nobody(HANDLE self) {
    HANDLE event = CreateEventA(NULL, TRUE, FALSE, NULL), made;
    BOOL done = DuplicateHandle(self, event, event, &made, 0, FALSE, DUPLICATE_SAME_ACCESS | DUPLICATE_CLOSE_SOURCE);
    must(event && !done, "an event is no process");
    say("a duplicate for an event: error %u", (unsigned)GetLastError());
    must(!SetEvent(event), "its source is closed all the same");
    say("set by its source: error %u", (unsigned)GetLastError());
}

void start(void) {
    unsigned long long parent, there;
    if (is_child(&parent, &there)) {
        child((HANDLE)parent, (HANDLE)there);
    }
    fewer_rights(GetCurrentProcess());
    taken_away(GetCurrentProcess());
    protected_from_closing();
    for_nobody(GetCurrentProcess());
    ExitProcess(0);
}
