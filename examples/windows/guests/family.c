/* A parent and its child: an event that both find by its name, and a semaphore and a mutex that the child inherits. */
#include "child.h"

static void child(HANDLE turns, HANDLE hearth) {
    DWORD flags;
    HANDLE ready = OpenEventW(EVENT_MODIFY_STATE, FALSE, L"obman family, ready");
    must(ready != NULL, "the child finds the event");
    take(hearth);
    must(GetHandleInformation(turns, &flags), "the flags of what is inherited");
    say("child: the semaphore is %s", flags & HANDLE_FLAG_INHERIT ? "inheritable in turn" : "not inheritable");
    must(ReleaseMutex(hearth), "the mutex is released");
    must(SetEvent(ready), "the child tells that it is there");
    for (unsigned i = 1; i <= 3; i++) {
        take(turns);
        say("child: turn %u", i);
        must(SetEvent(ready), "a turn is told");
    }
    must(!OpenMutexW(SYNCHRONIZE, FALSE, L"obman family, ready"), "an event is no mutex");
    say("child: as a mutex: error %u", (unsigned)GetLastError());
    ExitProcess(40 + 2);
}

/* Two handles to one event, by its name; and what it isn't called. */
static HANDLE named(void) {
    HANDLE again, ready = CreateEventA(NULL, FALSE, FALSE, "Local\\obman family, ready");
    must(ready != NULL && GetLastError() == ERROR_SUCCESS, "a new event");
    again = CreateEventW(NULL, TRUE, TRUE, L"obman family, ready");
    say("parent: made again: error %u", (unsigned)GetLastError());
    must(WaitForSingleObject(again, 0) == WAIT_TIMEOUT, "it stays as it was made");
    must(CloseHandle(again), "the second handle is closed");
    must(!OpenEventA(SYNCHRONIZE, FALSE, "Obman family, ready"), "names have their case");
    say("parent: by another case: error %u", (unsigned)GetLastError());
    return ready;
}

static void parent(void) {
    SECURITY_ATTRIBUTES inherited = {.nLength = sizeof inherited, .bInheritHandle = TRUE};
    HANDLE ready = named(), turns = CreateSemaphoreW(&inherited, 0, 3, NULL), hearth = CreateMutexA(&inherited, TRUE, NULL), made;
    must(turns && hearth, "what is inherited");
    must(SetHandleInformation(ready, HANDLE_FLAG_INHERIT, 0), "the event isn't inherited");
    made = begin_child(TRUE, (ULONG_PTR)turns, (ULONG_PTR)hearth);
    say("parent: the child is there: %s", WaitForSingleObject(ready, 30) == WAIT_TIMEOUT ? "not while the mutex is held" : "early");
    must(ReleaseMutex(hearth), "the mutex is released");
    take(ready);
    for (unsigned i = 1; i <= 3; i++) {
        say("parent: turn %u", i);
        must(ReleaseSemaphore(turns, 1, NULL), "a turn is given");
        take(ready);
    }
    say("parent: the child ended with %u", end_of_child(made));
    must(CloseHandle(ready) && !OpenEventW(SYNCHRONIZE, FALSE, L"obman family, ready"), "the name goes with the last handle");
    say("parent: nobody has the event: error %u", (unsigned)GetLastError());
    ExitProcess(0);
}

void start(void) {
    unsigned long long turns, hearth;
    if (is_child(&turns, &hearth)) {
        child((HANDLE)turns, (HANDLE)hearth);
    }
    parent();
}
