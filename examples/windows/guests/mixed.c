/* Waits for any and for all of mixed kinds: two events, a mutex, a semaphore, a timer, a thread and a process. */
#include "child.h"

enum { BY_HAND, BY_ITSELF, MUTEX, SEMAPHORE, TIMER, THREAD, PROCESS, KINDS };

static HANDLE objects[KINDS], second;
static const char *const names[KINDS] = {
    "the event that is reset by hand", "the event that resets itself", "the mutex", "the semaphore", "the timer", "the thread", "the process",
};

static void any(DWORD milliseconds) {
    DWORD code = WaitForMultipleObjects(KINDS, objects, FALSE, milliseconds);
    say("any: %s", code < KINDS ? names[code] : code == WAIT_TIMEOUT ? "none" : "something else");
}

static void all(DWORD milliseconds) {
    DWORD code = WaitForMultipleObjects(KINDS, objects, TRUE, milliseconds);
    say("all: %s", code == WAIT_OBJECT_0 ? "signaled" : code == WAIT_TIMEOUT ? "not yet" : "something else");
}

/* Takes the mutex, lets it go when the second event is set, and ends. */
static DWORD WINAPI work(void *taken) {
    take(objects[MUTEX]);
    must(SetEvent(taken), "the mutex is taken");
    take(second);
    must(ReleaseMutex(objects[MUTEX]), "the mutex is released");
    return 0;
}

/* Signals all but what was signaled before, one after another, beside the wait for all. */
static DWORD WINAPI signal_all(void *go) {
    LARGE_INTEGER due = {.QuadPart = -10000};
    take(go);
    must(SetEvent(objects[BY_ITSELF]), "the event is set");
    must(ReleaseSemaphore(objects[SEMAPHORE], 1, NULL), "the semaphore is released");
    must(SetWaitableTimer(objects[TIMER], &due, 0, NULL, NULL, FALSE), "the timer is set");
    Sleep(3);
    must(SetEvent(objects[BY_HAND]), "the event is set");
    return 0;
}

static void make(HANDLE taken) {
    objects[BY_HAND] = CreateEventA(NULL, TRUE, FALSE, NULL);
    objects[BY_ITSELF] = CreateEventW(NULL, FALSE, FALSE, NULL);
    objects[MUTEX] = CreateMutexA(NULL, FALSE, NULL);
    objects[SEMAPHORE] = CreateSemaphoreA(NULL, 0, 2, NULL);
    objects[TIMER] = CreateWaitableTimerA(NULL, FALSE, NULL);
    second = OpenEventA(EVENT_ALL_ACCESS, FALSE, "obman mixed");
    objects[THREAD] = begin(work, taken);
    take(taken);
    objects[PROCESS] = begin_child(FALSE, 0, 0);
    for (int i = 0; i < KINDS; i++) {
        must(objects[i] != NULL, names[i]);
    }
}

void start(void) {
    unsigned long long first, other;
    HANDLE taken, go, helper;
    LARGE_INTEGER due = {.QuadPart = -20000};
    LONG before;
    if (is_child(&first, &other)) {
        take(OpenEventW(SYNCHRONIZE, FALSE, L"obman mixed"));
        ExitProcess(0);
    }
    taken = CreateEventW(NULL, FALSE, FALSE, NULL);
    go = CreateEventW(NULL, TRUE, FALSE, L"obman mixed");
    must(taken && go, "events");
    make(taken);
    any(0);
    any(2);
    must(SetEvent(objects[BY_ITSELF]), "the event is set");
    any(INFINITE);
    must(ReleaseSemaphore(objects[SEMAPHORE], 2, &before) && before == 0, "the semaphore is released");
    must(SetEvent(objects[BY_HAND]), "the event is set");
    any(INFINITE);
    must(ResetEvent(objects[BY_HAND]), "the event is reset");
    any(INFINITE);
    any(INFINITE);
    must(SetWaitableTimer(objects[TIMER], &due, 0, NULL, NULL, FALSE), "the timer is set");
    any(INFINITE);
    all(0);
    helper = begin(signal_all, go);
    all(2);
    must(SetEvent(second), "the thread and the child go on");
    all(INFINITE);
    must(WaitForSingleObject(objects[SEMAPHORE], 0) == WAIT_TIMEOUT, "the semaphore was taken");
    must(WaitForSingleObject(objects[BY_ITSELF], 0) == WAIT_TIMEOUT, "the event was taken");
    must(WaitForSingleObject(objects[THREAD], 0) == WAIT_OBJECT_0, "a thread that has ended stays signaled");
    must(ReleaseMutex(objects[MUTEX]), "the mutex was taken");
    join(&helper, 1);
    ExitProcess(0);
}
