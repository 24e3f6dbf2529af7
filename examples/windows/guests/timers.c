/* Timers, and waits with deadlines. What comes first is 150 ms before what comes next, so that it does on a busy machine too. */
#include "guest.h"

enum { STEP = 150 };

static HANDLE lock;

/* Sleeps for so many steps, and says so. */
static DWORD WINAPI sleeper(void *steps) {
    Sleep(STEP * (DWORD)(ULONG_PTR)steps);
    take(lock);
    say("slept for %u steps", (unsigned)(ULONG_PTR)steps);
    must(ReleaseMutex(lock), "the lock is released");
    return 0;
}

static void deadlines(void) {
    HANDLE threads[3], never = CreateEventA(NULL, TRUE, FALSE, NULL);
    ULONGLONG began = GetTickCount64();
    for (int i = 0; i < 3; i++) {
        threads[i] = begin(sleeper, (void *)(ULONG_PTR)(3 - i));
    }
    join(threads, 3);
    say("that took %s", GetTickCount64() - began + 20 >= 3 * STEP ? "three steps" : "less than three steps");
    say("a wait for what never comes: %u", (unsigned)WaitForSingleObject(never, 5));
    must(CloseHandle(never), "a handle is closed");
}

static void set(HANDLE timer, int steps) {
    LARGE_INTEGER due = {.QuadPart = -10000LL * STEP * steps};
    must(SetWaitableTimer(timer, &due, 0, NULL, NULL, FALSE), "a timer is set");
}

static void any(HANDLE *timers) {
    say("the timer %u", (unsigned)WaitForMultipleObjects(2, timers, FALSE, INFINITE));
}

/* One that stays signaled and one that doesn't; one that is cancelled. */
static void relative(void) {
    HANDLE timers[2] = {CreateWaitableTimerW(NULL, TRUE, NULL), CreateWaitableTimerA(NULL, FALSE, "obman timers")};
    must(timers[0] && timers[1], "two timers");
    set(timers[0], 2);
    set(timers[1], 1);
    any(timers);
    any(timers);
    any(timers);
    set(timers[0], 3);
    must(WaitForSingleObject(timers[0], 0) == WAIT_TIMEOUT, "a timer that is set isn't signaled");
    set(timers[1], 1);
    must(CancelWaitableTimer(timers[1]), "a timer is cancelled");
    any(timers);
    must(CloseHandle(timers[0]) && CloseHandle(timers[1]), "handles are closed");
}

/* A moment as the calendar has it: what is over signals at once. */
static void absolute(void) {
    HANDLE timer = CreateWaitableTimerA(NULL, TRUE, NULL);
    FILETIME now;
    LARGE_INTEGER due;
    GetSystemTimeAsFileTime(&now);
    due.LowPart = now.dwLowDateTime;
    due.HighPart = (LONG)now.dwHighDateTime;
    due.QuadPart -= 10000000;
    must(timer && SetWaitableTimer(timer, &due, 0, NULL, NULL, FALSE), "a timer is set to what is over");
    take(timer);
    due.QuadPart += 10000000 + 10000LL * STEP;
    must(SetWaitableTimer(timer, &due, 0, NULL, NULL, FALSE), "a timer is set to what comes");
    say("before its moment: %u", (unsigned)WaitForSingleObject(timer, 0));
    take(timer);
    say("at its moment: %u", (unsigned)WaitForSingleObject(timer, 0));
    must(CloseHandle(timer), "a handle is closed");
}

/* One that comes again and again, until it is cancelled. */
static void periodic(void) {
    HANDLE timer = CreateWaitableTimerW(NULL, FALSE, NULL);
    LARGE_INTEGER due = {.QuadPart = -10000};
    must(timer && SetWaitableTimer(timer, &due, 20, NULL, NULL, FALSE), "a timer with a period");
    for (unsigned i = 1; i <= 4; i++) {
        take(timer);
        say("period %u", i);
    }
    must(CancelWaitableTimer(timer), "it is cancelled");
    WaitForSingleObject(timer, 0);
    say("once cancelled: %u", (unsigned)WaitForSingleObject(timer, 100));
    must(CloseHandle(timer), "a handle is closed");
}

void start(void) {
    lock = CreateMutexA(NULL, FALSE, NULL);
    must(lock != NULL, "a lock is made");
    deadlines();
    relative();
    absolute();
    periodic();
    ExitProcess(0);
}
