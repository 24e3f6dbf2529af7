/* Calls of Windows that Wine's tests of them leave out: it prints what they answer, under Wine too. */
#include <stdio.h>
#include <windows.h>

static HANDLE mutex, event;
static int routines, calls, pulsed;

static void CALLBACK on_timer(LPVOID argument, DWORD low, DWORD high) {
    (void)low;
    routines += argument == &routines && high > 0;
}

static void CALLBACK on_call(ULONG_PTR argument) {
    calls += (int)argument;
}

static DWORD WINAPI take_and_end(LPVOID unused) {
    (void)unused;
    WaitForSingleObject(mutex, INFINITE);
    ExitThread(7);
}

static DWORD WINAPI wait_for_pulse(LPVOID ready) {
    pulsed += SignalObjectAndWait(ready, event, 5000, FALSE) == WAIT_OBJECT_0;
    return 0;
}

static DWORD WINAPI sleep_alertably(LPVOID ready) {
    return SignalObjectAndWait(ready, event, INFINITE, TRUE);
}

/* One that is terminated elsewhere may take a lock of the C library's with it. */
static DWORD WINAPI wait_for_good(LPVOID ready) {
    SignalObjectAndWait(ready, event, INFINITE, FALSE);
    return 0;
}

/* A period's routine comes once for each moment at which its thread is alertable behind it; a cancelled one no more. */
static void timers(void) {
    LARGE_INTEGER due = {.QuadPart = -50000}, past = {.QuadPart = 1};
    HANDLE timer = CreateWaitableTimerA(NULL, FALSE, NULL);
    SetWaitableTimer(timer, &due, 0, on_timer, &routines, FALSE);
    printf("a routine: %u, ", (unsigned)SleepEx(1000, TRUE));
    printf("%d, then %u\n", routines, (unsigned)WaitForSingleObject(timer, 0));
    SetWaitableTimer(timer, &due, 20, on_timer, &routines, FALSE);
    for (int i = 0; i < 3; i++) {
        SleepEx(1000, TRUE);
    }
    CancelWaitableTimer(timer);
    printf("three times: %d, cancelled: %u\n", routines, (unsigned)SleepEx(60, TRUE));
    SetWaitableTimer(timer, &due, 0, on_timer, &routines, FALSE);
    Sleep(30);
    CancelWaitableTimer(timer);
    printf("queued and cancelled: %u\n", (unsigned)SleepEx(0, TRUE));
    SetWaitableTimer(timer, &past, 10, NULL, NULL, FALSE);
    for (int i = 0; i < 3; i++) {
        printf("a period: %u\n", (unsigned)WaitForSingleObject(timer, 1000));
    }
    printf("set again: %d, ", SetWaitableTimer(timer, &due, 0, NULL, NULL, FALSE));
    printf("not yet: %u\n", (unsigned)WaitForSingleObject(timer, 0));
    CloseHandle(timer);
}

static void threads(void) {
    HANDLE ready = CreateEventA(NULL, FALSE, FALSE, NULL), thread, both[2];
    DWORD code, id;
    mutex = CreateMutexA(NULL, FALSE, NULL);
    event = CreateEventA(NULL, TRUE, FALSE, NULL);
    thread = CreateThread(NULL, 0, take_and_end, NULL, CREATE_SUSPENDED, &id);
    GetExitCodeThread(thread, &code);
    printf("suspended: %u, %u, %d\n", (unsigned)code, (unsigned)WaitForSingleObject(thread, 0), GetThreadId(thread) == id);
    printf("resumed: %u, ", (unsigned)ResumeThread(thread));
    printf("%u\n", (unsigned)WaitForSingleObject(thread, 5000));
    GetExitCodeThread(thread, &code);
    printf("ended with %u, abandoned: %u, ", (unsigned)code, (unsigned)WaitForSingleObject(mutex, 0));
    printf("once: %u\n", (unsigned)WaitForSingleObject(mutex, 0));
    printf("a call for one that has ended: %u\n", (unsigned)QueueUserAPC(on_call, thread, 1));
    CloseHandle(thread);
    thread = CreateThread(NULL, 0, wait_for_pulse, ready, 0, NULL);
    WaitForSingleObject(ready, INFINITE);
    PulseEvent(event);
    printf("pulsed: %u, ", (unsigned)WaitForSingleObject(thread, 5000));
    printf("%d, and nobody else: %u\n", pulsed, (unsigned)WaitForSingleObject(event, 0));
    CloseHandle(thread);
    thread = CreateThread(NULL, 0, sleep_alertably, ready, 0, NULL);
    WaitForSingleObject(ready, INFINITE);
    printf("a call: %u, ", (unsigned)QueueUserAPC(on_call, thread, 5));
    WaitForSingleObject(thread, 5000);
    GetExitCodeThread(thread, &code);
    printf("%d, %u\n", calls, (unsigned)code);
    both[0] = thread;
    both[1] = CreateThread(NULL, 0, wait_for_good, ready, 0, NULL);
    WaitForSingleObject(ready, INFINITE);
    Sleep(20);
    TerminateThread(both[1], 9);
    printf("both: %u, ", (unsigned)WaitForMultipleObjects(2, both, TRUE, 5000));
    GetExitCodeThread(both[1], &code);
    printf("%u\n", (unsigned)code);
    QueueUserAPC(on_call, GetCurrentThread(), 10);
    printf("what is there goes before a call: %u, ", (unsigned)WaitForSingleObjectEx(thread, 0, TRUE));
    printf("%d, and a call ", calls);
    printf("before a timeout: %u, ", (unsigned)WaitForSingleObjectEx(event, 0, TRUE));
    printf("%d\n", calls);
    SetLastError(0);
    printf("own: %u, ", (unsigned)WaitForSingleObject(GetCurrentThread(), 0));
    printf("%d, ", SetEvent(thread));
    printf("%u\n", (unsigned)GetLastError());
}

static DWORD WINAPI end_last(LPVOID main_thread) {
    printf("the first thread: %u\n", (unsigned)WaitForSingleObject(main_thread, 5000));
    fflush(stdout);
    ExitThread(3);
}

int main(void) {
    HANDLE own;
    timers();
    threads();
    DuplicateHandle(GetCurrentProcess(), GetCurrentThread(), GetCurrentProcess(), &own, 0, FALSE, DUPLICATE_SAME_ACCESS);
    CloseHandle(CreateThread(NULL, 0, end_last, own, 0, NULL));
    ExitThread(4); /* the process ends with its last thread */
}
