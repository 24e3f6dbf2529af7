/* Thread pools: work, waits for one event by two of them, timers, and a group that is waited for. */
#include <stdio.h>
#include <windows.h>

static LONG waits, works, ticks;

static VOID CALLBACK waited(PVOID unused, BOOLEAN timed_out) {
    (void)unused;
    InterlockedExchangeAdd(&waits, timed_out ? 100 : 1);
}

static VOID CALLBACK work(PTP_CALLBACK_INSTANCE unused, PVOID with, PTP_WORK it) {
    (void)unused, (void)with, (void)it;
    InterlockedIncrement(&works);
}

static VOID CALLBACK tick(PTP_CALLBACK_INSTANCE unused, PVOID done, PTP_TIMER it) {
    (void)unused, (void)it;
    if (InterlockedIncrement(&ticks) == 3) {
        SetEvent(done);
    }
}

static DWORD WINAPI item(PVOID done) {
    return SetEvent(done);
}

int main(void) {
    HANDLE event = CreateEventA(NULL, TRUE, FALSE, NULL), done = CreateEventA(NULL, FALSE, FALSE, NULL), first, second, third;
    RegisterWaitForSingleObject(&first, event, waited, NULL, INFINITE, WT_EXECUTEONLYONCE);
    RegisterWaitForSingleObject(&second, event, waited, NULL, INFINITE, WT_EXECUTEONLYONCE);
    RegisterWaitForSingleObject(&third, done, waited, NULL, 20, WT_EXECUTEONLYONCE);
    Sleep(100);
    printf("timed out %ld\n", waits);
    SetEvent(event);
    Sleep(100);
    UnregisterWaitEx(first, INVALID_HANDLE_VALUE);
    UnregisterWaitEx(second, INVALID_HANDLE_VALUE);
    printf("waited %ld\n", waits);
    PTP_WORK many = CreateThreadpoolWork(work, NULL, NULL);
    for (int i = 0; i < 50; i++) {
        SubmitThreadpoolWork(many);
    }
    WaitForThreadpoolWorkCallbacks(many, FALSE);
    CloseThreadpoolWork(many);
    printf("worked %ld\n", works);
    QueueUserWorkItem(item, done, WT_EXECUTEDEFAULT);
    printf("an item %lx\n", WaitForSingleObject(done, 5000));
    PTP_TIMER timer = CreateThreadpoolTimer(tick, done, NULL);
    FILETIME due = {(DWORD)-100000, 0xFFFFFFFF};
    SetThreadpoolTimer(timer, &due, 10, 0);
    printf("ticks %lx\n", WaitForSingleObject(done, 5000));
    SetThreadpoolTimer(timer, NULL, 0, 0);
    WaitForThreadpoolTimerCallbacks(timer, TRUE);
    CloseThreadpoolTimer(timer);
    return 0;
}
