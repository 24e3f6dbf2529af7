/* A bounded buffer as Windows programs have it, in unchanged source: it compiles by mingw too, and prints the same. Two producers and a consumer
 * share four places behind a mutex, with a semaphore for the places that are vacant and one for those that are filled; the consumer waits for
 * whatever comes first, an item, a tick of a timer, or the event that ends it. */
#include <stdio.h>
#include <windows.h>

enum { PRODUCERS = 2, ITEMS = 500, PLACES = 4 };

static HANDLE vacant, filled, lock, finished, ticking;
static int store[PLACES], first, stock;
static int taken, sum;

static DWORD WINAPI produce(LPVOID number) {
    (void)number;
    for (int item = 1; item <= ITEMS; item++) {
        WaitForSingleObject(vacant, INFINITE);
        WaitForSingleObject(lock, INFINITE);
        store[(first + stock++) % PLACES] = item;
        ReleaseMutex(lock);
        ReleaseSemaphore(filled, 1, NULL);
    }
    return ITEMS;
}

static void take_one(void) {
    WaitForSingleObject(lock, INFINITE);
    sum += store[first];
    first = (first + 1) % PLACES;
    stock--;
    taken++;
    ReleaseMutex(lock);
    ReleaseSemaphore(vacant, 1, NULL);
}

static DWORD WINAPI consume(LPVOID unused) {
    HANDLE sources[3] = {filled, ticking, finished};
    int ticks = 0;
    (void)unused;
    for (;;) {
        switch (WaitForMultipleObjects(3, sources, FALSE, INFINITE)) {
        case WAIT_OBJECT_0: take_one(); break;
        case WAIT_OBJECT_0 + 1: ticks++; break;
        case WAIT_OBJECT_0 + 2: return ticks > 0;
        default: return 99;
        }
    }
}

int main(void) {
    HANDLE producers[PRODUCERS], consumer;
    LARGE_INTEGER due;
    DWORD code;
    vacant = CreateSemaphore(NULL, PLACES, PLACES, NULL);
    filled = CreateSemaphore(NULL, 0, PLACES, NULL);
    lock = CreateMutex(NULL, FALSE, NULL);
    finished = CreateEvent(NULL, TRUE, FALSE, TEXT("Local\\finished"));
    ticking = CreateWaitableTimer(NULL, FALSE, NULL);
    due.QuadPart = -10000; /* in a millisecond, and then each millisecond */
    SetWaitableTimer(ticking, &due, 1, NULL, NULL, FALSE);
    consumer = CreateThread(NULL, 0, consume, NULL, 0, NULL);
    for (int i = 0; i < PRODUCERS; i++) {
        producers[i] = CreateThread(NULL, 0, produce, NULL, 0, NULL);
    }
    if (WaitForMultipleObjects(PRODUCERS, producers, TRUE, INFINITE) == WAIT_FAILED) {
        printf("error %u\n", (unsigned)GetLastError());
    }
    Sleep(20);
    SetEvent(OpenEvent(EVENT_MODIFY_STATE, FALSE, TEXT("finished")));
    WaitForSingleObject(consumer, INFINITE);
    GetExitCodeThread(consumer, &code);
    printf("%d items were taken, their sum is %d, the timer %s\n", taken, sum, code == 1 ? "ticked" : "didn't tick");
    return 0;
}
