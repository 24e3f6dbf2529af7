/* Producers and consumers: a store of four places behind a mutex, with a semaphore for the places that are vacant and one for
 * those that are filled. Each item is taken once, and a producer's items in their order. */
#include "guest.h"

enum { PRODUCERS = 3, CONSUMERS = 2, ITEMS = 12, PLACES = 4, LAST = 0 };

static HANDLE vacant, filled, lock;
static unsigned store[PLACES], first, stock;
static unsigned taken, sum, last_of[PRODUCERS], out_of_order, overfull;

static void put(unsigned item) {
    take(vacant);
    take(lock);
    overfull += stock == PLACES;
    store[(first + stock++) % PLACES] = item;
    must(ReleaseMutex(lock), "the lock is released");
    must(ReleaseSemaphore(filled, 1, NULL), "a filled place is told");
}

static unsigned get(void) {
    unsigned item;
    take(filled);
    take(lock);
    item = store[first];
    first = (first + 1) % PLACES;
    stock--;
    if (item != LAST) {
        unsigned by = item / 100 - 1, number = item % 100;
        out_of_order += number != last_of[by] + 1;
        last_of[by] = number;
        taken++;
        sum += number;
    }
    must(ReleaseMutex(lock), "the lock is released");
    must(ReleaseSemaphore(vacant, 1, NULL), "a vacant place is told");
    return item;
}

/* Items are numbered from 1, with the producer's number in the hundreds. */
static DWORD WINAPI produce(void *number) {
    for (unsigned i = 1; i <= ITEMS; i++) {
        put((unsigned)(ULONG_PTR)number * 100 + i);
    }
    return 0;
}

static DWORD WINAPI consume(void *unused) {
    (void)unused;
    while (get() != LAST) {
    }
    return 0;
}

void start(void) {
    HANDLE producers[PRODUCERS], consumers[CONSUMERS];
    vacant = CreateSemaphoreA(NULL, PLACES, PLACES, NULL);
    filled = CreateSemaphoreW(NULL, 0, PLACES, NULL);
    lock = CreateMutexA(NULL, FALSE, NULL);
    must(vacant && filled && lock, "a store is made");
    for (int i = 0; i < CONSUMERS; i++) {
        consumers[i] = begin(consume, NULL);
    }
    for (int i = 0; i < PRODUCERS; i++) {
        producers[i] = begin(produce, (void *)(ULONG_PTR)(i + 1));
    }
    join(producers, PRODUCERS);
    for (int i = 0; i < CONSUMERS; i++) {
        put(LAST);
    }
    join(consumers, CONSUMERS);
    say("%u items were taken, their sum is %u", taken, sum);
    say("%u were out of order, %u had no place", out_of_order, overfull);
    must(!ReleaseSemaphore(vacant, 1, NULL), "a store with all its places vacant has no more");
    say("one place more: error %u", (unsigned)GetLastError());
    ExitProcess(0);
}
