/* A pool of eight threads, which begin at one signal and all want the same lock, again and again. What the lock guards is read and
 * written in two steps, with a turn for the others between, so that two inside would lose a count. Outside of it they work with
 * numbers of both kinds that a processor has, which nobody else's turn may change. */
#include "guest.h"

enum { THREADS = 8, ROUNDS = 12 };

static HANDLE lock, go, done;
static volatile unsigned total;
static volatile LONG left = THREADS, inside, crowded;
static unsigned rounds[THREADS], sums[THREADS];

static unsigned sum_of(int round) {
    double sum = round;
    long double other = round;
    for (int i = 0; i < 40; i++) {
        sum = sum * 0.75 + i;
        other = other / 3 + i;
    }
    return (unsigned)(sum * 100) + (unsigned)(other * 100);
}

static void count_up(void) {
    unsigned before;
    if (InterlockedIncrement(&inside) != 1) {
        InterlockedIncrement(&crowded);
    }
    before = total;
    if (before % 5 == 0) {
        Sleep(0);
    }
    total = before + 1;
    InterlockedDecrement(&inside);
}

static DWORD WINAPI work(void *number) {
    int me = (int)(ULONG_PTR)number;
    take(go);
    for (int i = 0; i < ROUNDS; i++) {
        take(lock);
        if (i % 4 == 3) {
            take(lock); /* its owner has it once more */
            count_up();
            must(ReleaseMutex(lock), "the lock is released");
        } else {
            count_up();
        }
        must(ReleaseMutex(lock), "the lock is released");
        rounds[me]++;
        sums[me] += sum_of(i);
    }
    if (InterlockedDecrement(&left) == 0) {
        must(SetEvent(done), "the end is told");
    }
    return 0;
}

void start(void) {
    HANDLE threads[THREADS];
    unsigned sum = 0, due = 0, others = 0;
    lock = CreateMutexA(NULL, TRUE, NULL);
    go = CreateEventW(NULL, TRUE, FALSE, NULL);
    done = CreateEventA(NULL, FALSE, FALSE, NULL);
    must(lock && go && done, "a pool is made");
    for (int i = 0; i < THREADS; i++) {
        threads[i] = begin(work, (void *)(ULONG_PTR)i);
    }
    must(SetEvent(go), "the pool begins");
    must(WaitForSingleObject(done, 20) == WAIT_TIMEOUT, "nobody passes a lock that is held");
    say("while the lock is held: %u", total);
    must(ReleaseMutex(lock), "the lock is released");
    take(done);
    join(threads, THREADS);
    for (int i = 0; i < ROUNDS; i++) {
        due += sum_of(i);
    }
    for (int i = 0; i < THREADS; i++) {
        sum += rounds[i];
        others += sums[i] != due;
    }
    say("%u rounds, counted to %u, %u crowded", sum, total, (unsigned)crowded);
    say("%u sums are others", others);
    must(!ReleaseMutex(lock), "a lock that is free can't be released");
    say("once more: error %u", (unsigned)GetLastError());
    ExitProcess(THREADS);
}
