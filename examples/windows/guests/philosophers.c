/* Five philosophers round a table. The first three take the fork of lower number first; the others take both forks at once, by a
 * wait for all. No two neighbours eat at a time, and nobody starves. */
#include "guest.h"

enum { PHILOSOPHERS = 5, MEALS = 6 };

static HANDLE forks[PHILOSOPHERS], hungry;
static volatile LONG eating[PHILOSOPHERS], quarrels;
static unsigned meals[PHILOSOPHERS];

static void eat(int me) {
    int left = (me + PHILOSOPHERS - 1) % PHILOSOPHERS, right = (me + 1) % PHILOSOPHERS;
    eating[me] = 1;
    if (eating[left] || eating[right]) {
        InterlockedIncrement(&quarrels);
    }
    Sleep(1);
    meals[me]++;
    eating[me] = 0;
}

static DWORD WINAPI dine(void *number) {
    int me = (int)(ULONG_PTR)number, other = (me + 1) % PHILOSOPHERS;
    HANDLE both[2] = {forks[me < other ? me : other], forks[me < other ? other : me]};
    take(hungry);
    for (int i = 0; i < MEALS; i++) {
        if (me < 3) {
            take(both[0]);
            take(both[1]);
        } else {
            must(WaitForMultipleObjects(2, both, TRUE, INFINITE) == WAIT_OBJECT_0, "both forks");
        }
        eat(me);
        must(ReleaseMutex(both[1]) && ReleaseMutex(both[0]), "the forks are laid down");
    }
    return meals[me];
}

void start(void) {
    HANDLE guests[PHILOSOPHERS];
    DWORD ate;
    hungry = CreateEventA(NULL, TRUE, FALSE, NULL);
    must(hungry != NULL, "a bell is made");
    for (int i = 0; i < PHILOSOPHERS; i++) {
        forks[i] = CreateMutexW(NULL, FALSE, NULL);
        must(forks[i] != NULL, "a fork is made");
    }
    for (int i = 0; i < PHILOSOPHERS; i++) {
        guests[i] = begin(dine, (void *)(ULONG_PTR)i);
    }
    must(SetEvent(hungry), "the bell is rung");
    for (int i = 0; i < PHILOSOPHERS; i++) {
        take(guests[i]);
        must(GetExitCodeThread(guests[i], &ate), "a philosopher's end");
        say("philosopher %u ate %u times", (unsigned)i + 1, (unsigned)ate);
    }
    say("%u times with a neighbour", (unsigned)quarrels);
    ExitProcess(0);
}
