/* A timer for the last moment that there is and later ones, and a wait without end: nothing comes of it, and no time passes. */
#include "guest.h"

void start(void) {
    LARGE_INTEGER due = {.QuadPart = (LONGLONG)1 << 63};
    HANDLE last = CreateWaitableTimerA(NULL, TRUE, NULL), often = CreateWaitableTimerA(NULL, FALSE, NULL), both[2] = {last, often};
    must(SetWaitableTimer(last, &due, 0, NULL, NULL, FALSE), "a timer for what never comes");
    due.QuadPart++;
    must(SetWaitableTimer(often, &due, 1, NULL, NULL, FALSE), "a timer for it that comes again");
    must(WaitForMultipleObjects(2, both, FALSE, 1000) == WAIT_TIMEOUT, "a second passes");
    say("a second has passed");
    WaitForMultipleObjects(2, both, FALSE, INFINITE);
    say("it came");
    ExitProcess(0);
}
