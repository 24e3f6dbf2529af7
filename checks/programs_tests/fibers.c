/* Fibers that pass numbers to each other, each with a stack, numbers of floating point and fiber-local values of its own. */
#include <stdio.h>
#include <windows.h>

static LPVOID fibers[4];
static DWORD slot;

static VOID CALLBACK run(LPVOID number) {
    int mine = (int)(ULONG_PTR)number;
    double half = mine / 2.0;
    FlsSetValue(slot, (LPVOID)(ULONG_PTR)(10 * mine));
    for (int i = 0; i < 3; i++) {
        printf("fiber %d, round %d, %.1f, %d\n", mine, i, half, (int)(ULONG_PTR)FlsGetValue(slot));
        half += 1;
        SwitchToFiber(fibers[(mine + 1) % 4]);
    }
    SwitchToFiber(fibers[0]);
}

int main(void) {
    setvbuf(stdout, NULL, _IONBF, 0);
    slot = FlsAlloc(NULL);
    fibers[0] = ConvertThreadToFiber(NULL);
    for (int i = 1; i < 4; i++) {
        fibers[i] = CreateFiber(0, run, (LPVOID)(ULONG_PTR)i);
    }
    for (int i = 0; i < 3; i++) {
        printf("main %d, %d\n", i, (int)(ULONG_PTR)FlsGetValue(slot));
        SwitchToFiber(fibers[1]);
    }
    for (int i = 1; i < 4; i++) {
        DeleteFiber(fibers[i]);
    }
    printf("a thread again %d\n", ConvertFiberToThread());
    return 0;
}
