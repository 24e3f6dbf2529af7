/* Two threads that count without a lock. */
#include <stdio.h>
#include <windows.h>

static volatile unsigned total;

static DWORD WINAPI add(void *unused) {
    (void)unused;
    for (int i = 0; i < 100; i++) {
        unsigned before = total;
        for (volatile int k = 0; k < 3; k++) {
        }
        total = before + 1;
    }
    return 0;
}

int main(void) {
    HANDLE both[2] = {CreateThread(NULL, 0, add, NULL, 0, NULL), CreateThread(NULL, 0, add, NULL, 0, NULL)};
    WaitForMultipleObjects(2, both, TRUE, INFINITE);
    printf("%u\n", total);
    return 0;
}
