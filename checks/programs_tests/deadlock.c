/* Two threads that take two mutexes in the opposite order: by some turns each waits for the other. */
#include <stdio.h>
#include <windows.h>

static HANDLE one, other;

static DWORD WINAPI run(LPVOID is_first) {
    HANDLE first = is_first ? one : other, second = is_first ? other : one;
    WaitForSingleObject(first, INFINITE);
    for (volatile int i = 0; i < 1000; i++) {
    }
    WaitForSingleObject(second, INFINITE);
    ReleaseMutex(second);
    ReleaseMutex(first);
    return 0;
}

int main(void) {
    HANDLE both[2];
    one = CreateMutexA(NULL, FALSE, "one");
    other = CreateMutexA(NULL, FALSE, "other");
    both[0] = CreateThread(NULL, 0, run, &one, 0, NULL);
    both[1] = CreateThread(NULL, 0, run, NULL, 0, NULL);
    WaitForMultipleObjects(2, both, TRUE, INFINITE);
    puts("both");
    return 0;
}
