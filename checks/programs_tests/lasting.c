/* What is to last through a savestate that is taken while the thread counts: APCs that wait to be run, memory that lies at two addresses, a file that is
 * deleted and still open, a timer's routine, numbers of floating point. */
#include <stdio.h>
#include <string.h>
#include <windows.h>

static VOID CALLBACK apc(ULONG_PTR number) {
    printf("apc %d\n", (int)number);
}

static VOID CALLBACK came(LPVOID with, DWORD low, DWORD high) {
    (void)low, (void)high;
    printf("came with %d\n", (int)(ULONG_PTR)with);
}

int main(void) {
    HANDLE section = CreateFileMappingA(INVALID_HANDLE_VALUE, NULL, PAGE_READWRITE, 0, 4096, NULL), timer = CreateWaitableTimerA(NULL, TRUE, NULL);
    char *one = MapViewOfFile(section, FILE_MAP_WRITE, 0, 0, 0), *other = MapViewOfFile(section, FILE_MAP_WRITE, 0, 0, 0), text[8] = "";
    HANDLE file = CreateFileA("gone", GENERIC_READ | GENERIC_WRITE, 0, NULL, CREATE_ALWAYS, FILE_FLAG_DELETE_ON_CLOSE, NULL);
    LARGE_INTEGER due = {.QuadPart = -10000000};
    double half = 0.5, sum = 0;
    DWORD moved;
    setvbuf(stdout, NULL, _IONBF, 0);
    CloseHandle(section);
    WriteFile(file, "kept", 5, &moved, NULL);
    SetWaitableTimer(timer, &due, 0, came, (void *)7, FALSE);
    QueueUserAPC(apc, GetCurrentThread(), 1);
    QueueUserAPC(apc, GetCurrentThread(), 2);
    for (volatile int i = 0; i < 400000; i++) {
        sum += half;
    }
    strcpy(one, "behind");
    SetFilePointer(file, 0, NULL, FILE_BEGIN);
    ReadFile(file, text, 5, &moved, NULL);
    printf("%s, %s, %.1f\n", other, text, sum);
    printf("slept %lx\n", SleepEx(0, TRUE));
    printf("slept %lx\n", SleepEx(2000, TRUE));
    return 0;
}
