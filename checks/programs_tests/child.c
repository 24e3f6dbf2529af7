/* A parent and its child: handles that are inherited and one that isn't, an event by its name, an exit code, what remains when both have used it. */
#include <stdio.h>
#include <stdlib.h>
#include <windows.h>

static int child(char **words) {
    HANDLE semaphore = (HANDLE)(ULONG_PTR)atoi(words[1]), mutex = (HANDLE)(ULONG_PTR)atoi(words[2]);
    HANDLE event = OpenEventA(EVENT_MODIFY_STATE, FALSE, "Local\\family");
    LONG before = -1;
    printf("child: opened %d\n", event != NULL);
    BOOL is_released = ReleaseSemaphore(semaphore, 2, &before);
    DWORD owned = WaitForSingleObject(mutex, 5000);
    printf("child: released %d before %ld, mutex %lx\n", is_released, before, owned);
    SetEvent(event);
    return 9;
}

int main(int count, char **words) {
    setvbuf(stdout, NULL, _IONBF, 0);
    if (count > 1) {
        return child(words);
    }
    char command[100];
    SECURITY_ATTRIBUTES inherited = {sizeof inherited, NULL, TRUE};
    STARTUPINFOA start = {.cb = sizeof start};
    PROCESS_INFORMATION made;
    DWORD code;
    HANDLE event = CreateEventA(NULL, TRUE, FALSE, "Local\\family"), semaphore = CreateSemaphoreA(&inherited, 0, 5, NULL);
    HANDLE mutex = CreateMutexA(&inherited, TRUE, NULL);
    sprintf(command, "child.exe %d %d", (int)(ULONG_PTR)semaphore, (int)(ULONG_PTR)mutex);
    if (!CreateProcessA(NULL, command, NULL, NULL, TRUE, CREATE_SUSPENDED, NULL, NULL, &start, &made)) {
        printf("no process, error %lu\n", GetLastError());
        return 1;
    }
    printf("suspended: semaphore %lx\n", WaitForSingleObject(semaphore, 50));
    printf("resumed from %lu\n", ResumeThread(made.hThread));
    printf("semaphore %lx\n", WaitForSingleObject(semaphore, 10000));
    ReleaseMutex(mutex); /* the child prints from then on, until it sets the event */
    printf("event %lx\n", WaitForSingleObject(event, 10000));
    printf("process %lx", WaitForSingleObject(made.hProcess, 10000));
    GetExitCodeProcess(made.hProcess, &code);
    printf(" code %lu, thread %lx\n", code, WaitForSingleObject(made.hThread, 0));
    printf("mutex %lx\n", WaitForSingleObject(mutex, 1000));
    printf("semaphore %lx", WaitForSingleObject(semaphore, 0));
    printf(" %lx\n", WaitForSingleObject(semaphore, 0));
    printf("no program %d", CreateProcessA(NULL, "missing.exe", NULL, NULL, FALSE, 0, NULL, NULL, &start, &made));
    printf(", error %lu\n", GetLastError());
    return 0;
}
