/* What kernel32 makes of system calls: locks without handles, objects by name, APCs, suspended threads, fiber-local storage, handlers of exceptions, timers. */
#include <stdio.h>
#include <windows.h>
#include <winternl.h>

static CRITICAL_SECTION section;
static SRWLOCK slim = SRWLOCK_INIT;
static CONDITION_VARIABLE changed = CONDITION_VARIABLE_INIT;
static INIT_ONCE once = INIT_ONCE_STATIC_INIT;
static DWORD slot;
static int total, ready;

static BOOL CALLBACK begin_once(PINIT_ONCE it, PVOID with, PVOID *context) {
    puts("once");
    return it != NULL && with == NULL && context == NULL;
}

static DWORD WINAPI count(LPVOID number) {
    InitOnceExecuteOnce(&once, begin_once, NULL, NULL);
    for (int i = 0; i < 100; i++) {
        EnterCriticalSection(&section);
        total++;
        LeaveCriticalSection(&section);
    }
    AcquireSRWLockExclusive(&slim);
    ready++;
    ReleaseSRWLockExclusive(&slim);
    WakeConditionVariable(&changed);
    return (DWORD)(ULONG_PTR)number;
}

static void locks(void) {
    HANDLE all[8];
    DWORD code;
    InitializeCriticalSection(&section);
    for (int i = 0; i < 8; i++) {
        all[i] = CreateThread(NULL, 0, count, (LPVOID)(ULONG_PTR)i, 0, NULL);
    }
    AcquireSRWLockExclusive(&slim);
    while (ready < 8) {
        SleepConditionVariableSRW(&changed, &slim, INFINITE, 0);
    }
    ReleaseSRWLockExclusive(&slim);
    printf("all %lu", WaitForMultipleObjects(8, all, TRUE, INFINITE));
    printf(", total %d\n", total);
    GetExitCodeThread(all[5], &code);
    printf("code %lu\n", code);
}

/* What an event's name is told as, behind the path to it. */
static void told(const WCHAR *name) {
    struct {
        UNICODE_STRING text;
        WCHAR room[300];
    } all = {.room = {0}};
    HANDLE event = CreateEventW(NULL, TRUE, FALSE, name);
    NTSTATUS status = NtQueryObject(event, (OBJECT_INFORMATION_CLASS)1, &all, sizeof all, NULL); /* ObjectNameInformation */
    const WCHAR *behind = status == 0 ? wcsrchr(all.text.Buffer, L'\\') : NULL;
    printf("told as it is spelled %d\n", behind != NULL && wcscmp(behind + 1, name) == 0);
}

static void names(void) {
    HANDLE mutex = CreateMutexA(NULL, TRUE, "Local\\programs_mutex"), again = OpenMutexA(SYNCHRONIZE, FALSE, "programs_mutex");
    printf("opened %d, owned %lx\n", again != NULL, WaitForSingleObject(again, 0));
    printf("released %d", ReleaseMutex(mutex));
    printf(" %d", ReleaseMutex(again));
    printf(" %d", ReleaseMutex(mutex));
    printf(", error %lu\n", GetLastError());
    printf("an event of its name %d", CreateEventA(NULL, TRUE, FALSE, "programs_mutex") != NULL);
    printf(", error %lu\n", GetLastError());
    printf("a wide name %d", CreateEventW(NULL, TRUE, FALSE, L"\x00e4 name") != NULL);
    printf(" %d", CreateEventW(NULL, TRUE, FALSE, L"\x00e4 name") != NULL);
    printf(", error %lu\n", GetLastError());
    told(L"50%0041% \x00e4\x4e2d");
}

static VOID CALLBACK apc(ULONG_PTR number) {
    printf("apc %d\n", (int)number);
}

static VOID WINAPI left(PVOID value) {
    printf("fiber-local %d\n", (int)(ULONG_PTR)value);
}

static DWORD WINAPI wait_alertably(LPVOID event) {
    FlsSetValue(slot, (PVOID)5);
    DWORD how = WaitForSingleObjectEx(event, INFINITE, TRUE);
    printf("wait %lx\n", how);
    return 0;
}

static void threads(void) {
    HANDLE event = CreateEventA(NULL, FALSE, FALSE, NULL), other;
    slot = FlsAlloc(left);
    other = CreateThread(NULL, 0, wait_alertably, event, 0, NULL);
    Sleep(50);
    QueueUserAPC(apc, other, 77);
    printf("waited %lu\n", WaitForSingleObject(other, INFINITE));
    QueueUserAPC(apc, GetCurrentThread(), 1);
    QueueUserAPC(apc, GetCurrentThread(), 2);
    printf("slept %lx\n", SleepEx(INFINITE, TRUE));
    other = CreateThread(NULL, 0, count, (LPVOID)3, CREATE_SUSPENDED, NULL);
    printf("suspended %lx", WaitForSingleObject(other, 20));
    printf(" %lu", SuspendThread(other));
    printf(" %lu", ResumeThread(other));
    printf(" %lu", ResumeThread(other));
    printf(" %lx\n", WaitForSingleObject(other, 1000));
    DWORD twice[2];
    HANDLE same[2] = {event, event};
    twice[0] = WaitForMultipleObjects(2, same, FALSE, 0);
    SetEvent(event);
    twice[1] = WaitForMultipleObjects(2, same, FALSE, 0);
    printf("twice %lx %lx\n", twice[0], twice[1]);
    printf("own thread %lx", WaitForSingleObject(GetCurrentThread(), 10));
    printf(", own process %lx\n", WaitForSingleObject(GetCurrentProcess(), 0));
}

static LONG CALLBACK handle(EXCEPTION_POINTERS *it) {
    static char page[16];
    DWORD code = it->ExceptionRecord->ExceptionCode;
    printf("exception %lx\n", code);
    if (code == EXCEPTION_ACCESS_VIOLATION) {
        printf("at %p, write %d\n", (void *)it->ExceptionRecord->ExceptionInformation[1], (int)it->ExceptionRecord->ExceptionInformation[0]);
        it->ContextRecord->Rax = (ULONG_PTR)page;
        return EXCEPTION_CONTINUE_EXECUTION;
    }
    if (code == EXCEPTION_BREAKPOINT) {
        it->ContextRecord->Rip++;
    }
    if (code == EXCEPTION_INT_DIVIDE_BY_ZERO) {
        it->ContextRecord->Rcx = 2;
    }
    return EXCEPTION_CONTINUE_EXECUTION;
}

static void exceptions(void) {
    int stored = 0, quotient = 0;
    PVOID handler = AddVectoredExceptionHandler(1, handle);
    RaiseException(0xE0000001, 0, 0, NULL);
    __asm__ volatile("mov $8, %%eax\n\tmovl $5, (%%rax)\n\tmovl (%%rax), %0" : "=r"(stored) : : "rax", "memory");
    __asm__ volatile("int3");
    __asm__ volatile("mov $10, %%eax\n\txor %%edx, %%edx\n\txor %%ecx, %%ecx\n\tidiv %%ecx\n\tmov %%eax, %0" : "=r"(quotient) : : "rax", "rcx", "rdx");
    printf("stored %d, quotient %d\n", stored, quotient);
    RemoveVectoredExceptionHandler(handler);
}

static LONGLONG now(void) {
    FILETIME time;
    GetSystemTimeAsFileTime(&time);
    return (LONGLONG)time.dwHighDateTime << 32 | time.dwLowDateTime;
}

static VOID CALLBACK came(LPVOID with, DWORD low, DWORD high) {
    printf("came with %d, not early %d\n", (int)(ULONG_PTR)with, ((LONGLONG)high << 32 | low) <= now());
}

static void timers(void) {
    HANDLE timer = CreateWaitableTimerA(NULL, FALSE, NULL);
    LARGE_INTEGER due = {.QuadPart = -200000};
    ULONGLONG before = GetTickCount64();
    SetWaitableTimer(timer, &due, 20, NULL, NULL, FALSE);
    printf("timer %lx", WaitForSingleObject(timer, 1000));
    printf(" %lx", WaitForSingleObject(timer, 1000));
    printf(" %lx", WaitForSingleObject(timer, 1000));
    printf(", not early %d", GetTickCount64() - before >= 50);
    printf(", cancelled %d", CancelWaitableTimer(timer));
    printf(" %lx\n", WaitForSingleObject(timer, 50));
    due.QuadPart = now() + 200000;
    SetWaitableTimer(timer, &due, 20, came, (void *)3, FALSE);
    for (int i = 0; i < 3; i++) {
        printf("slept %lx\n", SleepEx(1000, TRUE));
    }
    Sleep(30);
    printf("cancelled %d", CancelWaitableTimer(timer));
    printf(", slept %lx\n", SleepEx(50, TRUE));
}

static void refusals(void) {
    HANDLE semaphore = CreateSemaphoreA(NULL, 1, 2, NULL);
    LONG before;
    printf("wait %lx", WaitForSingleObject((HANDLE)0x7770, 0));
    printf(", error %lu\n", GetLastError());
    printf("close %d", CloseHandle((HANDLE)0x7770));
    printf(", error %lu\n", GetLastError());
    printf("set %d", SetEvent(semaphore));
    printf(", error %lu\n", GetLastError());
    printf("release %d", ReleaseSemaphore(semaphore, 1, &before));
    printf(" before %ld", before);
    printf(", again %d", ReleaseSemaphore(semaphore, 1, &before));
    printf(", error %lu\n", GetLastError());
}

int main(void) {
    setvbuf(stdout, NULL, _IONBF, 0);
    locks();
    names();
    threads();
    exceptions();
    timers();
    refusals();
    return 5;
}
