/* Children that each use up what a process has or all have together, and then ask for a thread: they are refused, and the next one finds
 * all of it again. */
#include "child.h"

enum { WAYS = 9, GRANDCHILD = WAYS };

static const char *const ways[WAYS] = {
    "handles", "events", "handles to threads that ended", "threads with large stacks", "timers that come again",
    "packets", "reads", "reads with events", "processes",
};

static HANDLE port, server, client, event;

static DWORD WINAPI sleeper(void *milliseconds) {
    Sleep((DWORD)(ULONG_PTR)milliseconds);
    return 0;
}

static BOOL process(void) {
    char path[MAX_PATH], line[] = "child 9 0";
    STARTUPINFOA how = {.cb = sizeof how};
    PROCESS_INFORMATION made;
    return GetModuleFileNameA(NULL, path, sizeof path) != 0 && CreateProcessA(path, line, NULL, NULL, FALSE, 0, NULL, NULL, &how, &made);
}

static BOOL periodic(void) {
    LARGE_INTEGER due = {.QuadPart = -1000000};
    HANDLE made = CreateWaitableTimerA(NULL, FALSE, NULL);
    return made != NULL && SetWaitableTimer(made, &due, 100, NULL, NULL, FALSE);
}

/* A read of a pipe that nobody writes to. */
static BOOL pending_read(HANDLE with) {
    static OVERLAPPED all;
    static char byte;
    all.hEvent = with;
    return ReadFile(server, &byte, 1, NULL, &all) || GetLastError() == ERROR_IO_PENDING;
}

/* One more of them: whether there is. */
static BOOL one_more(unsigned way) {
    HANDLE made = NULL;
    switch (way) {
    case 0: return DuplicateHandle(GetCurrentProcess(), GetStdHandle(STD_OUTPUT_HANDLE), GetCurrentProcess(), &made, SYNCHRONIZE, FALSE, 0);
    case 1: return CreateEventA(NULL, TRUE, FALSE, NULL) != NULL;
    case 2: made = CreateThread(NULL, 0, sleeper, (void *)0, 0, NULL); return made != NULL && WaitForSingleObject(made, INFINITE) == WAIT_OBJECT_0;
    case 3: return CreateThread(NULL, 16 << 20, sleeper, (void *)1000, STACK_SIZE_PARAM_IS_A_RESERVATION, NULL) != NULL;
    case 4: return periodic();
    case 5: return PostQueuedCompletionStatus(port, 1, 2, NULL);
    case 6: return pending_read(NULL);
    case 7: return pending_read(event);
    default: return process();
    }
}

void start(void) {
    unsigned long long way, none;
    if (!is_child(&way, &none)) {
        for (unsigned i = 0; i < WAYS; i++) {
            must(end_of_child(begin_child(FALSE, i, 0)) == 0, ways[i]);
        }
        say("the parent goes on");
    } else if (way == GRANDCHILD) {
        Sleep(1000);
    } else {
        port = CreateIoCompletionPort(INVALID_HANDLE_VALUE, NULL, 0, 0);
        event = CreateEventA(NULL, TRUE, FALSE, NULL);
        server = CreateNamedPipeA("\\\\.\\pipe\\all", PIPE_ACCESS_DUPLEX | FILE_FLAG_OVERLAPPED, 0, 1, 0, 0, 0, NULL);
        client = CreateFileA("\\\\.\\pipe\\all", GENERIC_READ | GENERIC_WRITE, 0, NULL, OPEN_EXISTING, 0, NULL);
        while (one_more((unsigned)way)) {
        }
        say("%s: error %u", ways[way], (unsigned)GetLastError());
        HANDLE made = CreateThread(NULL, 0, sleeper, (void *)0, 0, NULL);
        say("a thread: error %u", made != NULL ? 0 : (unsigned)GetLastError());
    }
    ExitProcess(0);
}
