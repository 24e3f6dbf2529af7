/* Mutexes whose owners end: a thread that returns, a thread that ends in the midst of its work, and a process. Whoever gets such a
 * mutex next is told that it was abandoned, once. */
#include "child.h"

static HANDLE held, twice, told, go;

static DWORD WINAPI returns(void *unused) {
    (void)unused;
    take(held);
    return 3;
}

static DWORD WINAPI breaks_off(void *unused) {
    (void)unused;
    take(twice);
    take(twice);
    must(SetEvent(told), "the mutex is held");
    take(go);
    ExitThread(4);
}

static void child(void) {
    HANDLE named = OpenMutexA(SYNCHRONIZE, FALSE, "obman owner");
    HANDLE told_child = OpenSemaphoreW(SEMAPHORE_MODIFY_STATE, FALSE, L"obman told");
    must(named && told_child, "the child finds both");
    take(named);
    must(ReleaseSemaphore(told_child, 2, NULL), "the child has the mutex");
    ExitProcess(5);
}

static const char *how(DWORD code) {
    switch (code) {
    case WAIT_OBJECT_0: return "signaled";
    case WAIT_ABANDONED_0: return "abandoned";
    case WAIT_TIMEOUT: return "not signaled";
    default: return "something else";
    }
}

static void threads(void) {
    HANDLE first = begin(returns, NULL), second, both[2] = {held, twice};
    DWORD code;
    take(first);
    must(GetExitCodeThread(first, &code), "the end of the first");
    say("the first thread ended with %u", (unsigned)code);
    second = begin(breaks_off, NULL);
    take(told);
    say("while the second lives its mutex is %s", how(WaitForSingleObject(twice, 0)));
    must(!ReleaseMutex(twice), "another thread's mutex");
    say("release of another thread's: error %u", (unsigned)GetLastError());
    must(SetEvent(go), "the second thread may end");
    code = WaitForMultipleObjects(2, both, TRUE, INFINITE);
    say("both mutexes are %s", how(code));
    must(ReleaseMutex(held) && ReleaseMutex(twice), "both are released");
    say("then they are %s", how(WaitForMultipleObjects(2, both, TRUE, 0)));
    must(ReleaseMutex(held) && ReleaseMutex(twice), "both are released again");
    take(second);
    must(GetExitCodeThread(second, &code), "the end of the second");
    say("the second thread ended with %u", (unsigned)code);
    must(CloseHandle(first) && CloseHandle(second), "handles are closed");
}

static void processes(void) {
    HANDLE named = CreateMutexW(NULL, FALSE, L"obman owner"), told_parent = CreateSemaphoreA(NULL, 0, 2, "obman told"), made, any[2];
    DWORD code;
    must(named && told_parent, "what the child finds");
    made = begin_child(FALSE, 0, 0);
    take(told_parent);
    any[0] = told, any[1] = named;
    code = WaitForMultipleObjects(2, any, FALSE, INFINITE);
    say("of two objects the mutex is %s", code == WAIT_ABANDONED_0 + 1 ? "abandoned" : "something else");
    must(ReleaseMutex(named), "the mutex is released");
    say("the child ended with %u", end_of_child(made));
    must(WaitForSingleObject(told_parent, 0) == WAIT_OBJECT_0, "what the child signaled stays");
}

void start(void) {
    unsigned long long first, second;
    if (is_child(&first, &second)) {
        child();
    }
    held = CreateMutexA(NULL, FALSE, NULL);
    twice = CreateMutexA(NULL, FALSE, NULL);
    told = CreateEventA(NULL, FALSE, FALSE, NULL);
    go = CreateEventW(NULL, FALSE, FALSE, NULL);
    must(held && twice && told && go, "mutexes and events are made");
    threads();
    processes();
    ExitProcess(0);
}
