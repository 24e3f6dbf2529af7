/* Pipes and completion ports: what a child prints, overlapped I/O and its events, routines and packets, what is cancelled, and ends that are closed. */
#include <stdio.h>
#include <string.h>
#include <windows.h>

#define NAME "\\\\.\\pipe\\pipes of a guest"

static HANDLE port, done;
static LONG taken;

static HANDLE server_of(DWORD flags, DWORD instances) {
    return CreateNamedPipeA(NAME, PIPE_ACCESS_DUPLEX | flags, PIPE_TYPE_BYTE, instances, 16, 16, 0, NULL);
}

static HANDLE client_of(DWORD flags) {
    return CreateFileA(NAME, GENERIC_READ | GENERIC_WRITE, 0, NULL, OPEN_EXISTING, flags, NULL);
}

/* A child's standard output, to its end. */
static void child_of(void) {
    SECURITY_ATTRIBUTES inherited = {sizeof inherited, NULL, TRUE};
    HANDLE from, to;
    CreatePipe(&from, &to, &inherited, 0);
    STARTUPINFOA start = {.cb = sizeof start, .dwFlags = STARTF_USESTDHANDLES, .hStdOutput = to};
    PROCESS_INFORMATION made;
    char command[] = "pipes.exe child", text[100];
    DWORD count, all = 0;
    CreateProcessA(NULL, command, NULL, NULL, TRUE, 0, NULL, NULL, &start, &made);
    CloseHandle(to);
    while (ReadFile(from, text + all, 7, &count, NULL)) {
        all += count;
    }
    printf("a child's %.*s, error %lu\n", (int)all, text, GetLastError());
    CloseHandle(from);
    WaitForSingleObject(made.hProcess, INFINITE);
}

static DWORD WINAPI writes_much(PVOID to) {
    static char bytes[20000];
    DWORD count = 0;
    WriteFile(to, bytes, sizeof bytes, &count, NULL);
    CloseHandle(to);
    return count;
}

/* More than a pipe has room for. */
static void much(void) {
    HANDLE from, to;
    DWORD count, all = 0, code = 0;
    char bytes[3000];
    CreatePipe(&from, &to, NULL, 0);
    HANDLE thread = CreateThread(NULL, 0, writes_much, to, 0, NULL);
    while (ReadFile(from, bytes, sizeof bytes, &count, NULL)) {
        all += count;
    }
    WaitForSingleObject(thread, INFINITE);
    GetExitCodeThread(thread, &code);
    printf("much %lu of %lu\n", all, code);
}

static VOID CALLBACK read_so_much(DWORD error, DWORD count, OVERLAPPED *of) {
    printf("a routine: error %lu, %lu bytes, %d\n", error, count, of->hEvent == port);
}

static void overlapped(void) {
    HANDLE server = server_of(FILE_FLAG_OVERLAPPED, 1), event = CreateEventA(NULL, TRUE, TRUE, NULL);
    OVERLAPPED connects = {.hEvent = event}, reads = {.hEvent = event}, with_routine = {.hEvent = port};
    char text[10];
    DWORD count = 0, state = 0, left = 0;
    printf("connects %d", ConnectNamedPipe(server, &connects));
    printf(", error %lu, event %lx\n", GetLastError(), WaitForSingleObject(event, 0));
    HANDLE client = client_of(0);
    printf("connected %lx, ", WaitForSingleObject(event, 0));
    printf("another %d", server_of(0, 1) != INVALID_HANDLE_VALUE);
    printf(", error %lu, ", GetLastError());
    printf("no more %d", client_of(0) != INVALID_HANDLE_VALUE);
    printf(", error %lu\n", GetLastError());
    BOOL is_read = ReadFile(server, text, 4, NULL, &reads);
    printf("reads %d, error %lu, event %lx\n", is_read, GetLastError(), WaitForSingleObject(event, 0));
    WriteFile(client, "abcdef", 6, &count, NULL);
    printf("wrote %lu, event %lx", count, WaitForSingleObject(event, 0));
    printf(", %d %lu %.4s\n", GetOverlappedResult(server, &reads, &count, FALSE), count, text);
    PeekNamedPipe(server, text, sizeof text, &state, &left, NULL);
    printf("there are %lu of %lu: %.2s\n", state, left, text);
    is_read = ReadFileEx(server, text, 10, &with_routine, read_so_much);
    printf("began %d, slept %lx\n", is_read, SleepEx(INFINITE, TRUE));
    ReadFile(server, text, 4, NULL, &reads);
    printf("cancelled %d", CancelIo(server));
    printf(", result %d", GetOverlappedResult(server, &reads, &count, TRUE));
    printf(", error %lu\n", GetLastError());
    ReadFile(server, text, 4, NULL, &reads);
    CloseHandle(client);
    printf("closed: event %lx, status %lx\n", WaitForSingleObject(event, 0), (DWORD)reads.Internal);
    printf("again %d", WriteFile(server, text, 1, NULL, &reads));
    printf(", error %lu, disconnected %d\n", GetLastError(), DisconnectNamedPipe(server));
    CloseHandle(server);
}

static DWORD WINAPI takes(PVOID unused) {
    DWORD count;
    ULONG_PTR key;
    OVERLAPPED *of;
    while (GetQueuedCompletionStatus(port, &count, &key, &of, INFINITE) && key != 0) {
        InterlockedExchangeAdd(&taken, count);
    }
    SetEvent(done);
    return unused != NULL;
}

static void ports(void) {
    OVERLAPPED_ENTRY some[3];
    DWORD count;
    ULONG_PTR key;
    ULONG found = 0;
    OVERLAPPED *of, reads = {0};
    char text[10];
    HANDLE server = server_of(FILE_FLAG_OVERLAPPED, 1), client = client_of(0);
    printf("none: %d", GetQueuedCompletionStatus(port, &count, &key, &of, 10));
    printf(", error %lu\n", GetLastError());
    printf("a port %d, ", CreateIoCompletionPort(server, port, 7, 0) == port);
    printf("another %d, ", CreateIoCompletionPort(server, port, 8, 0) == port);
    printf("of one without overlapped I/O %d\n", CreateIoCompletionPort(client, port, 8, 0) == port);
    ReadFile(server, text, 10, NULL, &reads);
    WriteFile(client, "text", 4, &count, NULL);
    printf("a packet %d", GetQueuedCompletionStatus(port, &count, &key, &of, INFINITE));
    printf(": %lu bytes, key %d, %d\n", count, (int)key, of == &reads);
    for (ULONG_PTR i = 1; i < 5; i++) {
        PostQueuedCompletionStatus(port, (DWORD)i * 10, i, NULL);
    }
    printf("some %d", GetQueuedCompletionStatusEx(port, some, 3, &found, INFINITE, FALSE));
    printf(": %lu, %d %lu, %d %lu\n", found, (int)some[0].lpCompletionKey, some[0].dwNumberOfBytesTransferred, (int)some[2].lpCompletionKey,
           some[2].dwNumberOfBytesTransferred);
    GetQueuedCompletionStatus(port, &count, &key, &of, 0);
    HANDLE threads[4];
    for (int i = 0; i < 4; i++) {
        threads[i] = CreateThread(NULL, 0, takes, NULL, 0, NULL);
    }
    for (ULONG_PTR i = 0; i < 200; i++) {
        PostQueuedCompletionStatus(port, (DWORD)i, 1, NULL);
    }
    for (int i = 0; i < 4; i++) {
        PostQueuedCompletionStatus(port, 0, 0, NULL);
        WaitForSingleObject(done, INFINITE);
    }
    printf("threads %lx took %ld\n", WaitForMultipleObjects(4, threads, TRUE, INFINITE), taken);
    CloseHandle(server);
    printf("broken %d", ReadFile(client, text, 1, &count, NULL));
    printf(", error %lu\n", GetLastError());
}

int main(int count, char **words) {
    setvbuf(stdout, NULL, _IONBF, 0);
    if (count > 1) {
        printf("words to %s", words[1]);
        return 0;
    }
    port = CreateIoCompletionPort(INVALID_HANDLE_VALUE, NULL, 0, 0);
    done = CreateEventA(NULL, FALSE, FALSE, NULL);
    child_of();
    much();
    overlapped();
    ports();
    return 0;
}
