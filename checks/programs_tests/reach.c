/* What a guest can't reach: anything but its own folder and Wine's DLLs, whatever path it passes, and nothing of the host by a bad pointer. The folder has
 * links and a pipe in it that lead elsewhere. */
#include <setjmp.h>
#include <stdio.h>
#include <windows.h>
#include <winternl.h>

typedef NTSTATUS(NTAPI *call)(ULONG_PTR, ULONG_PTR, ULONG_PTR, ULONG_PTR, ULONG_PTR, ULONG_PTR, ULONG_PTR, ULONG_PTR, ULONG_PTR, ULONG_PTR, ULONG_PTR);

static jmp_buf back;

static call call_named(const char *name) {
    return (call)(void (*)(void))GetProcAddress(GetModuleHandleA("ntdll.dll"), name);
}

static NTSTATUS open_path(const wchar_t *path, ACCESS_MASK access, ULONG disposition) {
    UNICODE_STRING name = {(USHORT)(2 * wcslen(path)), (USHORT)(2 * wcslen(path) + 2), (PWSTR)path};
    OBJECT_ATTRIBUTES attributes;
    IO_STATUS_BLOCK io;
    HANDLE file;
    InitializeObjectAttributes(&attributes, &name, OBJ_CASE_INSENSITIVE, NULL, NULL);
    NTSTATUS status = NtCreateFile(&file, access | SYNCHRONIZE, &attributes, &io, NULL, 0, 7, disposition, FILE_SYNCHRONOUS_IO_NONALERT, NULL, 0);
    if (status >= 0) {
        CloseHandle(file);
    }
    return status;
}

static void paths(void) {
    static const wchar_t *const all[] = {
        L"\\??\\C:\\..\\secret", L"\\??\\C:\\../secret", L"\\??\\C:\\folder\\..\\..\\secret", L"\\??\\C:\\link\\secret", L"\\??\\C:\\linked", L"\\??\\C:\\pipe",
        L"\\??\\C:\\windows\\system32\\..\\..\\secret", L"\\??\\Z:\\etc\\passwd", L"\\??\\unix\\etc\\passwd", L"\\Device\\HarddiskVolume1\\secret",
        L"/etc/passwd", L"\\??\\C:/own", L"\\??\\C:\\own", L"\\??\\C:\\OWN", L"\\??\\C:\\windows\\system32\\ntdll.dll",
    };
    for (size_t i = 0; i < sizeof all / sizeof *all; i++) {
        printf("%ls: %08lx\n", all[i], open_path(all[i], GENERIC_READ, FILE_OPEN));
    }
    printf("to write a DLL: %08lx\n", open_path(L"\\??\\C:\\windows\\system32\\ntdll.dll", GENERIC_WRITE, FILE_OPEN));
    printf("to make one: %08lx\n", open_path(L"\\??\\C:\\windows\\system32\\new.dll", GENERIC_WRITE, FILE_CREATE));
    printf("to make one by a link: %08lx\n", open_path(L"\\??\\C:\\link\\new", GENERIC_WRITE, FILE_CREATE));
}

/* Calls with arguments by chance, of which many are pointers to nothing. They leave the handles alone by which it prints. */
static void pointers(void) {
    static const char *const names[] = {
        "NtCreateEvent", "NtCreateMutant", "NtOpenEvent", "NtWaitForMultipleObjects", "NtQueryObject", "NtQueryVirtualMemory", "NtReadFile", "NtCreateSection",
        "NtMapViewOfSection", "NtCreateUserProcess", "NtQueryInformationProcess", "NtQueryInformationThread", "NtQueryDirectoryFile", "NtOpenFile",
        "NtCreateFile", "NtDuplicateObject", "NtSetTimer", "NtOpenThread", "NtOpenProcess", "NtGetContextThread", "NtReadVirtualMemory", "NtQuerySection", "NtGetNlsSectionPtr",
        "NtSetInformationFile", "NtQueryInformationFile", "NtQueryAttributesFile", "NtAllocateVirtualMemory", "NtQuerySystemInformation", "NtQueryEvent",
    };
    enum { NAMES = sizeof names / sizeof *names, WORDS = 11, ROUNDS = 5000 };
    static const ULONG_PTR bad[] = {0, 8, 0x7FFE2FFC, 0x300000000, 0x3FFFFFF00, ~(ULONG_PTR)7, (ULONG_PTR)1 << 63, 0x7FFFFFFFFFFF};
    call all[NAMES];
    ULONG_PTR words[WORDS + 256] = {0};
    unsigned chance = 1, refused = 0;
    for (int i = 0; i < NAMES; i++) {
        all[i] = call_named(names[i]);
    }
    for (int round = 0; round < ROUNDS; round++) {
        for (int i = 0; i < WORDS; i++) {
            chance = chance * 1664525 + 1013904223;
            unsigned which = chance >> 16;
            words[i] = which % 3 == 0 ? bad[which / 3 % 8] : which % 3 == 1 ? 64 + which / 3 % 64 : (ULONG_PTR)&words[WORDS + which / 3 % 64];
        }
        words[0] = round % 2 ? words[0] : bad[round / 2 % 8];
        refused += all[chance / 65536 % NAMES](words[0], words[1], words[2], words[3], words[4], words[5], words[6], words[7], words[8], words[9], words[10]) ==
                   (NTSTATUS)STATUS_ACCESS_VIOLATION;
    }
    printf("bad pointers were refused %d\n", refused > 0);
}

static LONG CALLBACK leave(EXCEPTION_POINTERS *it) {
    printf("exception %08lx\n", it->ExceptionRecord->ExceptionCode);
    longjmp(back, 1);
}

#define TRY(what) \
    if (setjmp(back) == 0) { \
        what; \
        puts("nothing"); \
    }

static void instructions(void) {
    PVOID handler = AddVectoredExceptionHandler(1, leave);
    TRY(__asm__ volatile("hlt"))
    TRY(__asm__ volatile("ud2"))
    TRY(*(volatile int *)0x500000000000 = 1)
    TRY(((void (*)(void))0x500000000000)())
    RemoveVectoredExceptionHandler(handler);
}

int main(void) {
    setvbuf(stdout, NULL, _IONBF, 0);
    paths();
    instructions();
    pointers();
    return 0;
}
