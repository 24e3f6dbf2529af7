/* Children that each do one thing that no program may. Their parent goes on, and says how each ended, or that nothing came of it. */
#include "child.h"

#include <winternl.h>

enum { HARMS = 19, PAGE = 0x1000 };

/* Where the host at the system calls has what each process shares with it: the time, the address of calls, and the page of that address. */
#define SHARED ((char *)0x7FFE0000)
#define CALLS (SHARED + 2 * PAGE)

NTSTATUS NTAPI NtUnmapViewOfSection(HANDLE process, void *base);
NTSTATUS NTAPI NtContinue(CONTEXT *context, BOOLEAN alertable);

static const char *const harms[HARMS] = {
    "a write to where nothing is", "a call of where nothing is", "a system call that there isn't", "an instruction that isn't one",
    "a name where nothing is", "a name that doesn't end", "attributes where nothing is", "handles where nothing is",
    "bytes where nothing is", "a time where nothing is", "a time over all that is shared", "no stack", "the shared page is freed",
    "the thread's block is freed", "the stack is freed", "the program's head is written over", "ntdll goes", "registers from where nothing is",
    "a halt",
};

static DWORD WINAPI nothing(void *unused) {
    (void)unused;
    return 0;
}

static void overwrite_head(void) {
    char *head = (char *)GetModuleHandleA(NULL), image[64];
    for (int i = 0; i < PAGE; i++) {
        head[i] = i < 2 ? head[i] : (char)0xFF;
    }
    NtQueryInformationProcess(GetCurrentProcess(), (PROCESSINFOCLASS)37, image, sizeof image, NULL); /* ProcessImageInformation */
    CreateThread(NULL, 0, nothing, NULL, 0, NULL);
}

static void harm(unsigned which) {
    char *const nowhere = (char *)-1, *block;
    DWORD written;
    long long none;
    __asm__("mov %%gs:0x30, %0" : "=r"(block));
    switch (which) {
    case 0: *(volatile char *)nowhere = 1; break;
    case 1: ((void (*)(void))nowhere)(); break;
    case 2: __asm__ volatile("mov $0xFFF, %%eax\n\tcall *%1" : "=&a"(none) : "r"(CALLS + 0x800) : "rcx", "r10", "r11", "memory"); break;
    case 3: __asm__ volatile("ud2"); break;
    case 4: CreateEventA(NULL, TRUE, FALSE, nowhere); break;
    case 5: {
        char *long_name = VirtualAlloc(NULL, 16 * PAGE, MEM_RESERVE | MEM_COMMIT, PAGE_READWRITE);
        for (int i = 0; i < 16 * PAGE; i++) {
            long_name[i] = 'a';
        }
        OpenEventA(SYNCHRONIZE, FALSE, long_name);
        break;
    }
    case 6: CreateThread((SECURITY_ATTRIBUTES *)nowhere, 0, NULL, NULL, 0, NULL); break;
    case 7: WaitForMultipleObjects(2, (HANDLE *)nowhere, FALSE, 0); break;
    case 8: WriteFile(GetStdHandle(STD_OUTPUT_HANDLE), nowhere, 0xFFFFFFFF, &written, NULL); break;
    case 9: GetSystemTimeAsFileTime((FILETIME *)nowhere); break;
    case 10:
        for (char *at = CALLS + PAGE - 8; at >= SHARED; at--) {
            GetSystemTimeAsFileTime((FILETIME *)at);
        }
        break;
    case 11: __asm__ volatile("xor %%esp, %%esp\n\tjmp *%0" : : "r"(GetTickCount64)); break;
    case 12: VirtualFree(SHARED, 0, MEM_RELEASE); break;
    case 13: VirtualFree(block, 0, MEM_RELEASE); break;
    case 14: VirtualFree(*(void **)(block + 0x1478), 0, MEM_RELEASE); break;
    case 15: overwrite_head(); break;
    case 16: NtUnmapViewOfSection(GetCurrentProcess(), GetModuleHandleA("ntdll.dll")); break;
    case 17: NtContinue((CONTEXT *)nowhere, FALSE); break;
    default: __asm__ volatile("hlt");
    }
}

void start(void) {
    unsigned long long which, none;
    if (is_child(&which, &none)) {
        harm((unsigned)which);
        say("%s: nothing came of it", harms[which]);
        ExitProcess(0);
    }
    for (unsigned i = 0; i < HARMS; i++) {
        say("%s: %u", harms[i], end_of_child(begin_child(FALSE, i, 0)));
    }
    ExitProcess(0);
}
