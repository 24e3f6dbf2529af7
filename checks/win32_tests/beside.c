/* What Wine's tests call beside what is tested: memory, modules, access lists as they lie in memory, files that nobody reads, wide text. */
#include "../../examples/win32/host.h"

#include <stdarg.h>
#include <stdio.h>
#include <stdlib.h>
#include <string.h>

typedef struct ACL {
    BYTE AclRevision, Sbz1;
    WORD AclSize, AceCount, Sbz2;
} ACL;

typedef struct ACE {
    BYTE AceType, AceFlags;
    WORD AceSize;
    DWORD Mask;
} ACE;

HANDLE WINAPI GetProcessHeap(void) {
    return (HANDLE)1;
}

/* A size of 0xDEADBEEF is one that no call has written, and more than a sanitizer can clear in time. */
LPVOID WINAPI HeapAlloc(HANDLE heap, DWORD flags, SIZE_T size) {
    (void)heap, (void)flags;
    return size > 64u << 20 ? NULL : calloc(1, size == 0 ? 1 : size);
}

LPVOID WINAPI HeapReAlloc(HANDLE heap, DWORD flags, LPVOID at, SIZE_T size) {
    (void)heap, (void)flags;
    return realloc(at, size);
}

BOOL WINAPI HeapFree(HANDLE heap, DWORD flags, LPVOID at) {
    (void)heap, (void)flags;
    free(at);
    return TRUE;
}

HANDLE WINAPI GetModuleHandleA(LPCSTR name) {
    (void)name;
    return (HANDLE)0x10000;
}

HANDLE WINAPI LoadLibraryA(LPCSTR name) {
    (void)name;
    return (HANDLE)0x10000;
}

BOOL WINAPI InitializeSecurityDescriptor(BYTE *descriptor, DWORD revision) {
    memset(descriptor, 0, 40);
    *descriptor = (BYTE)revision;
    return TRUE;
}

BOOL WINAPI SetSecurityDescriptorDacl(BYTE *descriptor, BOOL is_present, ACL *list, BOOL is_default) {
    (void)is_default;
    *(WORD *)(descriptor + 2) = (WORD)(is_present ? 4 : 0);
    *(ACL **)(descriptor + 32) = list;
    return TRUE;
}

BOOL WINAPI InitializeAcl(ACL *list, DWORD size, DWORD revision) {
    *list = (ACL){(BYTE)revision, 0, (WORD)size, 0, 0};
    return TRUE;
}

BOOL WINAPI AddAccessAllowedAce(ACL *list, DWORD revision, DWORD access, const BYTE *user) {
    BYTE *at = (BYTE *)(list + 1);
    WORD size = (WORD)(sizeof(ACE) + 8 + 4u * user[1]);
    (void)revision;
    for (WORD i = 0; i < list->AceCount; i++) {
        at += ((ACE *)at)->AceSize;
    }
    *(ACE *)at = (ACE){0, 0, size, access};
    memcpy(at + sizeof(ACE), user, size - sizeof(ACE));
    list->AceCount++;
    return TRUE;
}

/* A file is an object of the host's own, and nothing else. */
HANDLE WINAPI CreateFileA(LPCSTR path, DWORD access, DWORD share, LPSECURITY_ATTRIBUTES attributes, DWORD how, DWORD flags, HANDLE like) {
    const name none = {0};
    (void)path, (void)access, (void)share, (void)how, (void)flags, (void)like;
    return create((body){.kind = OM_HOST((uint32_t)A_FILE)}, attributes, &none, GENERIC_ALL);
}

BOOL WINAPI DeleteFileA(LPCSTR path) {
    (void)path;
    return TRUE;
}

DWORD WINAPI GetTempPathA(DWORD size, LPSTR path) {
    (void)size;
    return (DWORD)sprintf(path, "C:\\");
}

UINT WINAPI GetTempFileNameA(LPCSTR folder, LPCSTR prefix, UINT number, LPSTR path) {
    (void)folder, (void)prefix, (void)number;
    return (UINT)sprintf(path, "C:\\file");
}

DWORD WINAPI GetCurrentDirectoryA(DWORD size, LPSTR path) {
    return GetTempPathA(size, path);
}

/* ---- Wide text ---- */

size_t length_of(const WCHAR *text) {
    size_t length = 0;
    while (text[length] != 0) {
        length++;
    }
    return length;
}

int order_of(const WCHAR *one, const WCHAR *other) {
    while (*one != 0 && *one == *other) {
        one++, other++;
    }
    return *one - *other;
}

static int lower(WCHAR c) {
    return c >= 'A' && c <= 'Z' ? c + 32 : c;
}

int order_without_case(const WCHAR *one, const WCHAR *other, size_t most) {
    for (; most > 0; most--, one++, other++) {
        if (*one == 0 || lower(*one) != lower(*other)) {
            return lower(*one) - lower(*other);
        }
    }
    return 0;
}

WCHAR *copy_of(WCHAR *to, const WCHAR *text) {
    return memmove(to, text, (length_of(text) + 1) * sizeof *text);
}

WCHAR *first_of(const WCHAR *text, WCHAR c) {
    for (; *text != c; text++) {
        if (*text == 0) {
            return NULL;
        }
    }
    return (WCHAR *)(uintptr_t)text;
}

WCHAR *last_of(const WCHAR *text, WCHAR c) {
    const WCHAR *found = NULL;
    for (; *text != 0; text++) {
        found = *text == c ? text : found;
    }
    return (WCHAR *)(uintptr_t)found;
}

/* Of %u and %s alone. */
int print_wide(WCHAR *to, size_t room, const WCHAR *format, ...) {
    va_list values;
    size_t length = 0;
    char number[16];
    va_start(values, format);
    for (; *format != 0 && length + 1 < room; format++) {
        if (format[0] == '%' && format[1] == 'u') {
            int digits = sprintf(number, "%u", va_arg(values, unsigned));
            for (int i = 0; i < digits && length + 1 < room; i++) {
                to[length++] = (WCHAR)number[i];
            }
            format++;
        } else if (format[0] == '%' && format[1] == 's') {
            for (const WCHAR *text = va_arg(values, const WCHAR *); *text != 0 && length + 1 < room; text++) {
                to[length++] = *text;
            }
            format++;
        } else {
            to[length++] = *format;
        }
    }
    to[length] = 0;
    va_end(values);
    return (int)length;
}
