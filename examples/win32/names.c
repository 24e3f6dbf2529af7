/* The names of Windows as the library has them.
 *
 * The library's names are printable ASCII, 260 bytes with their prefix. A character stands as om_spell has it, so that a zero, which names of ntdll may
 * have, is one more character; and a name that is too long stands as %% and a digest of it. */
#include "host.h"

#include <stdio.h>
#include <string.h>
#include <strings.h>
#include <sys/mman.h>
#include <unistd.h>

__extension__ typedef unsigned __int128 digest_of_128_bits;

/* 128 bits of FNV-1a: no two names meet by chance. Where guests choose names to harm others, let it be a digest that nobody can choose for. */
static size_t digested(const WCHAR *text, size_t length, char *bytes) {
    digest_of_128_bits digest = ((digest_of_128_bits)0x6C62272E07BB0142u << 64) | 0x62B821756295C58Du;
    const digest_of_128_bits prime = ((digest_of_128_bits)1 << 88) | 0x13B;
    for (size_t i = 0; i < length; i++) {
        digest = (digest ^ (text[i] & 0xFF)) * prime;
        digest = (digest ^ (text[i] >> 8)) * prime;
    }
    return (size_t)sprintf(bytes, "%%%%%016llX%016llX", (unsigned long long)(digest >> 64), (unsigned long long)digest);
}

/* Writes a name of the session, or of all sessions, with its prefix. */
static void spell(name *n, bool is_global, const WCHAR *text, size_t length) {
    size_t prefix = (size_t)sprintf(n->bytes, is_global ? "Global\\" : "Local\\");
    n->is_given = true;
    n->length = prefix;
    for (size_t i = 0; i < length; i++) {
        char spelled[5];
        size_t count = om_spell(text[i], spelled);
        if (n->length + count > OM_NAME_MOST) {
            n->length = prefix + digested(text, length, n->bytes + prefix);
            return;
        }
        memcpy(n->bytes + n->length, spelled, count);
        n->length += count;
    }
}

/* How many characters of a text a prefix has that it begins with, or 0. */
static size_t begins(const WCHAR *text, size_t length, const char *prefix, bool any_case) {
    size_t i = 0;
    for (; prefix[i] != 0; i++) {
        char c = i < length && text[i] < 0x80 ? (char)text[i] : 0;
        if (any_case ? strncasecmp(&c, &prefix[i], 1) != 0 : c != prefix[i]) {
            return 0;
        }
    }
    return i;
}

static bool is_word(const WCHAR *text, size_t length, const char *word) {
    return length == strlen(word) && begins(text, length, word, false) == length;
}

static bool has_backslash(const WCHAR *text, size_t length) {
    size_t i = 0;
    while (i < length && text[i] != '\\') {
        i++;
    }
    return i < length;
}

/* ---- kernel32: a name may begin with Global\ or Local\, and each is followed where it stands.
 * https://learn.microsoft.com/windows/win32/termserv/kernel-object-namespaces ---- */

static name of_text(const WCHAR *text, size_t length) {
    name n = {0};
    bool is_global = false;
    size_t prefix;
    if (length == 0) {
        return n; /* an empty name is none */
    }
    if (*text == '\\') {
        n.status = ERROR_BAD_PATHNAME;
        return n;
    }
    if (is_word(text, length, "Global") || is_word(text, length, "Local") || is_word(text, length, "Session")) {
        n.status = ERROR_INVALID_HANDLE; /* each is a link there, and no object of another kind */
        return n;
    }
    while ((prefix = begins(text, length, "Global\\", false)) > 0 || (prefix = begins(text, length, "Local\\", false)) > 0 ||
           (prefix = begins(text, length, "Session\\1\\", false)) > 0) {
        is_global = *text == 'G';
        text += prefix;
        length -= prefix;
        if (length == 0 || *text == '\\') {
            n.status = ERROR_INVALID_NAME;
            return n;
        }
    }
    if (has_backslash(text, length)) {
        n.status = ERROR_PATH_NOT_FOUND; /* names aren't a tree here */
        return n;
    }
    spell(&n, is_global, text, length);
    return n;
}

name wide(LPCWSTR text) {
    size_t length = 0;
    while (text != NULL && text[length] != 0) {
        length++;
    }
    return of_text(text, length);
}

/* A byte is the character of its number, and a narrow name has MAX_PATH of them at the most. */
name narrow(LPCSTR text) {
    WCHAR widened[MAX_PATH];
    size_t length = 0;
    for (; text != NULL && text[length] != 0; length++) {
        if (length == MAX_PATH) {
            return (name){.status = ERROR_FILENAME_EXCED_RANGE};
        }
        widened[length] = (unsigned char)text[length];
    }
    return of_text(widened, length);
}

/* ---- ntdll: a path from the root, or from a directory that was opened.
 * https://learn.microsoft.com/windows-hardware/drivers/kernel/object-directories ---- */

/* The directories of names, and links to them. What begins with a link's path begins with that of its directory too, and stands before it. */
static const struct {
    const char *path;
    type of;
    bool is_link;
} directories[] = {
    {"\\BaseNamedObjects\\Global", GLOBAL_NAMES, true},
    {"\\BaseNamedObjects\\Local", LOCAL_NAMES, true},
    {"\\BaseNamedObjects\\Session\\1", LOCAL_NAMES, true},
    {"\\BaseNamedObjects", GLOBAL_NAMES, false},
    {"\\Sessions\\1\\BaseNamedObjects\\Global", GLOBAL_NAMES, true},
    {"\\Sessions\\1\\BaseNamedObjects\\Local", LOCAL_NAMES, true},
    {"\\Sessions\\1\\BaseNamedObjects", LOCAL_NAMES, false},
};
enum { DIRECTORIES = sizeof directories / sizeof directories[0] };

/* Whether there is memory at a place; Windows tests whatever it is passed. */
bool is_there(const void *at, size_t size) {
    unsigned char pages[32];
    uintptr_t page = (uintptr_t)sysconf(_SC_PAGESIZE), first = (uintptr_t)at / page * page;
    return size == 0 || ((uintptr_t)at + size - first <= sizeof pages * page && mincore((void *)first, (uintptr_t)at + size - first, pages) == 0);
}

/* A name that differs from one that is asked for in nothing but case, where there is one, is meant (OBJ_CASE_INSENSITIVE). */
static void find_any_case(name *n) {
    size_t prefix = strcspn(n->bytes, "\\") + 1;
    char bytes[OM_NAME_MOST];
    om_row row;
    for (size_t at = 0; om_directory_at(&om, at, bytes, sizeof bytes, &row) == OM_SUCCESS; at++) {
        bool is_global = *n->bytes == 'G';
        if (row.session == (is_global ? 0 : SESSION) && row.length == n->length - prefix && strncasecmp(bytes, n->bytes + prefix, row.length) == 0) {
            memcpy(n->bytes + prefix, bytes, row.length);
        }
    }
}

/* What a path begins with that is looked up from the root: one of the two directories of names, or a link of theirs. */
static size_t root_of(const WCHAR *text, size_t length, bool any_case, type *directory) {
    for (size_t i = 0; i < DIRECTORIES; i++) {
        size_t path = begins(text, length, directories[i].path, any_case);
        if (path > 0 && path < length && text[path] == '\\') {
            *directory = directories[i].of;
            return path + 1;
        }
    }
    return 0;
}

/* The directory of a path, or the link. */
bool directory_named(const WCHAR *text, size_t length, bool is_link, type *directory) {
    for (size_t i = 0; i < DIRECTORIES; i++) {
        if (is_word(text, length, directories[i].path) && (directories[i].is_link || !is_link)) {
            *directory = is_link ? A_LINK : directories[i].of;
            return true;
        }
    }
    return false;
}

/* The string of ObjectName, or why it is none, in the order in which Windows is known to test (Wine's tests of object names). A create may be
 * without one; then *string is NULL. */
NTSTATUS native_string(const OBJECT_ATTRIBUTES *attributes, bool is_create, const UNICODE_STRING **string) {
    *string = NULL;
    if (attributes == NULL || attributes->Length != sizeof *attributes) {
        return attributes == NULL && is_create ? STATUS_SUCCESS : STATUS_INVALID_PARAMETER;
    }
    const UNICODE_STRING *s = attributes->ObjectName;
    if (s == NULL) {
        return attributes->RootDirectory != NULL ? STATUS_OBJECT_NAME_INVALID : is_create ? STATUS_SUCCESS : STATUS_OBJECT_PATH_SYNTAX_BAD;
    }
    if (!is_there(s, sizeof *s)) {
        return STATUS_ACCESS_VIOLATION;
    }
    if (((uintptr_t)s->Buffer & 1) != 0) {
        return STATUS_DATATYPE_MISALIGNMENT;
    }
    if (!is_there(s->Buffer, s->Length)) {
        return STATUS_ACCESS_VIOLATION;
    }
    if ((s->Length & 1) != 0 || s->Length == UINT16_MAX - 1) {
        return STATUS_OBJECT_NAME_INVALID;
    }
    *string = s->Length == 0 && is_create ? NULL : s;
    return STATUS_SUCCESS;
}

/* The directory by whose handle a name is looked up. */
NTSTATUS directory_by(HANDLE handle, type *of) {
    om_handle_info info;
    if (om_query_handle(&om, me->of->number, number_of(handle), &info) != OM_SUCCESS) {
        return STATUS_INVALID_HANDLE;
    }
    *of = info.kind == OM_HOST((uint32_t)GLOBAL_NAMES) ? GLOBAL_NAMES : LOCAL_NAMES;
    return info.kind == OM_HOST((uint32_t)*of) ? STATUS_SUCCESS : STATUS_OBJECT_TYPE_MISMATCH;
}

/* The name of ObjectName and RootDirectory, or why it is none. */
NTSTATUS native_name(const OBJECT_ATTRIBUTES *attributes, bool is_create, name *n) {
    const UNICODE_STRING *string;
    type directory = LOCAL_NAMES;
    size_t root = 0;
    *n = (name){0};
    NTSTATUS status = native_string(attributes, is_create, &string);
    if (status != STATUS_SUCCESS || string == NULL) {
        return status;
    }
    const WCHAR *text = string->Buffer;
    size_t length = string->Length / 2;
    bool any_case = (attributes->Attributes & OBJ_CASE_INSENSITIVE) != 0;
    if (attributes->RootDirectory != NULL) {
        status = directory_by(attributes->RootDirectory, &directory);
        if (status != STATUS_SUCCESS || length == 0) {
            return status != STATUS_SUCCESS ? status : STATUS_OBJECT_TYPE_MISMATCH; /* the directory itself */
        }
        if (*text == '\\') {
            return STATUS_OBJECT_PATH_SYNTAX_BAD;
        }
    } else if (length == 0 || *text != '\\') {
        return STATUS_OBJECT_PATH_SYNTAX_BAD;
    } else if (length == 1) {
        return STATUS_OBJECT_TYPE_MISMATCH; /* the root */
    } else if ((root = root_of(text, length, any_case, &directory)) == 0) {
        return STATUS_OBJECT_PATH_NOT_FOUND;
    }
    if (root == length || has_backslash(text + root, length - root)) {
        return STATUS_OBJECT_PATH_NOT_FOUND;
    }
    spell(n, directory == GLOBAL_NAMES, text + root, length - root);
    if (any_case) {
        find_any_case(n);
    }
    return STATUS_SUCCESS;
}

/* The path of a row of the directory as ntdll tells it; of a name that was too long the digest. */
size_t native_path(const char *spelled, const om_row *row, WCHAR *path) {
    char root[64];
    size_t length = 0;
    int written = row->session == 0 ? sprintf(root, "\\BaseNamedObjects\\") : sprintf(root, "\\Sessions\\%u\\BaseNamedObjects\\", row->session);
    for (int i = 0; i < written; i++) {
        path[length++] = (WCHAR)root[i];
    }
    bool is_digest = row->length > 1 && spelled[0] == '%' && spelled[1] == '%';
    for (uint32_t i = 0; i < row->length;) {
        i += (uint32_t)om_spelled(spelled + i, is_digest ? 1 : row->length - i, &path[length++]);
    }
    return length;
}
