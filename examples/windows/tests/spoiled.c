/* spoiled FROM TO N: writes a savestate of examples/windows/nt anew, with its N-th lie and the digest that fits, and says which. The status is 1 where there is
 * no such lie. */
#include "../nt/nt.h"

#include <stddef.h>
#include <stdio.h>
#include <stdlib.h>
#include <string.h>

/* Where a lie's place counts from: the beginning, or the length of the library's bytes; in front of that is a thread, and behind the bytes what is kept. */
typedef enum base { BEGINNING, LIBRARY, BEHIND_LIBRARY } base;

enum {
    NUMBERS = 24 + 3 * 8, /* behind the mark and what the build is */
    HOST = NUMBERS + 12 * 8,
    CALLS_AT = HOST + (int)sizeof(om_member),
    DRIVE = CALLS_AT + (int)sizeof system_calls,
    NAMELESS = DRIVE + (int)sizeof drive_folder,
    FIRST = NAMELESS + 8 + 8, /* the first process, where no file is without a name */
    REGIONS = FIRST + (int)offsetof(process, engine),
    REGION = REGIONS + 8,
    THREAD = -16 - (int)offsetof(thread, of) /* before its process's place and how many APCs it has */
};

/* A number at a place, or this byte all over it. */
static const struct {
    const char *what;
    base from;
    int at;
    size_t size;
    uint64_t value;
} lies[] = {
    {"another seed, which is no lie", BEGINNING, NUMBERS, 8, 7},
    {"more threads than there can be", BEGINNING, NUMBERS + 10 * 8, 8, THREADS + 1},
    {"a turn of nobody", BEGINNING, NUMBERS + 11 * 8, 8, THREADS},
    {"another host's process", BEGINNING, HOST, 4, 77},
    {"a system call without an end to its name", BEGINNING, CALLS_AT, sizeof(system_call), 'x'},
    {"a folder without an end", BEGINNING, DRIVE, sizeof drive_folder, 'x'},
    {"far more files", BEGINNING, NAMELESS, 8, UINT64_MAX},
    {"a file that isn't there", BEGINNING, NAMELESS, 8, 1},
    {"another process", BEGINNING, FIRST + (int)offsetof(process, member), 4, 77},
    {"a process that nothing stands for", BEGINNING, FIRST + (int)offsetof(process, own), 4, 0x1000},
    {"far more regions", BEGINNING, REGIONS, 8, UINT64_MAX},
    {"a region of no size", BEGINNING, REGION + 8, 8, 0},
    {"a region that is too large", BEGINNING, REGION + 8, 8, MEMORY_MOST + PAGE},
    {"a region without an end", BEGINNING, REGION + 8, 8, UINT64_MAX - PAGE + 1},
    {"a region of half a page", BEGINNING, REGION + 8, 8, PAGE / 2},
    {"a region between pages", BEGINNING, REGION, 8, 0x10001},
    {"a region at the end of all", BEGINNING, REGION, 8, UINT64_MAX - PAGE + 1},
    {"a view of no file", BEGINNING, REGION + 48, 8, 1},
    {"another thread", LIBRARY, THREAD + (int)offsetof(thread, number), 4, 77},
    {"a thread that waits for what there isn't", LIBRARY, THREAD + (int)offsetof(thread, waits), 4, FOR_IO + 1},
    {"a thread that nothing stands for", LIBRARY, THREAD + (int)offsetof(thread, own), 4, 0x1000},
    {"a thread of a process behind all", LIBRARY, -16, 8, PROCESSES},
    {"a thread of no process", LIBRARY, -16, 8, PROCESSES - 1},
    {"far more APCs", LIBRARY, -8, 8, UINT64_MAX},
    {"many more of the library's bytes", LIBRARY, 0, 8, UINT64_MAX / 2},
    {"other bytes of the library's", LIBRARY, 16, 12, 'x'},
    {"what is kept at a place behind all", BEHIND_LIBRARY, 0, 8, SLOTS + 1},
    {"nothing that is kept", BEHIND_LIBRARY, 0, 8, SLOTS},
    {"what is kept elsewhere", BEHIND_LIBRARY, 0, 8, SLOTS - 1},
    {"a name without an end", BEHIND_LIBRARY, 8, 8, UINT64_MAX},
    {"far more entries", BEHIND_LIBRARY, 16, 8, UINT64_MAX},
    {"entries that aren't there", BEHIND_LIBRARY, 24 + (int)offsetof(kept, entries_size), 8, 1000},
    {"a form without an end", BEHIND_LIBRARY, 24 + (int)offsetof(kept, form), sizeof ((kept *)0)->form, 'x'},
    {"what is kept of another object", BEHIND_LIBRARY, 24 + (int)offsetof(kept, object), 4, 77},
    {"a pipe without its other end", BEHIND_LIBRARY, 24 + (int)offsetof(kept, pipe), 4, CONNECTED},
    {"an end of no kind", BEHIND_LIBRARY, 24 + (int)offsetof(kept, pipe), 4, CLOSING + 1},
    {"another end that there isn't", BEHIND_LIBRARY, 24 + (int)offsetof(kept, other), 4, 1},
    {"a port that nothing stands for", BEHIND_LIBRARY, 24 + (int)offsetof(kept, port), 4, 0x1000},
    {"far more packets", BEHIND_LIBRARY, 24 + (int)offsetof(kept, file), 8, UINT64_MAX},
    {"far more I/O", BEHIND_LIBRARY, 32 + (int)offsetof(kept, file), 8, UINT64_MAX},
    {"a file of no kind", BEHIND_LIBRARY, 40 + (int)offsetof(kept, file), 8, 4},
    {"a standard file that there isn't", BEHIND_LIBRARY, 48 + (int)offsetof(kept, file), 8, 3},
};

int main(int count, char **words) {
    static uint8_t bytes[64 << 20];
    FILE *from = count == 4 ? fopen(words[1], "rb") : NULL, *to = from == NULL ? NULL : fopen(words[2], "wb");
    size_t length = to == NULL ? 0 : fread(bytes, 1, sizeof bytes, from), lie = count == 4 ? (size_t)atoi(words[3]) : 0, i = length;
    if (length < REGION || length == sizeof bytes || lie >= sizeof lies / sizeof *lies) {
        return 1;
    }
    /* the library's bytes begin with its mark, behind their number; a host keeps something */
    do {
        i--;
    } while (memcmp(bytes + i, "OBJD\1\0\0", 8) != 0);
    uint64_t size;
    memcpy(&size, bytes + i - 8, 8);
    uint8_t *at = (lies[lie].from == BEGINNING ? bytes : bytes + i + (lies[lie].from == LIBRARY ? 0 : size + 8) - 8) + lies[lie].at;
    if (lies[lie].size <= sizeof lies[lie].value) {
        memcpy(at, &lies[lie].value, lies[lie].size);
    } else {
        memset(at, (int)lies[lie].value, lies[lie].size);
    }
    uint64_t digest = 14695981039346656037u;
    for (i = 0; i < length - sizeof digest; i++) {
        digest = (digest ^ bytes[i]) * 1099511628211u;
    }
    memcpy(bytes + length - sizeof digest, &digest, sizeof digest);
    puts(lies[lie].what);
    return fwrite(bytes, 1, length, to) != length || fclose(to) != 0;
}
