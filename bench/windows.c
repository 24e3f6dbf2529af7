/* What programs on examples/windows/nt cost, for docs/WINDOWS.md: loops of loads, stores, calls or SetEvent, by the words WHAT TURNS; without them it ends at
 * once. The time is that of a processor which `time` tells, without that of a run with no words; `nt --figures` counts the instructions.
 *
 *     x86_64-w64-mingw32-gcc -O2 -o windows.exe bench/windows.c
 *     time build/windows/nt --figures windows.exe loads 100000000
 *     time wine windows.exe loads 100000000 */
#include <stdio.h>
#include <stdlib.h>
#include <string.h>
#include <windows.h>

enum { NUMBERS = 1024 };

static volatile unsigned numbers[NUMBERS];

__attribute__((noipa)) static unsigned called(unsigned number) {
    return number * 3 + 1;
}

int main(int count, char **words) {
    const char *what = count > 2 ? words[1] : "";
    unsigned turns = count > 2 ? (unsigned)strtoul(words[2], NULL, 10) : 0, sum = 0;
    HANDLE event = CreateEventA(NULL, TRUE, FALSE, NULL);
    if (strcmp(what, "loads") == 0) {
        for (unsigned i = 0; i < turns; i++) {
            sum += numbers[i % NUMBERS];
        }
    } else if (strcmp(what, "stores") == 0) {
        for (unsigned i = 0; i < turns; i++) {
            numbers[i % NUMBERS] = i;
        }
    } else if (strcmp(what, "calls") == 0) {
        for (unsigned i = 0; i < turns; i++) {
            sum = called(sum);
        }
    } else if (strcmp(what, "events") == 0) {
        for (unsigned i = 0; i < turns; i++) {
            sum += SetEvent(event);
        }
    }
    printf("%u\n", sum);
    return 0;
}
