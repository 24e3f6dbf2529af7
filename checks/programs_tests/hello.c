/* The C runtime: text, memory, the command line, what runs at the end, and the status. */
#include <math.h>
#include <stdio.h>
#include <stdlib.h>
#include <string.h>

static void at_the_end(void) {
    puts("at the end");
}

static int by_text(const void *one, const void *other) {
    return strcmp(*(char *const *)one, *(char *const *)other);
}

int main(int count, char **words) {
    char *all[] = {"pear", "apple", "plum"}, *joined = calloc(1, 100);
    atexit(at_the_end);
    qsort(all, 3, sizeof *all, by_text);
    for (int i = 0; i < 3; i++) {
        strcat(strcat(joined, " "), all[i]);
    }
    printf("%d words, %s\n", count, count > 1 ? words[1] : "no more");
    printf("%s %5.3f %lld %-4d|\n", joined, sqrt(2.0), 1234567890123456789LL, 42);
    free(joined);
    return 3;
}
