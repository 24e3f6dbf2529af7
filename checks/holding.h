/* What the programs of checks/ that end with `all held` share. */
#include <obman.h>
#include <stdio.h>
#include <stdlib.h>

#define MUST(holds) must(holds, __FILE__, __LINE__)

static void must(bool holds, const char *file, int line) {
    if (!holds) {
        printf("%s:%d doesn't hold\n", file, line);
        exit(1);
    }
}

/* The manager of a savestate of this one, which ends. */
static om_manager reloaded(om_manager m) {
    om_manager again;
    unsigned char *bytes;
    size_t size, written;
    MUST(om_save(&m, "", 0, &size) == OM_ERROR_INSUFFICIENT_BUFFER);
    bytes = malloc(size);
    MUST(bytes != NULL && om_save(&m, bytes, size, &written) == OM_SUCCESS && written == size);
    om_free(m);
    MUST(om_load(bytes, size, &again) == OM_SUCCESS);
    free(bytes);
    return again;
}
