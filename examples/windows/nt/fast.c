/* Before each store to memory Unicorn 2.0.1 looks whether code was made of its page, which takes 170 ns. Its calls of its own three functions for that go by
 * the dynamic linker, so these stand before them, and leave the look out for a single store: code that a guest changes is run as it was until
 * NtFlushInstructionCache or NtProtectVirtualMemory, as Windows asks of programs (Learn: FlushInstructionCache). Where a library has no such calls these are
 * never called. */
#define _GNU_SOURCE
#include <dlfcn.h>
#include <stddef.h>
#include <stdint.h>

enum { STORE_MOST = 64 /* bytes, of the longest store */ };

void *page_collection_lock_x86_64(void *engine, uint64_t from, uint64_t to);
void page_collection_unlock_x86_64(void *pages);
void tb_invalidate_phys_page_fast_x86_64(void *engine, void *pages, uint64_t from, int length, uintptr_t back);

/* The library's own function of a name. (dlsym gives a function as an object, which POSIX allows.) */
static void find(void *function, const char *name) {
    if (*(void **)function == NULL) {
        *(void **)function = dlsym(RTLD_NEXT, name);
    }
}

void *page_collection_lock_x86_64(void *engine, uint64_t from, uint64_t to) {
    static void *(*own)(void *, uint64_t, uint64_t);
    if (to - from <= STORE_MOST) {
        return NULL;
    }
    find(&own, "page_collection_lock_x86_64");
    return own(engine, from, to);
}

void page_collection_unlock_x86_64(void *pages) {
    static void (*own)(void *);
    if (pages != NULL) {
        find(&own, "page_collection_unlock_x86_64");
        own(pages);
    }
}

void tb_invalidate_phys_page_fast_x86_64(void *engine, void *pages, uint64_t from, int length, uintptr_t back) {
    static void (*own)(void *, void *, uint64_t, int, uintptr_t);
    if (pages != NULL) {
        find(&own, "tb_invalidate_phys_page_fast_x86_64");
        own(engine, pages, from, length, back);
    }
}
