/* Counts the requests for memory of what it stands beside, and the blocks that it holds, and refuses the request of one number.
 *
 * Linked with the library, by -Bsymbolic, it does so for a host that looks at the counts and sets the number. Loaded into a program it
 * refuses the request whose number REFUSE has, over malloc and realloc from 1, and tells so by a line on standard error. Without REFUSE
 * it watches what a test marks: from a request for just MARK bytes, told as 'marked', until that block is given back each request is
 * told as 'asked'. */
typedef __SIZE_TYPE__ size_t;
enum { MARK = 30011 };
extern void *__libc_malloc(size_t size);
extern void *__libc_realloc(void *block, size_t size);
extern void __libc_free(void *block);
extern long write(int file, const void *bytes, size_t size);
extern char *getenv(const char *name);
extern long atol(const char *text);

long requests, refused_at, blocks;
static void *mark;

static int is_refused(void) {
    const char *number = getenv("REFUSE");
    if (number) refused_at = atol(number);
    if (mark) write(2, "asked\n", 6);
    if (++requests != refused_at) return 0;
    if (number) write(2, "refused\n", 8);
    return 1;
}

void *malloc(size_t size) {
    int is_mark = size == MARK && !mark;
    void *block = is_refused() ? 0 : __libc_malloc(size);
    blocks += block != 0;
    if (block && is_mark) {
        mark = block;
        write(2, "marked\n", 7);
    }
    return block;
}

void *realloc(void *block, size_t size) {
    void *moved = is_refused() ? 0 : __libc_realloc(block, size);
    blocks += block == 0 && moved != 0;
    return moved;
}

void free(void *block) {
    if (block && block == mark) mark = 0;
    blocks -= block != 0;
    __libc_free(block);
}
