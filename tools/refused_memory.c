/* Stands before the heap of the C library, by LD_PRELOAD: the REFUSED_ALLOC-th call for memory, counted from 1, fails,
   and that it did is written to standard error. Without headers, since the toolchain has none. */
typedef unsigned long size;
void *__libc_malloc(size);
void *__libc_realloc(void *, size);
char *getenv(const char *);
long write(int, const void *, size);

static unsigned long calls, refused;

static unsigned long asked(void) {
    unsigned long number = 0;
    const char *text = getenv("REFUSED_ALLOC");
    while (text && *text >= '0' && *text <= '9') number = 10 * number + (unsigned long)(*text++ - '0');
    return number;
}

static int is_refused(void) {
    if (calls == 0) refused = asked();
    calls++;
    if (calls != refused) return 0;
    write(2, "refused\n", 8);
    return 1;
}

void *malloc(size n) {
    return is_refused() ? 0 : __libc_malloc(n);
}

void *realloc(void *block, size n) {
    return is_refused() ? 0 : __libc_realloc(block, n);
}
