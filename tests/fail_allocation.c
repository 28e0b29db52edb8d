/* Makes one allocation fail: the one whose number, from 1, stands in FAIL_ALLOC. Tells on descriptor 2 that it did. Loaded
 * before a program by LD_PRELOAD. */
#define _GNU_SOURCE
#include <errno.h>
#include <stdatomic.h>
#include <stddef.h>
#include <stdlib.h>
#include <unistd.h>

extern void *__libc_malloc(size_t);
extern void *__libc_calloc(size_t, size_t);
extern void *__libc_realloc(void *, size_t);
extern void *__libc_memalign(size_t, size_t);

static atomic_long count;
static long failing = -1;

__attribute__((constructor)) static void begin(void) {
    const char *text = getenv("FAIL_ALLOC");
    failing = text ? strtol(text, NULL, 10) : 0;
    atomic_store(&count, 0);
}


static int fails(void) {
    if (failing < 0)
        return 0;
    if (atomic_fetch_add(&count, 1) + 1 != failing)
        return 0;
    if (write(2, "allocation failed\n", 18) < 0)
        _exit(99);
    errno = ENOMEM;
    return 1;
}

void *malloc(size_t size) { return fails() ? NULL : __libc_malloc(size); }
void *calloc(size_t many, size_t size) { return fails() ? NULL : __libc_calloc(many, size); }
void *realloc(void *old, size_t size) { return fails() ? NULL : __libc_realloc(old, size); }
void *memalign(size_t to, size_t size) { return fails() ? NULL : __libc_memalign(to, size); }
void *aligned_alloc(size_t to, size_t size) { return fails() ? NULL : __libc_memalign(to, size); }
int posix_memalign(void **out, size_t to, size_t size) {
    void *got = fails() ? NULL : __libc_memalign(to, size);
    if (got == NULL)
        return ENOMEM;
    *out = got;
    return 0;
}
