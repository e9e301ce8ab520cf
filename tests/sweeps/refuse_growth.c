/* Preloaded before a program, refuses one of its growths: the one whose number, from 1, stands in REFUSED_GROWTH.
   Says so by one byte on the descriptor whose number stands in REFUSED_TELL. All other growths are the C library's. */
#include <errno.h>
#include <stddef.h>
#include <stdlib.h>
#include <unistd.h>

void *__libc_malloc(size_t size);
void *__libc_calloc(size_t count, size_t size);
void *__libc_realloc(void *old, size_t size);
void *__libc_memalign(size_t alignment, size_t size);

static long growths;

static int is_refused(void) {
    const char *number = getenv("REFUSED_GROWTH"), *tell = getenv("REFUSED_TELL");
    if (!number || __sync_add_and_fetch(&growths, 1) != atol(number)) return 0;
    if (tell && write(atoi(tell), "x", 1) != 1) abort();
    errno = ENOMEM;
    return 1;
}

void *malloc(size_t size) { return is_refused() ? NULL : __libc_malloc(size); }

void *calloc(size_t count, size_t size) { return is_refused() ? NULL : __libc_calloc(count, size); }

void *realloc(void *old, size_t size) { return is_refused() ? NULL : __libc_realloc(old, size); }

void *aligned_alloc(size_t alignment, size_t size) { return is_refused() ? NULL : __libc_memalign(alignment, size); }

int posix_memalign(void **made, size_t alignment, size_t size) {
    void *found = is_refused() ? NULL : __libc_memalign(alignment, size);
    if (!found) return ENOMEM;
    *made = found;
    return 0;
}
