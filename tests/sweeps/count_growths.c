/* Preloaded before a program, reports each of its growths by a byte on the descriptor whose number stands in
   GROWTHS_TELL. */
#include <errno.h>
#include <stddef.h>
#include <stdlib.h>
#include <unistd.h>

void *__libc_malloc(size_t size);
void *__libc_calloc(size_t count, size_t size);
void *__libc_realloc(void *old, size_t size);
void *__libc_memalign(size_t alignment, size_t size);

static void tell(void) {
    const char *number = getenv("GROWTHS_TELL");
    if (number && write(atoi(number), "x", 1) != 1) abort();
}

void *malloc(size_t size) { return tell(), __libc_malloc(size); }

void *calloc(size_t count, size_t size) { return tell(), __libc_calloc(count, size); }

void *realloc(void *old, size_t size) { return tell(), __libc_realloc(old, size); }

void *aligned_alloc(size_t alignment, size_t size) { return tell(), __libc_memalign(alignment, size); }

int posix_memalign(void **made, size_t alignment, size_t size) {
    void *found = (tell(), __libc_memalign(alignment, size));
    if (!found) return ENOMEM;
    *made = found;
    return 0;
}
