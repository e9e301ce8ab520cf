/* Preloaded before a program, keeps in the file that LIVE_BYTES names, as a number of eight bytes, how many bytes the
   program has by growths at any time. */
#include <errno.h>
#include <fcntl.h>
#include <malloc.h>
#include <stddef.h>
#include <stdlib.h>
#include <sys/mman.h>
#include <unistd.h>

void *__libc_malloc(size_t size);
void *__libc_calloc(size_t count, size_t size);
void *__libc_realloc(void *old, size_t size);
void *__libc_memalign(size_t alignment, size_t size);
void __libc_free(void *old);

static long before;
static long *live = &before;

__attribute__((constructor)) static void map(void) {
    const char *name = getenv("LIVE_BYTES");
    int file = name ? open(name, O_RDWR) : -1;
    if (file < 0) return;
    long *mapped = mmap(NULL, sizeof *mapped, PROT_READ | PROT_WRITE, MAP_SHARED, file, 0);
    close(file);
    if (mapped == MAP_FAILED) return;
    *mapped = before;
    live = mapped;
}

static void *added(void *made) {
    if (made) __sync_add_and_fetch(live, (long)malloc_usable_size(made));
    return made;
}

void *malloc(size_t size) { return added(__libc_malloc(size)); }

void *calloc(size_t count, size_t size) { return added(__libc_calloc(count, size)); }

void *realloc(void *old, size_t size) {
    long had = old ? (long)malloc_usable_size(old) : 0;
    void *made = __libc_realloc(old, size);
    if (made || !size) __sync_sub_and_fetch(live, had);
    return added(made);
}

void *aligned_alloc(size_t alignment, size_t size) { return added(__libc_memalign(alignment, size)); }

int posix_memalign(void **made, size_t alignment, size_t size) {
    void *found = added(__libc_memalign(alignment, size));
    if (!found) return ENOMEM;
    *made = found;
    return 0;
}

void free(void *old) {
    if (old) __sync_sub_and_fetch(live, (long)malloc_usable_size(old));
    __libc_free(old);
}
