/* For a program that is linked with --wrap of malloc, realloc and free: the blocks that calls have, and one growth that
 * is refused; and what is wrong so far. */
#ifndef COUNTED_H
#define COUNTED_H

#include <stdint.h>
#include <stdio.h>
#include <stdlib.h>
#include <string.h>

enum { MOST = 1 << 22, AGAIN = 10000 };

void *__real_malloc(size_t size);
void *__real_realloc(void *block, size_t size);
void __real_free(void *block);
void *__wrap_malloc(size_t size);
void *__wrap_realloc(void *block, size_t size);
void __wrap_free(void *block);

/* The blocks that the calls have now, the growths so far, and the number of the one that is refused. */
static long blocks, growths, refused;

static int is_refused(void) { return ++growths == refused; }

void *__wrap_malloc(size_t size) {
    void *block = is_refused() ? NULL : __real_malloc(size);
    blocks += block != NULL;
    return block;
}

void *__wrap_realloc(void *block, size_t size) {
    void *grown = is_refused() ? NULL : __real_realloc(block, size);
    blocks += block == NULL && grown != NULL;
    return grown;
}

void __wrap_free(void *block) {
    blocks -= block != NULL;
    __real_free(block);
}

/* A file that is read. */
typedef struct bytes {
    uint8_t at[MOST];
    size_t length;
} bytes;

static int is_wrong;

static inline void want(int is_so, const char *name, const char *what) {
    if (!is_so) {
        printf("%s: not so: %s\n", name, what);
        is_wrong = 1;
    }
}

static inline void read_file(const char *path, bytes *read) {
    FILE *file = fopen(path, "rb");
    if (file == NULL)
        exit(2);
    read->length = fread(read->at, 1, MOST, file);
    fclose(file);
}

#endif
