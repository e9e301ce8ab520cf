/* A buffer for texts, behind which it is seen that nothing is written. */
#ifndef ROOMS_H
#define ROOMS_H

#include "counted.h"

enum { BEYOND = 32 };

static uint8_t text[MOST];

/* Is the buffer from here on as it was filled? */
static int is_untouched(size_t from) {
    size_t at;
    for (at = from; at < from + BEYOND; at++)
        if (text[at] != 0xA5)
            return 0;
    return 1;
}

/* A GiB that the system gives no pages for as long as nobody writes there; nothing, and that is wrong, if it has none.
 * It is given back to __real_free. */
enum { GIGABYTE = 1 << 30 };

static uint8_t *gigabyte(const char *name) {
    uint8_t *much = __real_malloc(GIGABYTE);
    want(much != NULL, name, "there is 1 GiB");
    return much;
}

/* A room of so many bytes, behind which it is seen that nothing is written. */
static size_t filled(size_t room) {
    memset(text, 0xA5, room + BEYOND);
    return room;
}

#endif
