/* Makes each call of a document on each document of a stream (documents.py), and writes the stream of answers. */
#include <stdio.h>
#include <stdlib.h>

#include "grove.h"

typedef grove_told call(const uint8_t *, size_t, uint8_t *, size_t);

static call *const CALLS[] = {grove_c_plan,     grove_c_plan_document, grove_c_check, grove_c_judge,
                              grove_c_draw_svg, grove_c_draw_text,     grove_c_audit};
enum { COUNT = sizeof CALLS / sizeof CALLS[0], LENGTH = 8 };

/* A buffer that grows, and keeps what it has. */
struct buffer {
    uint8_t *bytes;
    size_t room;
};

static void make_room(struct buffer *buffer, size_t room) {
    if (room <= buffer->room)
        return;
    buffer->bytes = realloc(buffer->bytes, room);
    buffer->room = room;
    if (buffer->bytes == NULL) {
        fputs("answers: memory\n", stderr);
        exit(3);
    }
}

/* A length from standard input; 0 if that has ended. */
static int read_length(size_t *length) {
    uint8_t bytes[LENGTH];
    int at;
    if (fread(bytes, 1, LENGTH, stdin) != LENGTH)
        return 0;
    *length = 0;
    for (at = LENGTH - 1; at >= 0; at--)
        *length = *length << 8 | bytes[at];
    return 1;
}

static void write_answer(grove_told told, const uint8_t *text) {
    uint8_t head[1 + LENGTH];
    size_t left = told.length;
    int at;
    head[0] = (uint8_t)told.status;
    for (at = 1; at <= LENGTH; at++, left >>= 8)
        head[at] = (uint8_t)left;
    fwrite(head, 1, sizeof head, stdout);
    fwrite(text, 1, told.length, stdout);
}

/* What a call says; once more if the text has no room the first time. */
static void answer(call *call, const uint8_t *document, size_t length, struct buffer *text) {
    grove_told told = call(document, length, text->bytes, text->room);
    if (told.status == GROVE_ROOM) {
        make_room(text, told.length);
        told = call(document, length, text->bytes, text->room);
    }
    write_answer(told, text->bytes);
}

int main(void) {
    struct buffer document = {NULL, 0};
    struct buffer text = {NULL, 0};
    size_t length;
    int at;
    while (read_length(&length)) {
        make_room(&document, length);
        if (fread(document.bytes, 1, length, stdin) != length)
            return 2;
        for (at = 0; at < COUNT; at++)
            answer(CALLS[at], document.bytes, length, &text);
    }
    free(document.bytes);
    free(text.bytes);
    return fflush(stdout) == 0 ? 0 : 3;
}
