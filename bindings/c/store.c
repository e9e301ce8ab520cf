/* Opens a store of a document, and prints its reply to each line: an example of include/grove.h.
 *
 *   cc -Iinclude bindings/c/store.c out/library/libgrove.a -o store
 *   ./store examples/settings.json < LINES
 */
#include <stdio.h>
#include <stdlib.h>

#include "grove.h"

/* Bytes, with room for some more. */
struct text {
    uint8_t *bytes;
    size_t length;
    size_t room;
};

/* Ends the program where there is no memory. */
static void make_room(struct text *text, size_t room) {
    uint8_t *bytes;
    if (room <= text->room)
        return;
    bytes = realloc(text->bytes, room);
    if (bytes == NULL) {
        fputs("store: memory\n", stderr);
        exit(3);
    }
    text->bytes = bytes;
    text->room = room;
}

/* Reads up to a line feed, which is left away, or up to the end. 0 where nothing is left. */
static int read_line(FILE *file, struct text *line) {
    int byte = getc(file);
    int is_there = byte != EOF;
    line->length = 0;
    while (byte != EOF && byte != '\n') {
        if (line->length == line->room)
            make_room(line, 2 * line->room + 4096);
        line->bytes[line->length++] = (uint8_t)byte;
        byte = getc(file);
    }
    return is_there;
}

/* All that a file has; 0 where it can't be read. */
static int read_file(const char *name, struct text *text) {
    FILE *file = fopen(name, "rb");
    size_t count;
    int is_read;
    if (file == NULL)
        return 0;
    do {
        make_room(text, text->length + 65536);
        count = fread(text->bytes + text->length, 1, text->room - text->length, file);
        text->length += count;
    } while (count > 0);
    is_read = !ferror(file);
    fclose(file);
    return is_read;
}

/* Puts the reply to a line into the text. The line has its effect once, also if the text had no room at first. */
static uint32_t answer(grove_store *store, const struct text *line, struct text *reply) {
    grove_told told = grove_c_store_answer(store, line->bytes, line->length, reply->bytes, reply->room);
    if (told.status == GROVE_ROOM) {
        make_room(reply, told.length);
        told = grove_c_store_reply(store, reply->bytes, reply->room);
    }
    reply->length = told.length;
    return told.status;
}

/* Prints the reply to each line of standard input, and gives the status of `grove`. */
static int answer_lines(grove_store *store) {
    struct text line = {NULL, 0, 0};
    struct text reply = {NULL, 0, 0};
    uint32_t status = GROVE_DONE;
    while (status == GROVE_DONE && read_line(stdin, &line)) {
        status = answer(store, &line, &reply);
        if (status == GROVE_DONE) {
            fwrite(reply.bytes, 1, reply.length, stdout);
            putchar('\n');
        }
    }
    if (status != GROVE_DONE)
        fputs("store: memory\n", stderr);
    free(reply.bytes);
    free(line.bytes);
    return (int)status;
}

int main(int count, char **words) {
    grove_store store = GROVE_NOTHING;
    struct text document = {NULL, 0, 0};
    uint8_t fault[4096];
    grove_told told;
    int status;
    if (count != 2) {
        fputs("usage: store DOC < LINES\n", stderr);
        return 2;
    }
    if (!read_file(words[1], &document)) {
        fprintf(stderr, "store: can't read %s\n", words[1]);
        free(document.bytes);
        return 3;
    }
    told = grove_c_store_open(&store, document.bytes, document.length, fault, sizeof fault);
    free(document.bytes);
    if (told.status == GROVE_REFUSED)
        printf("refused %.*s\n", (int)told.length, (const char *)fault);
    status = told.status == GROVE_DONE ? answer_lines(&store) : (int)told.status;
    grove_c_store_close(&store);
    return status;
}
