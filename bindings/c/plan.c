/* Plans the list of a document, and checks the plan: an example of include/grove.h.
 *
 *   cc -Iinclude bindings/c/plan.c out/library/libgrove.a -o plan
 *   ./plan examples/settings.json
 */
#include <stdio.h>
#include <stdlib.h>

#include "grove.h"

typedef grove_told call(const uint8_t *, size_t, uint8_t *, size_t);

/* Bytes, with room for some more. */
struct text {
    uint8_t *bytes;
    size_t length;
    size_t room;
};

/* Ends the program if there is no memory. */
static void make_room(struct text *text, size_t room) {
    uint8_t *bytes = realloc(text->bytes, room);
    if (bytes == NULL) {
        fputs("plan: memory\n", stderr);
        exit(3);
    }
    text->bytes = bytes;
    text->room = room;
}

/* All that a file has; 0 if it can't be read. */
static int read_file(const char *name, struct text *text) {
    FILE *file = fopen(name, "rb");
    size_t count;
    int is_read;
    if (file == NULL)
        return 0;
    do {
        if (text->room - text->length < 4096)
            make_room(text, 2 * text->room + 4096);
        count = fread(text->bytes + text->length, 1, text->room - text->length, file);
        text->length += count;
    } while (count > 0);
    is_read = !ferror(file);
    fclose(file);
    return is_read;
}

/* Makes a call, and once more if the text has no room the first time. */
static uint32_t say(call *call, const struct text *document, struct text *text) {
    grove_told told = call(document->bytes, document->length, text->bytes, text->room);
    if (told.status == GROVE_ROOM) {
        make_room(text, told.length);
        told = call(document->bytes, document->length, text->bytes, text->room);
    }
    text->length = told.length;
    return told.status;
}

/* Prints what a call says of a document, and gives the status of `grove`. */
static int show(call *call, const struct text *document) {
    struct text text = {NULL, 0, 0};
    uint32_t status = say(call, document, &text);
    if (status == GROVE_REFUSED)
        printf("refused %.*s\n", (int)text.length, (const char *)text.bytes);
    else if (status == GROVE_DONE)
        fwrite(text.bytes, 1, text.length, stdout);
    else
        fputs("memory\n", stderr);
    free(text.bytes);
    return (int)status;
}

int main(int count, char **words) {
    struct text document = {NULL, 0, 0};
    struct text planned = {NULL, 0, 0};
    int status = 2;
    if (count != 2) {
        fputs("usage: plan DOC\n", stderr);
    } else if (!read_file(words[1], &document)) {
        fprintf(stderr, "plan: can't read %s\n", words[1]);
        status = 3;
    } else {
        status = show(grove_c_plan, &document);
        if (status == GROVE_DONE) {
            status = (int)say(grove_c_plan_document, &document, &planned);
            if (status != GROVE_DONE)
                fputs("memory\n", stderr);
        }
        if (status == GROVE_DONE)
            status = show(grove_c_check, &planned);
    }
    free(planned.bytes);
    free(document.bytes);
    return status;
}
