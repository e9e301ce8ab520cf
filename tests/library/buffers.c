/* Makes each call of include/grove.h on a document with buffers of all kinds, and with each allocation failed in turn.
 *
 *   usage: buffers DOC      (linked with --wrap of malloc, realloc and free)
 *
 * Says what is wrong, and ends with status 1 then.
 */
#include "grove.h"
#include "rooms.h"

typedef grove_told call(const uint8_t *, size_t, uint8_t *, size_t);

static bytes document;
static uint8_t whole[MOST];

static grove_told tell(call *call, size_t room) {
    return call(document.at, document.length, text, filled(room));
}

static void try_rooms(const char *name, call *call, grove_told told) {
    grove_told again = tell(call, told.length);
    want(again.status == told.status && again.length == told.length, name, "there is just room enough");
    want(memcmp(text, whole, told.length) == 0 && is_untouched(told.length), name, "the same text, and no more");
    again = tell(call, told.length + 7);
    want(again.status == told.status && is_untouched(told.length), name, "what is behind the text stays");
    again = tell(call, told.length - 1);
    want(again.status == GROVE_ROOM && again.length == told.length, name, "one byte too little");
    want(is_untouched(0) && is_untouched(told.length - 1), name, "nothing is written then");
    again = call(document.at, document.length, NULL, 0);
    want(again.status == GROVE_ROOM && again.length == told.length, name, "no buffer");
}

static void try_gigabyte(const char *name, call *call, grove_told told) {
    uint8_t *much = gigabyte(name);
    grove_told again;
    if (much == NULL)
        return;
    again = call(document.at, document.length, much, GIGABYTE);
    want(again.status == told.status && again.length == told.length, name, "a room of 1 GiB");
    want(memcmp(much, whole, told.length) == 0, name, "the same text in it");
    __real_free(much);
}

static void try_growths(const char *name, call *call, grove_told told) {
    long number, count;
    growths = refused = 0;
    tell(call, told.length);
    count = growths;
    for (number = 1; number <= count; number++) {
        grove_told again;
        growths = 0;
        refused = number;
        again = tell(call, told.length);
        want(again.status == GROVE_MEMORY || again.status == told.status, name, "a failed allocation is told");
        want(again.status != GROVE_MEMORY || (again.length == 0 && is_untouched(0)), name, "and nothing is written");
        want(blocks == 0, name, "all memory is given back then");
    }
    refused = 0;
    printf("%s: status %u, %ld allocations\n", name, (unsigned)told.status, count);
}

static void try_call(const char *name, call *call) {
    int number;
    grove_told told = call(document.at, document.length, whole, MOST);
    grove_told nothing = call(NULL, 0, text, MOST);
    want(told.status <= GROVE_REFUSED && told.length > 0, name, "there is an answer");
    want(nothing.status == GROVE_REFUSED && memcmp(text, "bad-json", 8) == 0, name, "no bytes are no document");
    if (is_wrong)
        return;
    try_rooms(name, call, told);
    try_gigabyte(name, call, told);
    try_growths(name, call, told);
    for (number = 0; number < AGAIN && document.length < 4096; number++)
        tell(call, told.length);
    want(blocks == 0, name, "all memory is given back");
}

int main(int count, char **words) {
    if (count != 2)
        return 2;
    read_file(words[1], &document);
    blocks = 0;
    try_call("plan", grove_c_plan);
    try_call("plan_document", grove_c_plan_document);
    try_call("check", grove_c_check);
    try_call("judge", grove_c_judge);
    try_call("draw_svg", grove_c_draw_svg);
    try_call("draw_text", grove_c_draw_text);
    try_call("audit", grove_c_audit);
    return is_wrong;
}
