/* Makes each call of include/grove.h that goes by a handle of a store, with buffers of all kinds, and with each
 * allocation failed in turn.
 *
 *   usage: stores DOC PLAN      (linked with --wrap of malloc, realloc and free)
 *
 * DOC has a node `/a` below its root, and PLAN is the line of a plan over it. Says what is wrong, and ends with status
 * 1 then.
 */
#include "grove.h"
#include "rooms.h"

static const char add[] = "{\"batch\":[[[\"add\",\"/a\",1],[\"get\",\"/a\"]],[[\"take\",\"/a\",1]]]}";
static const char weights[] = "{\"weights\":null}", reweigh[] = "{\"reweigh\":null}";
static const char none[] = "{\"error\":\"bad-json\"}", longest[] = "{\"error\":\"long-line\"}";

static bytes document, planned, line;
static uint8_t reply[MOST];

static grove_told opened(grove_store *store) {
    return grove_c_store_open(store, document.at, document.length, NULL, 0);
}

static grove_told answered(grove_store *store, const char *line, size_t room) {
    return grove_c_store_answer(store, (const uint8_t *)line, strlen(line), text, filled(room));
}

/* Has the last reply, and gives its length. */
static size_t replied(grove_store *store) { return grove_c_store_reply(store, reply, MOST).length; }

static void try_closed(void) {
    grove_store store = GROVE_NOTHING;
    grove_told told = answered(&store, add, 64);
    want(told.status == GROVE_CLOSED && told.length == 0 && is_untouched(0), "closed", "a line to nothing");
    told = grove_c_store_reply(&store, NULL, 0);
    want(told.status == GROVE_CLOSED && told.length == 0, "closed", "no last reply");
    grove_c_store_close(&store);
    grove_c_store_close(&store);
    want(store.held == NULL && blocks == 0, "closed", "nothing is closed, twice");
}

/* A handle with a tree has no store, and one with a store no tree. */
static void try_other(void) {
    grove_tree tree = GROVE_NOTHING;
    grove_store store = GROVE_NOTHING;
    grove_told told;
    grove_c_tree_open(&tree, document.at, document.length, NULL, 0);
    store.held = tree.held;
    want(answered(&store, add, 64).status == GROVE_CLOSED && is_untouched(0), "other", "a line to a tree");
    want(grove_c_store_reply(&store, NULL, 0).status == GROVE_CLOSED, "other", "the reply of a tree");
    want(opened(&store).status == GROVE_DONE, "other", "a store in place of the tree");
    tree.held = store.held;
    told = grove_c_tree_plan(&tree, document.at, document.length, text, filled(64));
    want(told.status == GROVE_CLOSED && is_untouched(0), "other", "a plan over a store");
    grove_c_tree_close(&tree);
    want(blocks == 0, "other", "all memory is given back");
}

static void try_refused(grove_store *store) {
    void *held = store->held;
    long before = blocks;
    grove_told told = grove_c_store_open(store, NULL, 0, text, filled(7));
    want(told.status == GROVE_ROOM && told.length == 8 && is_untouched(0), "open", "a refusal with a byte too little");
    told = grove_c_store_open(store, NULL, 0, text, filled(8));
    want(told.status == GROVE_REFUSED && memcmp(text, "bad-json", 8) == 0 && is_untouched(8), "open", "a refusal");
    want(store->held == held && blocks == before, "open", "a refusal changes nothing");
}

static void try_opened(void) {
    grove_store store = GROVE_NOTHING;
    long before;
    try_refused(&store);
    want(opened(&store).status == GROVE_DONE && store.held != NULL, "open", "a store is held");
    want(replied(&store) == 0, "open", "its last reply is empty");
    try_refused(&store);
    before = blocks;
    want(opened(&store).status == GROVE_DONE && blocks == before, "open", "opened anew, what was held is let go");
    grove_c_store_close(&store);
    want(store.held == NULL && blocks == 0, "open", "closed, and all memory is given back");
}

static void try_open_growths(void) {
    grove_store store = GROVE_NOTHING;
    long number, count;
    growths = refused = 0;
    opened(&store);
    count = growths;
    grove_c_store_close(&store);
    for (number = 1; number <= count; number++) {
        growths = 0;
        refused = number;
        want(opened(&store).status == GROVE_MEMORY, "open", "a failed allocation is told");
        want(store.held == NULL && blocks == 0, "open", "nothing is held then, and all memory is given back");
    }
    refused = 0;
    printf("open: %ld allocations\n", count);
}

/* A line with each room has its effect once, and its reply can be had with another. */
static void try_rooms(const char *name, const char *line, grove_store *store) {
    size_t length;
    grove_told told = grove_c_store_answer(store, (const uint8_t *)line, strlen(line), NULL, 0);
    want(told.status == GROVE_ROOM, name, "no buffer");
    length = replied(store);
    want(told.length == length, name, "the length of the reply");
    told = grove_c_store_reply(store, text, filled(length - 1));
    want(told.status == GROVE_ROOM && told.length == length && is_untouched(0), name, "one byte too little once more");
    told = grove_c_store_reply(store, text, filled(length));
    want(told.status == GROVE_DONE && is_untouched(length), name, "just room enough once more");
    want(memcmp(text, reply, length) == 0, name, "the same reply");
    told = answered(store, line, length - 1);
    want(told.status == GROVE_ROOM && is_untouched(0) && is_untouched(length - 1), name, "one byte too little");
    length = replied(store);
    told = answered(store, line, length + 1);
    want(told.status == GROVE_DONE && told.length == replied(store), name, "room enough");
    want(memcmp(text, reply, told.length) == 0 && is_untouched(told.length), name, "the reply, and no more");
}

static void want_reply(grove_store *store, const char *line, const char *wanted) {
    grove_told told = answered(store, line, 1000);
    want(told.status == GROVE_DONE && told.length == strlen(wanted), line, "the length of its reply");
    want(memcmp(text, wanted, told.length) == 0 && is_untouched(told.length), line, "its reply, and no more");
}

static void try_lines(void) {
    grove_store store = GROVE_NOTHING;
    grove_told told;
    opened(&store);
    want_reply(&store, "{\"batch\":[[[\"set\",\"/a\",5]]]}", "{\"places\":[0],\"replies\":[[\"ok\"]],\"round\":1}");
    try_rooms("add", add, &store);
    try_rooms("plan", (const char *)planned.at, &store);
    try_rooms("weights", weights, &store);
    want_reply(&store, reweigh, "{\"changed\":1}");
    want_reply(&store, add, "{\"places\":[0,1],\"replies\":[[6,6],[5]],\"round\":5}");
    told = grove_c_store_answer(&store, NULL, 0, text, filled(64));
    want(told.status == GROVE_DONE && told.length == strlen(none), "no line", "an empty line is refused");
    want(memcmp(text, none, told.length) == 0, "no line", "by its name");
    memset(line.at, ' ', 1048577);
    told = grove_c_store_answer(&store, line.at, 1048577, text, filled(64));
    want(told.status == GROVE_DONE && told.length == strlen(longest), "long line", "it is refused");
    want(memcmp(text, longest, told.length) == 0, "long line", "by its name");
    told = grove_c_store_answer(&store, line.at, 1048576, text, filled(64));
    want(told.status == GROVE_DONE && memcmp(text, none, told.length) == 0, "long line", "a byte less is looked into");
    want_reply(&store, add, "{\"places\":[0,1],\"replies\":[[6,6],[5]],\"round\":6}");
    grove_c_store_close(&store);
    want(blocks == 0, "lines", "all memory is given back");
}

/* A reply has its place in a room of 1 GiB, and is had there once more. */
static void try_reply_gigabyte(const char *name, const char *line, grove_store *store, uint8_t *much) {
    grove_told told = grove_c_store_answer(store, (const uint8_t *)line, strlen(line), much, GIGABYTE);
    size_t length = replied(store);
    want(told.status == GROVE_DONE && told.length == length, name, "a room of 1 GiB");
    want(memcmp(much, reply, length) == 0, name, "the same reply in it");
    memset(much, 0xA5, length + 1);
    told = grove_c_store_reply(store, much, GIGABYTE);
    want(told.status == GROVE_DONE && told.length == length, name, "a room of 1 GiB once more");
    want(memcmp(much, reply, length) == 0 && much[length] == 0xA5, name, "the same reply once more, and no more");
}

static void try_gigabyte(void) {
    grove_store store = GROVE_NOTHING;
    uint8_t *much = gigabyte("open");
    grove_told told;
    if (much == NULL)
        return;
    told = grove_c_store_open(&store, NULL, 0, much, GIGABYTE);
    want(told.status == GROVE_REFUSED && told.length == 8, "open", "a refusal with a room of 1 GiB");
    want(memcmp(much, "bad-json", 8) == 0 && store.held == NULL, "open", "the same refusal in it");
    told = grove_c_store_open(&store, document.at, document.length, much, GIGABYTE);
    want(told.status == GROVE_DONE && told.length == 0, "open", "a room of 1 GiB");
    want(memcmp(much, "bad-json", 8) == 0 && store.held != NULL, "open", "nothing is written there");
    try_reply_gigabyte("add", add, &store, much);
    try_reply_gigabyte("plan", (const char *)planned.at, &store, much);
    try_reply_gigabyte("weights", weights, &store, much);
    try_reply_gigabyte("reweigh", reweigh, &store, much);
    try_reply_gigabyte("bad", "{", &store, much);
    grove_c_store_close(&store);
    __real_free(much);
    want(blocks == 0, "open", "all memory is given back after a room of 1 GiB");
}

/* A line for which some allocation fails changes neither the store nor its last reply. */
static void try_growths(const char *name, const char *line) {
    long number, count, failed = 0;
    grove_store store = GROVE_NOTHING;
    opened(&store);
    growths = refused = 0;
    answered(&store, line, MOST - BEYOND);
    count = growths;
    grove_c_store_close(&store);
    for (number = 1; number <= count; number++) {
        grove_told told;
        opened(&store);
        growths = 0;
        refused = number;
        told = answered(&store, line, MOST - BEYOND);
        refused = 0;
        failed += told.status == GROVE_MEMORY;
        want(told.status == GROVE_MEMORY || told.status == GROVE_DONE, name, "a failed allocation is told");
        if (told.status == GROVE_MEMORY) {
            want(told.length == 0 && is_untouched(0) && replied(&store) == 0, name, "the last reply stays");
            want_reply(&store, "{\"batch\":[]}", "{\"places\":[],\"replies\":[],\"round\":1}");
            want_reply(&store, "{\"batch\":[[[\"add\",\"/a\",0]]]}", "{\"places\":[0],\"replies\":[[10]],\"round\":2}");
        }
        grove_c_store_close(&store);
        want(blocks == 0, name, "all memory is given back");
    }
    want(failed > 0, name, "some allocation is needed");
    printf("%s: %ld allocations, %ld lines without memory\n", name, count, failed);
}

static void try_again(void) {
    grove_store store = GROVE_NOTHING;
    int number;
    long before = 0;
    opened(&store);
    for (number = 0; number < AGAIN; number++) {
        answered(&store, add, 64);
        answered(&store, (const char *)planned.at, 64);
        answered(&store, "{}", 64);
        if (number == 0)
            before = blocks;
    }
    want(blocks == before, "again", "no more is kept");
    grove_c_store_close(&store);
    for (number = 0; number < AGAIN; number++) {
        opened(&store);
        if (number % 2 == 0)
            grove_c_store_close(&store);
    }
    grove_c_store_close(&store);
    want(blocks == 0, "again", "opened and closed again and again");
}

int main(int count, char **words) {
    if (count != 3)
        return 2;
    read_file(words[1], &document);
    read_file(words[2], &planned);
    blocks = 0;
    try_closed();
    try_other();
    try_opened();
    try_open_growths();
    try_lines();
    try_gigabyte();
    try_growths("add", add);
    try_growths("plan", (const char *)planned.at);
    try_growths("weights", weights);
    try_growths("reweigh", reweigh);
    try_growths("bad", "{");
    try_again();
    return is_wrong;
}
