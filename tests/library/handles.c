/* Makes each call of include/grove.h that goes by a handle, with buffers of all kinds, and with each allocation failed
 * in turn.
 *
 *   usage: handles DOC QUESTION..      (linked with --wrap of malloc, realloc and free)
 *
 * DOC has a list, a plan and a flow; a QUESTION is the same with no nodes, or with others. Says what is wrong, and ends
 * with status 1 then.
 */
#include "grove.h"
#include "rooms.h"

typedef grove_told call(const uint8_t *, size_t, uint8_t *, size_t);
typedef grove_told ask(grove_tree *, const uint8_t *, size_t, uint8_t *, size_t);

static bytes document, question;
static uint8_t whole[MOST];

static grove_told opened(grove_tree *tree) {
    return grove_c_tree_open(tree, document.at, document.length, NULL, 0);
}

static grove_told asked(ask *ask, grove_tree *tree, size_t room) {
    return ask(tree, question.at, question.length, text, filled(room));
}

/* ---- a handle that holds nothing */

static void try_closed(void) {
    grove_tree none = GROVE_NOTHING;
    grove_told told = grove_c_tree_plan(&none, document.at, document.length, text, filled(64));
    want(told.status == GROVE_CLOSED && told.length == 0 && is_untouched(0), "closed", "a plan over nothing");
    told = grove_c_tree_check(&none, NULL, 0, NULL, 0);
    want(told.status == GROVE_CLOSED && told.length == 0, "closed", "a check over nothing");
    grove_c_tree_close(&none);
    grove_c_tree_close(&none);
    want(none.held == NULL && blocks == 0, "closed", "nothing is closed, twice");
}

/* ---- a handle is opened */

/* A refusal is returned, and what was held stays. */
static void try_refused(grove_tree *tree) {
    void *held = tree->held;
    long before = blocks;
    grove_told told = grove_c_tree_open(tree, NULL, 0, NULL, 0);
    want(told.status == GROVE_ROOM && told.length == strlen("bad-json"), "open", "a refusal without a buffer");
    told = grove_c_tree_open(tree, NULL, 0, text, filled(strlen("bad-json") - 1));
    want(told.status == GROVE_ROOM && is_untouched(0), "open", "a refusal with one byte too little");
    told = grove_c_tree_open(tree, NULL, 0, text, filled(strlen("bad-json")));
    want(told.status == GROVE_REFUSED && told.length == strlen("bad-json"), "open", "a refusal with just room enough");
    want(memcmp(text, "bad-json", 8) == 0 && is_untouched(8), "open", "its text");
    want(tree->held == held && blocks == before, "open", "a refusal changes nothing");
}

static void try_opened(void) {
    grove_tree tree = GROVE_NOTHING;
    grove_told told;
    int number;
    try_refused(&tree);
    told = grove_c_tree_open(&tree, document.at, document.length, text, filled(64));
    want(told.status == GROVE_DONE && told.length == 0 && is_untouched(0), "open", "no lines");
    want(tree.held != NULL && blocks > 0, "open", "a tree is held");
    try_refused(&tree);
    for (number = 0; number < 3; number++) {
        long before = blocks;
        want(opened(&tree).status == GROVE_DONE && blocks == before, "open", "opened anew, what was held is let go");
    }
    grove_c_tree_close(&tree);
    want(tree.held == NULL && blocks == 0, "open", "closed, and all memory is given back");
}

static void try_open_gigabyte(void) {
    grove_tree tree = GROVE_NOTHING;
    uint8_t *much = gigabyte("open");
    grove_told told;
    if (much == NULL)
        return;
    told = grove_c_tree_open(&tree, NULL, 0, much, GIGABYTE);
    want(told.status == GROVE_REFUSED && told.length == 8, "open", "a refusal with a room of 1 GiB");
    want(memcmp(much, "bad-json", 8) == 0 && tree.held == NULL, "open", "the same refusal in it");
    told = grove_c_tree_open(&tree, document.at, document.length, much, GIGABYTE);
    want(told.status == GROVE_DONE && told.length == 0, "open", "a room of 1 GiB");
    want(memcmp(much, "bad-json", 8) == 0 && tree.held != NULL, "open", "nothing is written there");
    grove_c_tree_close(&tree);
    __real_free(much);
}

static void try_open_growths(void) {
    grove_tree tree = GROVE_NOTHING;
    long number, count;
    growths = refused = 0;
    opened(&tree);
    count = growths;
    grove_c_tree_close(&tree);
    for (number = 1; number <= count; number++) {
        grove_told told;
        growths = 0;
        refused = number;
        told = opened(&tree);
        want(told.status == GROVE_MEMORY && told.length == 0, "open", "a failed allocation is told");
        want(tree.held == NULL && blocks == 0, "open", "nothing is held then, and all memory is given back");
    }
    refused = 0;
    printf("open: %ld allocations\n", count);
}

/* ---- what is held is asked */

/* The question over the tree that is held has the answer of the whole document. */
static size_t try_rooms(const char *name, ask *ask, call *same, grove_tree *tree) {
    grove_told told = same(document.at, document.length, whole, MOST);
    size_t length = told.length;
    grove_told again = asked(ask, tree, length);
    want(told.status == GROVE_DONE && again.status == GROVE_DONE && again.length == length, name, "just room enough");
    want(memcmp(text, whole, length) == 0 && is_untouched(length), name, "the text of the whole document, and no more");
    want(asked(ask, tree, length + 7).status == GROVE_DONE && is_untouched(length), name, "what is behind it stays");
    again = asked(ask, tree, length - 1);
    want(again.status == GROVE_ROOM && again.length == length, name, "one byte too little");
    want(is_untouched(0) && is_untouched(length - 1), name, "nothing is written then");
    again = ask(tree, question.at, question.length, NULL, 0);
    want(again.status == GROVE_ROOM && again.length == length, name, "no buffer");
    again = ask(tree, NULL, 0, text, filled(64));
    want(again.status == GROVE_REFUSED && memcmp(text, "bad-json", 8) == 0, name, "no bytes are no document");
    return length;
}

static void try_gigabyte(const char *name, ask *ask, grove_tree *tree, size_t length) {
    uint8_t *much = gigabyte(name);
    grove_told told;
    if (much == NULL)
        return;
    told = ask(tree, question.at, question.length, much, GIGABYTE);
    want(told.status == GROVE_DONE && told.length == length, name, "a room of 1 GiB");
    want(memcmp(much, whole, length) == 0, name, "the same text in it");
    __real_free(much);
}

static void try_ask_growths(const char *name, ask *ask, grove_tree *tree, size_t length) {
    long number, count, before = blocks;
    void *held = tree->held;
    growths = refused = 0;
    asked(ask, tree, length);
    count = growths;
    for (number = 1; number <= count; number++) {
        grove_told told;
        growths = 0;
        refused = number;
        told = asked(ask, tree, length);
        want(told.status == GROVE_MEMORY || told.status == GROVE_DONE, name, "a failed allocation is told");
        want(told.status != GROVE_MEMORY || (told.length == 0 && is_untouched(0)), name, "and nothing is written");
        want(blocks == before && tree->held == held, name, "all memory is given back then, and the tree stays");
    }
    refused = 0;
    printf("%s: %ld allocations\n", name, count);
}

static void try_ask(const char *name, ask *ask, call *same) {
    grove_tree tree = GROVE_NOTHING;
    size_t length;
    long before;
    int number;
    opened(&tree);
    before = blocks;
    length = try_rooms(name, ask, same, &tree);
    if (is_wrong)
        return;
    try_gigabyte(name, ask, &tree, length);
    try_ask_growths(name, ask, &tree, length);
    for (number = 0; number < AGAIN; number++)
        asked(ask, &tree, length);
    want(memcmp(text, whole, length) == 0 && blocks == before, name, "the same again and again, and no more is kept");
    grove_c_tree_close(&tree);
    want(blocks == 0, name, "all memory is given back");
}

static void try_again(void) {
    grove_tree tree = GROVE_NOTHING;
    int number;
    for (number = 0; number < AGAIN; number++) {
        opened(&tree);
        if (number % 2 == 0)
            grove_c_tree_close(&tree);
    }
    grove_c_tree_close(&tree);
    want(blocks == 0, "open", "opened and closed again and again");
}

int main(int count, char **words) {
    int number;
    if (count < 3)
        return 2;
    read_file(words[1], &document);
    blocks = 0;
    try_closed();
    try_opened();
    try_open_gigabyte();
    try_open_growths();
    try_again();
    for (number = 2; number < count; number++) {
        read_file(words[number], &question);
        try_ask("plan", grove_c_tree_plan, grove_c_plan);
        try_ask("check", grove_c_tree_check, grove_c_check);
    }
    return is_wrong;
}
