/* Plans, checks and stores of grove, in a C program: docs/LIBRARY.md says how to link it.
 *
 * The calls over documents take the bytes of one (docs/FORMATS.md) and a buffer, and put the text there that the
 * command of their name prints. Those over numbers take and fill arrays, and no text but a path crosses. Calls without
 * a handle keep nothing, so they may run in any number of threads at once, each with buffers of its own. The calls by a
 * handle keep a tree or a store in it. No call reads a file or starts a thread.
 *
 * What a caller owes, which nothing tests:
 * - so many bytes or items stand at a pointer as the length behind it says, and nobody writes to them during the call;
 * - so many bytes or items at a pointer that isn't const may be written as the length or the room behind it says, they
 *   are none of the call's other arguments, and nobody else reads or writes them then;
 * - a pointer leads to a multiple of its type's alignment. It may be NULL if its length or room is 0, and no more than
 *   PTRDIFF_MAX bytes are meant; a pointer without a length leads to one item;
 * - `malloc`, `realloc` and `free` are those of one allocator, and align a block to each power of two up to 16 that
 *   divides its size;
 * - no call is made from a signal handler, or in the forked child of a process with threads;
 * - the stack has 1 MiB left.
 */
#ifndef GROVE_H
#define GROVE_H

#include <stddef.h>
#include <stdint.h>

#ifdef __cplusplus
extern "C" {
#endif

/* The version that this header describes: major, minor and patch, a byte each. */
#define GROVE_VERSION 0x000200u

/* The version of the library that is linked or loaded, likewise. With another one than the header's nothing is said of
 * any other call: compare the two before. */
uint32_t grove_c_version(void);

/* How a call ended. For a call over a document, which has a `text`: */
enum {
    /* `text` begins with the lines that the command prints. */
    GROVE_DONE = 0,
    /* The document is refused: `text` begins with the fault, without `refused` and without a line feed. */
    GROVE_REFUSED = 1,
    /* There is no room for lines or a fault of `length` bytes, and `text` is as it was. */
    GROVE_ROOM = 2,
    /* An allocation failed, and `text` is as it was; `length` is 0. */
    GROVE_MEMORY = 3,
    /* The handle holds nothing that the call is about, and `text` is as it was; `length` is 0. */
    GROVE_CLOSED = 4
};

/* How a call ended, and how long its text is. The text isn't ended by a NUL, and behind it `text` is as it was. */
typedef struct grove_told {
    uint32_t status;
    size_t length;
} grove_told;

/* `grove plan`: the cost of the settled plan of the document's list, the plan, and a flow that proves it least. */
grove_told grove_c_plan(const uint8_t *document, size_t document_length, uint8_t *text, size_t room);

/* `grove plan --document`: the document, with the settled plan and that flow in it, as a line. */
grove_told grove_c_plan_document(const uint8_t *document, size_t document_length, uint8_t *text, size_t room);

/* `grove check`: the cost of the document's plan, below which no legal plan for its list is. The document's flow has
 * to prove that; whoever made the two need not be believed. */
grove_told grove_c_check(const uint8_t *document, size_t document_length, uint8_t *text, size_t room);

/* `grove judge`: the cost of the document's plan, if it is legal, and the replies and the records of its list. */
grove_told grove_c_judge(const uint8_t *document, size_t document_length, uint8_t *text, size_t room);

/* `grove draw`: the settled plan, and above it the document's own, if it has one, as an SVG document. */
grove_told grove_c_draw_svg(const uint8_t *document, size_t document_length, uint8_t *text, size_t room);

/* `grove draw --text`: the same as lines for a terminal. */
grove_told grove_c_draw_text(const uint8_t *document, size_t document_length, uint8_t *text, size_t room);

/* `grove audit`: what the run of the document's jobs replies and leaves that its events are, if that is finished. */
grove_told grove_c_audit(const uint8_t *document, size_t document_length, uint8_t *text, size_t room);

/* A handle that holds a tree, or nothing: what a call keeps for the next. It begins as GROVE_NOTHING. The same is owed
 * of a grove_store, below.
 *
 * What a caller owes of a handle, which nothing tests:
 * - it is GROVE_NOTHING, or what the last call by it left there; only calls change it, and nobody copies it;
 * - one call at a time has it, and it is no part of the call's other arguments. Between calls it may go to another
 *   thread, by a lock, or the start or the end of a thread;
 * - it is closed once it isn't needed any more, or else its memory is never given back. */
typedef struct grove_tree {
    void *held;
} grove_tree;

#define GROVE_NOTHING {NULL}

/* Reads the document's `nodes`, and holds their tree; what was held before is freed. It has no lines: if it is done,
 * `text` is as it was, and `length` is 0. If it isn't done, the handle is as it was. */
grove_told grove_c_tree_open(
    grove_tree *tree, const uint8_t *document, size_t document_length, uint8_t *text, size_t room
);

/* `grove plan` over the tree that is held: the document's `list` is planned. It needs no `nodes`, and nobody looks at
 * those that it has. */
grove_told grove_c_tree_plan(
    grove_tree *tree, const uint8_t *document, size_t document_length, uint8_t *text, size_t room
);

/* `grove check` over the tree that is held, likewise: of the document's `list`, `plan` and `flow`. */
grove_told grove_c_tree_check(
    grove_tree *tree, const uint8_t *document, size_t document_length, uint8_t *text, size_t room
);

/* Frees what the handle holds: it is GROVE_NOTHING then. */
void grove_c_tree_close(grove_tree *tree);

/* ---- Calls over numbers
 *
 * They return how they ended, one of the numbers above:
 * - GROVE_DONE: the arrays and the structs behind the last pointers have what was asked for, as each call says;
 * - GROVE_REFUSED: what was handed in is none of what the call takes;
 * - GROVE_ROOM: an array has room for some items, but for fewer than there are;
 * - GROVE_MEMORY: an allocation failed;
 * - GROVE_CLOSED: the handle holds no tree.
 * If a call isn't done, its arrays are as they were, and the handle holds what it held. If it is done, the arrays begin
 * with what was asked for, and are as they were behind it. */

/* Holds the tree with these parents and weights; what was held before is freed. Nodes stand in preorder: each after its
 * parent, a child right after its parent or after all that is below the child before. parents[0] isn't looked at, as
 * node 0 is the root. Its path is "/", and the name of every other node is its number. GROVE_REFUSED: there is no such
 * tree, of 1 to 4,096 nodes, at most 32 deep, with weights of 1 to 1,000, or the arrays differ in length. */
uint32_t grove_c_tree_build(
    grove_tree *tree, const uint32_t *parents, size_t parents_length, const uint32_t *weights, size_t weights_length
);

/* The number of the node that has the path, as "/a/b", in the tree that is held. GROVE_REFUSED: none has, and `node` is
 * as it was. */
uint32_t grove_c_tree_find(grove_tree *tree, const uint8_t *path, size_t path_length, uint32_t *node);

/* The kinds of a step. */
enum { GROVE_LOCK = 0, GROVE_UNLOCK = 1, GROVE_ACCESS = 2 };

/* A step of a plan: a lock or an unlock of the node with this number, or the access at this place of the list. */
typedef struct grove_step {
    uint32_t kind;
    uint32_t number;
} grove_step;

/* A row of the flow that proves a plan least (docs/CERTIFICATE.md). */
typedef struct grove_flow_row {
    uint32_t node;
    uint64_t above, held, first, last, own;
} grove_flow_row;

/* What a plan costs, and how many steps it has, and rows its flow. After GROVE_ROOM these say for how many there has to
 * be room. After GROVE_REFUSED all is 0, but `place`. */
typedef struct grove_planned {
    uint64_t cost;
    uint32_t steps;
    uint32_t rows;
    uint32_t place;
} grove_planned;

/* The settled plan of a list, over the tree that is held, and the flow that proves it least. The list's accesses are of
 * `nodes`, each as long as `lengths` says. If there is no room for rows at all, nobody asks for them.
 *
 * GROVE_REFUSED: the two are no list over the tree. `place` is that of the first access whose node there isn't; or else
 * of the first whose length isn't 1 to 1,000; it is 64 if there are more accesses. If one array is shorter, it is the
 * shorter's length. No list has more than 64 accesses, no plan more than 8,256 steps, and no flow more than 4,096 rows:
 * no more than twice as many steps as the tree has nodes, and the accesses. */
uint32_t grove_c_tree_plan_nodes(
    grove_tree *tree, const uint32_t *nodes, size_t nodes_length, const uint32_t *lengths, size_t lengths_length,
    grove_step *steps, size_t steps_room, grove_flow_row *flow, size_t flow_room, grove_planned *planned
);

/* Why steps or rows are refused (docs/FORMATS.md has the rules), and what `place` then is. */
enum {
    GROVE_FAULTLESS = 0,
    /* an access of the list: 64, as there are more; its node isn't in the tree; its length isn't 1 to 1,000 */
    GROVE_TOO_LONG = 1,
    GROVE_NO_NODE = 2,
    GROVE_BAD_LENGTH = 3,
    /* a step; of no kind, or of no node or access that there is, is also strange */
    GROVE_STRANGE = 4,
    GROVE_RELOCK = 5,
    GROVE_PARENT_NOT_HELD = 6,
    GROVE_NOT_HELD = 7,
    GROVE_WRONG_ACCESS = 8,
    GROVE_ACCESS_NOT_HELD = 9,
    /* the first access that isn't done */
    GROVE_ACCESS_MISSING = 10,
    /* the first node that is held in the end */
    GROVE_STILL_HELD = 11,
    /* a row of the flow */
    GROVE_ROWS = 12,
    GROVE_SIGN = 13,
    GROVE_TOO_BIG = 14,
    GROVE_LOCK_BALANCE = 15,
    GROVE_RELEASE_BALANCE = 16,
    /* 0; the rows give another bound than the plan's cost, which is `cost` */
    GROVE_VALUE = 17
};

/* What steps cost; or the number of the fault, and its place. What isn't told is 0. */
typedef struct grove_checked {
    uint64_t cost;
    uint32_t fault;
    uint32_t place;
} grove_checked;

/* The cost of a plan over the tree that is held, if it is a legal one for the list, and the rows prove that no legal
 * plan costs less. GROVE_REFUSED: it has this fault, or the list has. Whoever made steps and rows need not be believed.
 * GROVE_MEMORY: also if there are 2^32 steps or rows. */
uint32_t grove_c_tree_check_nodes(
    grove_tree *tree, const uint32_t *nodes, size_t nodes_length, const uint32_t *lengths, size_t lengths_length,
    const grove_step *steps, size_t steps_length, const grove_flow_row *flow, size_t flow_length,
    grove_checked *checked
);

/* The cost of a plan over the tree that is held, if it is a legal one for the list, or the first fault, likewise. */
uint32_t grove_c_tree_judge_nodes(
    grove_tree *tree, const uint32_t *nodes, size_t nodes_length, const uint32_t *lengths, size_t lengths_length,
    const grove_step *steps, size_t steps_length, grove_checked *checked
);

/* Gives each node of the tree that is held its new weight, by how often it was waited for (docs/PROTOCOL.md has the
 * rule). `changed` is how many weights are others now; `weights` begins with all, unless there is no room for any.
 * GROVE_REFUSED: there aren't as many waits as nodes. GROVE_ROOM: no weight is new, and `changed` is the number of
 * nodes. Other than that, `changed` is as it was if the call isn't done. It needs no memory. */
uint32_t grove_c_tree_reweigh(
    grove_tree *tree, const uint32_t *waits, size_t waits_length, uint32_t *weights, size_t weights_room,
    uint32_t *changed
);

/* A node of a part of a tree: its number in the whole tree, the place in the part at which its parent stands, and its
 * weight. */
typedef struct grove_part_node {
    uint32_t number;
    uint32_t parent;
    uint32_t weight;
} grove_part_node;

/* The settled plan of a list over a tree of any size that its caller keeps, by the part that matters: the
 * accessed nodes with all that is above them. `nodes` are places in the part; steps and rows have the numbers of the
 * whole tree. The part stands in preorder, as for grove_c_tree_build, so its numbers rise if the whole tree is numbered
 * in preorder. Then the plan is settled and least over the whole tree, and the flow proves that. Of other numbers, which
 * are put as they are given, nothing is proved.
 *
 * GROVE_REFUSED: the part is no tree within the limits of grove_c_tree_build, and `place` is that of the first node at
 * fault; or it is one, and `nodes` and `lengths` are no list over it, as for grove_c_tree_plan_nodes. */
uint32_t grove_c_plan_part(
    const grove_part_node *part, size_t part_length, const uint32_t *nodes, size_t nodes_length,
    const uint32_t *lengths, size_t lengths_length, grove_step *steps, size_t steps_room, grove_flow_row *flow,
    size_t flow_room, grove_planned *planned
);

/* ---- Stores
 *
 * A handle that holds a store, or nothing. It begins as GROVE_NOTHING. */
typedef struct grove_store {
    void *held;
} grove_store;

/* Reads a document, and holds a store of its tree and its records, as `grove serve --workers 1` opens it; what was held
 * before is let go. It has no lines: if it is done, `text` is as it was, and `length` is 0. If it isn't done, the
 * handle is as it was. */
grove_told grove_c_store_open(
    grove_store *store, const uint8_t *document, size_t document_length, uint8_t *text, size_t room
);

/* The reply of `grove serve` to a line (docs/SESSIONS.md), both without a line feed. It is GROVE_DONE also if the line
 * is refused: its reply says so then. GROVE_ROOM says how long the reply is; the line has had its effect, and
 * grove_c_store_reply has the reply. After GROVE_MEMORY the store is as it was. */
grove_told grove_c_store_answer(
    grove_store *store, const uint8_t *line, size_t line_length, uint8_t *text, size_t room
);

/* The reply to the last line that had one, once more; it is empty before the first line. */
grove_told grove_c_store_reply(grove_store *store, uint8_t *text, size_t room);

/* Lets go what the handle holds: it is GROVE_NOTHING then. */
void grove_c_store_close(grove_store *store);

#ifdef __cplusplus
}
#endif

#endif
