/* Makes each call of include/grove.h over numbers, with arrays of all sizes, and with each allocation failed in turn.
 *
 *   usage: numbers DOC      (linked with --wrap of malloc, realloc and free)
 *
 * DOC is opened as a store. Says what is wrong, and ends with status 1 then.
 */
#include "counted.h"
#include "grove.h"

enum { NODES = 7, LIST = 5, STEPS = 2 * NODES + LIST, ROOM = STEPS + 8, LARGE = 4096 };

/* /, /1, /1/2, /1/3, /4, /4/5, /4/5/6 */
static const uint32_t PARENTS[NODES] = {9, 0, 1, 1, 0, 4, 5};
static const uint32_t WEIGHTS[NODES] = {50, 20, 5, 1, 10, 3, 1};
static const uint32_t LISTED[LIST] = {0, 1, 3, 2, 6};
static const uint32_t LENGTHS[LIST] = {1, 1, 7, 2, 1};
/* The same nodes in a larger tree. */
static const grove_part_node PART[NODES] = {{0, 9, 50},  {10, 0, 20}, {20, 1, 5}, {30, 1, 1},
                                            {40, 0, 10}, {50, 4, 3},  {60, 5, 1}};

static bytes document;
static grove_tree tree;
static grove_step steps[ROOM], least[ROOM];
static grove_flow_row rows[ROOM], flow[ROOM];
static uint32_t weights[ROOM];
static grove_planned planned, whole;
static grove_checked checked;

/* ---- calls, by what they are given */

static void fill(void) {
    memset(steps, 0xA5, sizeof steps);
    memset(rows, 0xA5, sizeof rows);
    memset(weights, 0xA5, sizeof weights);
    memset(&planned, 0, sizeof planned);
    memset(&checked, 0, sizeof checked);
}

static int is_filled(const void *from, const void *to) {
    const uint8_t *at;
    for (at = from; at < (const uint8_t *)to; at++)
        if (*at != 0xA5)
            return 0;
    return 1;
}

static int are_untouched(size_t from_step, size_t from_row) {
    return is_filled(steps + from_step, steps + ROOM) && is_filled(rows + from_row, rows + ROOM);
}

/* A plan of the first so many nodes and lengths of the list, with room for so many steps and rows. */
typedef uint32_t plan(size_t nodes, size_t lengths, size_t step_room, size_t row_room);

static uint32_t plan_nodes(size_t nodes, size_t lengths, size_t step_room, size_t row_room) {
    fill();
    return grove_c_tree_plan_nodes(
        &tree, LISTED, nodes, LENGTHS, lengths, step_room ? steps : NULL, step_room, row_room ? rows : NULL, row_room,
        &planned
    );
}

static uint32_t plan_part(size_t nodes, size_t lengths, size_t step_room, size_t row_room) {
    fill();
    return grove_c_plan_part(
        PART, NODES, LISTED, nodes, LENGTHS, lengths, step_room ? steps : NULL, step_room, row_room ? rows : NULL,
        row_room, &planned
    );
}

static uint32_t check_steps(size_t count) {
    fill();
    return grove_c_tree_check_nodes(
        &tree, LISTED, LIST, LENGTHS, LIST, count ? least : NULL, count, flow, whole.rows, &checked
    );
}

static uint32_t judge_steps(size_t count) {
    fill();
    return grove_c_tree_judge_nodes(&tree, LISTED, LIST, LENGTHS, LIST, count ? least : NULL, count, &checked);
}

static uint32_t build(void) { return grove_c_tree_build(&tree, PARENTS, NODES, WEIGHTS, NODES); }

static uint32_t find(const char *path, uint32_t *node) {
    return grove_c_tree_find(&tree, (const uint8_t *)path, strlen(path), node);
}

/* ---- each allocation of a call fails */

typedef uint32_t attempt(void);

static void try_growths(const char *name, attempt *call) {
    long number, count, before = blocks;
    void *held = tree.held;
    growths = refused = 0;
    want(call() == GROVE_DONE, name, "it is done");
    count = growths;
    for (number = 1; number <= count; number++) {
        uint32_t status;
        growths = 0;
        refused = number;
        status = call();
        want(status == GROVE_MEMORY || status == GROVE_DONE, name, "a failed allocation is told");
        want(status != GROVE_MEMORY || are_untouched(0, 0), name, "and nothing is written");
        want(blocks == before && tree.held == held, name, "all memory is given back then, and the tree stays");
    }
    refused = 0;
    printf("%s: %ld allocations\n", name, count);
}

static void try_again(const char *name, attempt *call) {
    long before = blocks;
    int number, done = 1;
    for (number = 0; number < AGAIN; number++)
        done &= call() == GROVE_DONE;
    want(done && blocks == before, name, "the same again and again, and no more is kept");
}

/* ---- a handle that holds no tree */

static void try_closed(const char *name) {
    uint32_t node = 77, changed = 77;
    want(plan_nodes(LIST, LIST, ROOM, ROOM) == GROVE_CLOSED && are_untouched(0, 0), name, "a plan");
    want(check_steps(1) == GROVE_CLOSED && judge_steps(1) == GROVE_CLOSED, name, "a check and a judgement");
    want(find("/", &node) == GROVE_CLOSED && node == 77, name, "a path");
    want(grove_c_tree_reweigh(&tree, WEIGHTS, NODES, weights, NODES, &changed) == GROVE_CLOSED, name, "weights");
    want(changed == 77 && is_filled(weights, weights + ROOM), name, "nothing is told");
}

static void try_store(void) {
    grove_store store = GROVE_NOTHING;
    grove_told told = grove_c_store_open(&store, document.at, document.length, NULL, 0);
    want(told.status == GROVE_DONE, "store", "it is opened");
    tree.held = store.held;
    try_closed("store");
    want(tree.held == store.held && build() == GROVE_DONE, "store", "a tree in its place");
    grove_c_tree_close(&tree);
    want(blocks == 0, "store", "all memory is given back");
}

/* ---- a tree is built */

static void refuse_tree(const char *what, const uint32_t *parents, size_t count, const uint32_t *some, size_t many) {
    void *held = tree.held;
    long before = blocks;
    want(grove_c_tree_build(&tree, parents, count, some, many) == GROVE_REFUSED, "build", what);
    want(tree.held == held && blocks == before, "build", "a refusal changes nothing");
}

static void try_refused_trees(void) {
    static uint32_t many[LARGE + 1], ones[LARGE + 1];
    const uint32_t late[] = {0, 2, 0}, apart[] = {0, 0, 0, 1}, light[] = {1, 0}, heavy[] = {1, 1001};
    size_t at;
    for (at = 0; at <= LARGE; at++)
        ones[at] = 1;
    refuse_tree("no nodes", NULL, 0, NULL, 0);
    refuse_tree("too many", many, LARGE + 1, ones, LARGE + 1);
    refuse_tree("a parent that comes later", late, 3, ones, 3);
    refuse_tree("a child that comes late", apart, 4, ones, 4);
    refuse_tree("a weight of 0", many, 2, light, 2);
    refuse_tree("a weight of 1,001", many, 2, heavy, 2);
    refuse_tree("more parents", many, 3, ones, 2);
    refuse_tree("more weights", many, 2, ones, 3);
    for (at = 1; at < 34; at++)
        many[at] = (uint32_t)at - 1;
    refuse_tree("33 deep", many, 34, ones, 34);
    want(grove_c_tree_build(&tree, many, 33, ones, 33) == GROVE_DONE, "build", "32 deep");
}

static uint32_t build_anew(void) {
    grove_tree other = GROVE_NOTHING;
    uint32_t status;
    fill();
    status = grove_c_tree_build(&other, PARENTS, NODES, WEIGHTS, NODES);
    grove_c_tree_close(&other);
    return status;
}

static void try_build(void) {
    long before;
    try_refused_trees();
    grove_c_tree_close(&tree);
    try_refused_trees();
    want(build() == GROVE_DONE, "build", "it is built in place of another");
    before = blocks;
    want(build() == GROVE_DONE && blocks == before, "build", "built anew, what was held is let go");
    try_growths("build", build_anew);
    try_again("build", build_anew);
}

static void try_find(void) {
    uint32_t node = 77;
    want(find("/", &node) == GROVE_DONE && node == 0, "find", "the root");
    want(find("/4/5/6", &node) == GROVE_DONE && node == 6, "find", "a leaf");
    node = 77;
    want(find("/4/5/", &node) == GROVE_REFUSED && find("/\xff", &node) == GROVE_REFUSED, "find", "no path, no text");
    want(grove_c_tree_find(&tree, NULL, 0, &node) == GROVE_REFUSED && node == 77, "find", "no bytes");
}

/* ---- plans */

static void try_rooms(const char *name, plan *plan) {
    want(plan(LIST, LIST, ROOM, ROOM) == GROVE_DONE, name, "much room");
    whole = planned;
    memcpy(least, steps, sizeof steps);
    memcpy(flow, rows, sizeof rows);
    want(whole.steps == STEPS && whole.rows == NODES && whole.place == 0, name, "it is counted");
    want(are_untouched(whole.steps, whole.rows), name, "what is behind it stays");
    want(plan(LIST, LIST, whole.steps, whole.rows) == GROVE_DONE, name, "just room enough");
    want(memcmp(steps, least, sizeof steps) == 0 && memcmp(rows, flow, sizeof rows) == 0, name, "the same again");
    want(plan(LIST, LIST, ROOM, 0) == GROVE_DONE && planned.rows == whole.rows, name, "no room for rows");
    want(memcmp(steps, least, sizeof steps) == 0 && are_untouched(whole.steps, 0), name, "the same steps");
    want(plan(LIST, LIST, whole.steps - 1, ROOM) == GROVE_ROOM, name, "one step too little");
    want(memcmp(&planned, &whole, sizeof whole) == 0 && are_untouched(0, 0), name, "only how much room it needs");
    want(plan(LIST, LIST, ROOM, whole.rows - 1) == GROVE_ROOM && are_untouched(0, 0), name, "one row too little");
    want(plan(LIST, LIST, 0, 0) == GROVE_ROOM && planned.steps == whole.steps, name, "no arrays");
    want(plan(0, 0, 0, 0) == GROVE_DONE && planned.steps == 0, name, "no accesses");
}

static void refuse_list(const char *name, const char *what, uint32_t status, uint32_t place) {
    want(status == GROVE_REFUSED && planned.place == place, name, what);
    want(planned.cost == 0 && planned.steps == 0 && planned.rows == 0, name, "nothing is counted");
    want(are_untouched(0, 0), name, "nothing is written");
}

static void try_refused_lists(const char *name, plan *plan) {
    refuse_list(name, "a length too few", plan(LIST, LIST - 1, ROOM, ROOM), LIST - 1);
    refuse_list(name, "a node too few", plan(LIST - 2, LIST, ROOM, ROOM), LIST - 2);
}

static void try_listed(const char *what, const uint32_t *nodes, const uint32_t *lengths, size_t count, uint32_t at) {
    uint32_t status;
    fill();
    status = grove_c_tree_plan_nodes(&tree, nodes, count, lengths, count, steps, ROOM, rows, ROOM, &planned);
    refuse_list("plan", what, status, at);
    fill();
    status = grove_c_plan_part(PART, NODES, nodes, count, lengths, count, steps, ROOM, rows, ROOM, &planned);
    refuse_list("part", what, status, at);
}

static void try_strange_lists(void) {
    static uint32_t none[65], ones[65];
    const uint32_t beyond[] = {0, NODES, 0, 99}, longest[] = {1, 1000, 1001, 0}, shortest[] = {1, 1, 1, 0};
    size_t at;
    for (at = 0; at < 65; at++)
        ones[at] = 1;
    try_listed("a node beyond the tree", beyond, longest, 4, 1);
    try_listed("an access too long", none, longest, 4, 2);
    try_listed("an access of no length", none, shortest, 4, 3);
    try_listed("65 accesses", none, ones, 65, 64);
}

static void refuse_part(const char *what, const grove_part_node *part, size_t count, uint32_t place) {
    uint32_t status;
    fill();
    status = grove_c_plan_part(part, count, LISTED, 1, LENGTHS, 1, steps, ROOM, rows, ROOM, &planned);
    refuse_list("part", what, status, place);
}

static void try_strange_parts(void) {
    const grove_part_node late[] = {{0, 0, 1}, {1, 2, 1}, {2, 0, 1}}, light[] = {{0, 0, 1}, {1, 0, 0}};
    refuse_part("no nodes", NULL, 0, 0);
    refuse_part("a parent that comes later", late, 3, 1);
    refuse_part("a weight of 0", light, 2, 1);
}

/* The steps over the part are those over the tree, with other numbers. */
static void try_numbers(void) {
    size_t at;
    int same = plan_nodes(LIST, LIST, ROOM, ROOM) == GROVE_DONE && planned.cost == whole.cost;
    for (at = 0; at < planned.steps; at++)
        same &= least[at].kind == steps[at].kind
            && least[at].number == steps[at].number * (steps[at].kind == GROVE_ACCESS ? 1 : 10);
    for (at = 0; at < planned.rows; at++)
        same &= flow[at].node == rows[at].node * 10 && flow[at].own == rows[at].own;
    want(same, "part", "the numbers of the whole tree");
}

static uint32_t plan_all(void) { return plan_nodes(LIST, LIST, ROOM, ROOM); }
static uint32_t plan_all_in_part(void) { return plan_part(LIST, LIST, ROOM, ROOM); }

static void try_plans(void) {
    try_rooms("part", plan_part);
    try_numbers();
    try_rooms("plan", plan_nodes);
    try_refused_lists("plan", plan_nodes);
    try_refused_lists("part", plan_part);
    try_strange_lists();
    try_strange_parts();
    try_growths("plan", plan_all);
    try_growths("part", plan_all_in_part);
    try_again("plan", plan_all);
    try_again("part", plan_all_in_part);
}

/* ---- checks and judgements */

static uint32_t check_all(void) { return check_steps(whole.steps); }
static uint32_t judge_all(void) { return judge_steps(whole.steps); }

static void want_fault(const char *name, const char *what, uint32_t status, uint32_t fault, uint32_t place) {
    want(status == GROVE_REFUSED && checked.fault == fault && checked.place == place && checked.cost == 0, name, what);
}

typedef uint32_t weigh(size_t steps);

static void try_faults(const char *name, weigh *weigh) {
    grove_step last = least[whole.steps - 1];
    want(weigh(whole.steps) == GROVE_DONE && checked.fault == 0, name, "the settled plan");
    want(checked.cost == whole.cost, name, "its cost");
    want_fault(name, "steps without the last", weigh(whole.steps - 1), GROVE_STILL_HELD, last.number);
    want_fault(name, "no steps", weigh(0), GROVE_ACCESS_MISSING, 0);
    least[2].kind = 3;
    want_fault(name, "a step of no kind", weigh(whole.steps), GROVE_STRANGE, 2);
    least[2].kind = GROVE_LOCK;
    least[2].number = NODES;
    want_fault(name, "a node beyond the tree", weigh(whole.steps), GROVE_STRANGE, 2);
    plan_all();
    memcpy(least, steps, sizeof steps);
}

static void try_flows(void) {
    flow[0].own++;
    want(check_all() == GROVE_REFUSED && checked.fault >= GROVE_ROWS, "check", "another amount");
    flow[0].own--;
    flow[1].node++;
    want_fault("check", "another node", check_all(), GROVE_ROWS, 1);
    flow[1].node--;
    want(judge_all() == GROVE_DONE && check_all() == GROVE_DONE, "check", "the same flow as before");
}

static void try_checks(void) {
    plan_all();
    memcpy(flow, rows, sizeof rows);
    memcpy(least, steps, sizeof steps);
    try_faults("check", check_steps);
    try_faults("judge", judge_steps);
    try_flows();
    try_growths("check", check_all);
    try_growths("judge", judge_all);
    try_again("check", check_all);
    try_again("judge", judge_all);
}

/* ---- weights */

static uint32_t reweigh(size_t waits, size_t room, uint32_t *changed) {
    static const uint32_t waited[NODES + 1] = {100, 0, 3, 0, 4294967295u, 1, 0, 0};
    fill();
    return grove_c_tree_reweigh(&tree, waited, waits, room ? weights : NULL, room, changed);
}

static uint32_t reweigh_all(void) {
    uint32_t changed;
    return reweigh(NODES, NODES, &changed);
}

static void try_weights(void) {
    static const uint32_t wanted[NODES] = {125, 10, 6, 1, 1000, 3, 1};
    uint32_t changed = 77;
    want(reweigh(NODES - 1, ROOM, &changed) == GROVE_REFUSED && changed == 77, "reweigh", "a wait too few");
    want(reweigh(NODES + 1, ROOM, &changed) == GROVE_REFUSED && changed == 77, "reweigh", "a wait too many");
    want(reweigh(NODES, NODES - 1, &changed) == GROVE_ROOM && changed == NODES, "reweigh", "a weight too little");
    want(is_filled(weights, weights + ROOM), "reweigh", "nothing is written then");
    want(plan_all() == GROVE_DONE && planned.cost == whole.cost, "reweigh", "and no weight is new");
    want(reweigh(NODES, NODES, &changed) == GROVE_DONE && changed == 4, "reweigh", "just room enough");
    want(memcmp(weights, wanted, sizeof wanted) == 0, "reweigh", "the new weights");
    want(is_filled(weights + NODES, weights + ROOM), "reweigh", "what is behind them stays");
    want(plan_all() == GROVE_DONE && planned.cost != whole.cost, "reweigh", "plans go by them");
    want(reweigh(NODES, 0, &changed) == GROVE_DONE && changed > 0, "reweigh", "no room for weights");
    try_growths("reweigh", reweigh_all);
    try_again("reweigh", reweigh_all);
}

int main(int count, char **words) {
    if (count != 2)
        return 2;
    read_file(words[1], &document);
    blocks = 0;
    want(grove_c_version() == GROVE_VERSION, "version", "the library is the header's");
    try_closed("closed");
    try_store();
    try_build();
    try_find();
    try_plans();
    try_checks();
    try_weights();
    grove_c_tree_close(&tree);
    want(tree.held == NULL && blocks == 0, "close", "all memory is given back");
    return is_wrong;
}
