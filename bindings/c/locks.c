/* Stock that threads move from shelf to shelf: an example of include/grove_locks.h.
 *
 *   cc -Iinclude bindings/c/locks.c out/library/libgrove.a -pthread -o locks
 *   ./locks
 *
 * Each shelf is a node with a lock and the number of its pieces. A thread holds a node while it accesses it, and the
 * nodes above as long as the settled plan says. Nobody takes locks in an order of his own, and nobody waits in a
 * circle.
 */
#include <pthread.h>
#include <sched.h>
#include <stdio.h>

#include "grove_locks.h"

enum { NODES = 7, SHELVES = 4, PIECES = 100, MOVES = 1000, MOST_STEPS = 2 * NODES + 2 };

/* The root, two halls, and two shelves in each, in preorder. */
static const uint32_t parents[NODES] = {0, 0, 1, 1, 0, 4, 4};
static const uint32_t weights[NODES] = {20, 5, 1, 1, 5, 1, 1};
static const uint32_t shelves[SHELVES] = {2, 3, 5, 6};

static pthread_mutex_t locks[NODES];
static int pieces[NODES];

static int lock(void *context, uint32_t node) {
    (void)context;
    return pthread_mutex_lock(&locks[node]);
}

static void unlock(void *context, uint32_t node) {
    (void)context;
    pthread_mutex_unlock(&locks[node]);
}

/* The first access takes a piece, if there is one, and the second puts it down. */
static int move(void *context, uint32_t number, uint32_t node) {
    (void)context;
    if (number == 0 && pieces[node] == 0)
        return 1;
    pieces[node] += number == 0 ? -1 : 1;
    return 0;
}

static const grove_calls calls = {lock, unlock, move};

/* From which shelf to which one a thread moves, and by which plan. */
struct mover {
    uint32_t nodes[2];
    grove_step steps[MOST_STEPS];
    grove_plan plan;
    pthread_t thread;
};

/* Asks for the plan of a mover. */
static uint32_t plan_for(grove_tree *tree, struct mover *mover) {
    static const uint32_t lengths[2] = {1, 1};
    grove_planned planned;
    uint32_t status =
        grove_c_tree_plan_nodes(tree, mover->nodes, 2, lengths, 2, mover->steps, MOST_STEPS, NULL, 0, &planned);
    mover->plan.steps = mover->steps;
    mover->plan.steps_length = status == GROVE_DONE ? planned.steps : 0;
    mover->plan.nodes = mover->nodes;
    return status;
}

static void *move_all(void *given) {
    const struct mover *mover = (const struct mover *)given;
    int moved = 0;
    while (moved < MOVES) {
        /* Nothing was done if there is no piece: the move may be tried again. */
        if (grove_run_plan(&mover->plan, &calls, NULL).why == 0)
            moved++;
        else
            sched_yield();
    }
    return NULL;
}

static uint32_t plan_all(struct mover *movers) {
    grove_tree tree = GROVE_NOTHING;
    uint32_t status = grove_c_tree_build(&tree, parents, NODES, weights, NODES);
    int at;
    for (at = 0; at < SHELVES && status == GROVE_DONE; at++) {
        movers[at].nodes[0] = shelves[at];
        movers[at].nodes[1] = shelves[(at + 1) % SHELVES];
        status = plan_for(&tree, &movers[at]);
    }
    grove_c_tree_close(&tree);
    return status;
}

int main(void) {
    static struct mover movers[SHELVES];
    int at, sum = 0;
    if (grove_c_version() != GROVE_VERSION) {
        fputs("locks: the library isn't that of the header\n", stderr);
        return 3;
    }
    if (plan_all(movers) != GROVE_DONE) {
        fputs("locks: memory\n", stderr);
        return 3;
    }
    for (at = 0; at < NODES; at++)
        pthread_mutex_init(&locks[at], NULL);
    for (at = 0; at < SHELVES; at++)
        pieces[shelves[at]] = PIECES;
    for (at = 0; at < SHELVES; at++) {
        if (pthread_create(&movers[at].thread, NULL, move_all, &movers[at]) != 0) {
            fputs("locks: no thread\n", stderr);
            return 3;
        }
    }
    for (at = 0; at < SHELVES; at++)
        pthread_join(movers[at].thread, NULL);
    for (at = 0; at < SHELVES; at++)
        sum += pieces[shelves[at]];
    printf("%d moves, and the shelves hold %d\n", SHELVES * MOVES, sum);
    return 0;
}
