/* Runs plans of grove.h on a program's own locks: docs/LIBRARY.md has an example. There is nothing to link beside the
 * library.
 *
 * A plan says where the locks of a transaction are taken and let go. These calls take its steps, and make callbacks for
 * them. They ask for no memory and start no thread; any number of threads may run one plan at once.
 */
#ifndef GROVE_LOCKS_H
#define GROVE_LOCKS_H

#include "grove.h"

#ifdef __cplusplus
extern "C" {
#endif

/* What a transaction does at its steps. Each callback has the context that is handed to the run.
 *
 * - `lock` waits for a node's lock, and returns 0 once this transaction has it, or another number if it is given up;
 * - `unlock` lets it go;
 * - `access` does the access at this place of the list, at a node that is held, and returns 0, or another number if the
 *   access has failed.
 *
 * None of them may leave the run in another way, as by longjmp, or by an exception in C++. */
typedef struct grove_calls {
    int (*lock)(void *context, uint32_t node);
    void (*unlock)(void *context, uint32_t node);
    int (*access)(void *context, uint32_t number, uint32_t node);
} grove_calls;

/* The settled plan of a list, as grove_c_tree_plan_nodes or grove_c_plan_part has given it, and the nodes of the list:
 * those numbers by which the steps name them. */
typedef struct grove_plan {
    const grove_step *steps;
    size_t steps_length;
    const uint32_t *nodes;
} grove_plan;

/* How a run ended. */
typedef struct grove_run {
    /* 0 if all was done; or what the callback has returned that ended it. */
    int why;
    /* So many accesses were done, and stay done: others may have seen them. The run may be begun again if it is 0, or
     * if all was undone. */
    uint32_t done;
    /* The node that wasn't locked, or whose access has failed. */
    uint32_t node;
} grove_run;

/* Lets go what is held after so many steps: each node that they lock and don't unlock, the last one first. */
static inline void grove_let_go(const grove_plan *plan, size_t taken, const grove_calls *calls, void *context) {
    size_t at, later;
    for (at = taken; at-- > 0;) {
        const grove_step step = plan->steps[at];
        if (step.kind != GROVE_LOCK)
            continue;
        later = at + 1;
        while (later < taken && !(plan->steps[later].kind == GROVE_UNLOCK && plan->steps[later].number == step.number))
            later++;
        if (later == taken)
            calls->unlock(context, step.number);
    }
}

/* Runs a transaction by its plan. It ends at the first callback that doesn't return 0; then all is let go that is held.
 * Nothing is undone. */
static inline grove_run grove_run_plan(const grove_plan *plan, const grove_calls *calls, void *context) {
    grove_run run = {0, 0, 0};
    size_t at;
    for (at = 0; at < plan->steps_length; at++) {
        const grove_step step = plan->steps[at];
        if (step.kind == GROVE_UNLOCK) {
            calls->unlock(context, step.number);
            continue;
        }
        if (step.kind == GROVE_LOCK) {
            run.node = step.number;
            run.why = calls->lock(context, step.number);
        } else {
            run.node = plan->nodes[step.number];
            run.why = calls->access(context, step.number, run.node);
            run.done += run.why == 0;
        }
        if (run.why != 0) {
            grove_let_go(plan, at, calls, context);
            return run;
        }
    }
    return run;
}

#ifdef __cplusplus
}
#endif

#endif
