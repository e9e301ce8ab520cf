/* Transactions of sixteen threads by include/grove_locks.h, over 64 leaves in eight groups: some are broken off in
 * their middle, some give up a lock.
 *
 *   usage: transactions COUNT
 *
 * Right is: each node is held by who accesses it, each run says how many accesses were done, the records are what these
 * leave, and nothing is held in the end. Says what is wrong, and ends with status 1 then.
 */
#include <pthread.h>
#include <stdio.h>
#include <stdlib.h>

#include "grove_locks.h"

enum { GROUPS = 8, EACH = 8, NODES = 1 + GROUPS * (1 + EACH), THREADS = 16, ACCESSES = 4, MOST_STEPS = 2 * NODES + 64 };

static pthread_mutex_t locks[NODES];
/* What only its holder touches: who it is, and the record. */
static uint32_t holders[NODES];
static long records[NODES];
static grove_tree tree = GROVE_NOTHING;
static pthread_mutex_t planning = PTHREAD_MUTEX_INITIALIZER;
static long transactions;

/* A thread, the access and the lock at which its transaction is to end, and what it has found and done. */
struct worker {
    uint32_t name;
    uint64_t drawn;
    uint32_t stop;
    int gives_up;
    uint32_t done;
    long added;
    long wrong, broken, given_up;
    pthread_t thread;
};

static uint32_t below(struct worker *worker, uint32_t bound) {
    worker->drawn = worker->drawn * 6364136223846793005ULL + 1442695040888963407ULL;
    return (uint32_t)(worker->drawn >> 33) % bound;
}

static int take(void *context, uint32_t node) {
    struct worker *worker = (struct worker *)context;
    if (worker->gives_up && below(worker, 8) == 0)
        return -7;
    if (pthread_mutex_lock(&locks[node]) != 0)
        return -1;
    worker->wrong += holders[node] != 0;
    holders[node] = worker->name;
    return 0;
}

static void let_go(void *context, uint32_t node) {
    struct worker *worker = (struct worker *)context;
    worker->wrong += holders[node] != worker->name;
    holders[node] = 0;
    pthread_mutex_unlock(&locks[node]);
}

static int add(void *context, uint32_t number, uint32_t node) {
    struct worker *worker = (struct worker *)context;
    worker->wrong += holders[node] != worker->name || number != worker->done;
    if (number == worker->stop)
        return 5;
    records[node]++;
    worker->added++;
    worker->done++;
    return 0;
}

static const grove_calls calls = {take, let_go, add};

static uint32_t planned(const uint32_t *nodes, uint32_t count, grove_step *steps, size_t *length) {
    static const uint32_t lengths[ACCESSES] = {1, 3, 1, 2};
    grove_planned told;
    uint32_t status;
    pthread_mutex_lock(&planning);
    status = grove_c_tree_plan_nodes(&tree, nodes, count, lengths, count, steps, MOST_STEPS, NULL, 0, &told);
    pthread_mutex_unlock(&planning);
    *length = told.steps;
    return status;
}

static void run_once(struct worker *worker) {
    uint32_t nodes[ACCESSES], count = 1 + below(worker, ACCESSES), at;
    grove_step steps[MOST_STEPS];
    grove_plan plan = {steps, 0, nodes};
    grove_run run;
    int is_right;
    for (at = 0; at < count; at++)
        nodes[at] = below(worker, 5) == 0 ? below(worker, NODES) : 2 + below(worker, GROUPS) * 9 + below(worker, EACH);
    if (planned(nodes, count, steps, &plan.steps_length) != GROVE_DONE)
        exit(3);
    worker->stop = below(worker, 10) == 0 ? below(worker, count) : ACCESSES;
    worker->gives_up = below(worker, 10) == 0;
    worker->done = 0;
    run = grove_run_plan(&plan, &calls, worker);
    is_right = run.why == 0 ? run.done == count && worker->stop >= count
               : run.why == 5 ? run.done == worker->stop && run.node == nodes[run.done]
                              : run.why == -7 && worker->gives_up && run.done <= count;
    worker->wrong += !is_right || run.done != worker->done;
    worker->broken += run.why == 5;
    worker->given_up += run.why == -7;
}

static void *work(void *given) {
    long number;
    for (number = 0; number < transactions / THREADS; number++)
        run_once((struct worker *)given);
    return NULL;
}

static int built(void) {
    uint32_t parents[NODES], weights[NODES], node;
    for (node = 0; node < NODES; node++) {
        uint32_t within = node == 0 ? 0 : (node - 1) % (1 + EACH);
        parents[node] = within == 0 ? 0 : node - within;
        weights[node] = node == 0 ? 64 : within == 0 ? 8 : 1;
        pthread_mutex_init(&locks[node], NULL);
    }
    return grove_c_tree_build(&tree, parents, NODES, weights, NODES) == GROVE_DONE;
}

int main(int count, char **words) {
    static struct worker workers[THREADS];
    long wrong = 0, added = 0, sum = 0, broken = 0, given_up = 0;
    uint32_t at;
    if (count != 2 || (transactions = atol(words[1])) <= 0)
        return 2;
    if (grove_c_version() != GROVE_VERSION || !built())
        return 3;
    for (at = 0; at < THREADS; at++) {
        workers[at].name = at + 1;
        workers[at].drawn = at;
        if (pthread_create(&workers[at].thread, NULL, work, &workers[at]) != 0)
            return 3;
    }
    for (at = 0; at < THREADS; at++) {
        pthread_join(workers[at].thread, NULL);
        wrong += workers[at].wrong;
        added += workers[at].added;
        broken += workers[at].broken;
        given_up += workers[at].given_up;
    }
    for (at = 0; at < NODES; at++) {
        wrong += pthread_mutex_trylock(&locks[at]) != 0 || holders[at] != 0;
        sum += records[at];
    }
    grove_c_tree_close(&tree);
    printf("%ld accesses done, %ld runs broken off, %ld given up, %ld wrong\n", sum, broken, given_up, wrong);
    return wrong != 0 || sum != added || broken == 0 || given_up == 0;
}
