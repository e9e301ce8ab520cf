/* The part of bench/library.py in C that times transactions: two of 64 leaves each, which do next to nothing.
 *
 *   usage: transactions RUNS
 *
 * Printed is a line for each way, with its name, a tab, and the nanoseconds that a transaction takes in each run.
 */
#define _POSIX_C_SOURCE 200809L

#include <pthread.h>
#include <stdio.h>
#include <stdlib.h>
#include <time.h>

#include "grove_locks.h"

/* So many transactions each thread makes in a run, of so many lists. */
enum { LEAVES = 64, GROUPS = 8, LISTS = 400, THREADS = 16, TURNS = 2000 };
enum { EACH = LEAVES / GROUPS, NODES = 1 + GROUPS * (1 + EACH), MOST_STEPS = 16 };

/* Two leaves, by a plan and by their locks in order. */
struct pair {
    uint32_t nodes[2];
    grove_step steps[MOST_STEPS];
    grove_plan plan;
};

/* A lock has a line of the cache to itself, and its record. */
struct node {
    pthread_mutex_t lock;
    long record;
    char rest[64 - sizeof(long)];
};

static struct node nodes[NODES];
static struct pair pairs[LISTS];

static int lock(void *context, uint32_t node) {
    (void)context;
    return pthread_mutex_lock(&nodes[node].lock);
}

static void unlock(void *context, uint32_t node) {
    (void)context;
    pthread_mutex_unlock(&nodes[node].lock);
}

static int add(void *context, uint32_t number, uint32_t node) {
    (void)context;
    (void)number;
    nodes[node].record++;
    return 0;
}

static const grove_calls calls = {lock, unlock, add};

static void by_plan(const struct pair *pair) {
    if (grove_run_plan(&pair->plan, &calls, NULL).why != 0)
        exit(3);
}

static void by_sorted_locks(const struct pair *pair) {
    uint32_t low = pair->nodes[0] < pair->nodes[1] ? 0 : 1;
    struct node *first = &nodes[pair->nodes[low]], *second = &nodes[pair->nodes[1 - low]];
    pthread_mutex_lock(&first->lock);
    pthread_mutex_lock(&second->lock);
    first->record++;
    second->record++;
    pthread_mutex_unlock(&second->lock);
    pthread_mutex_unlock(&first->lock);
}

typedef void way(const struct pair *pair);

/* A thread that makes transactions in one way, and when it began and ended. */
struct worker {
    pthread_t thread;
    way *way;
    size_t number;
    double begun, ended;
};

static pthread_barrier_t start;

static double nanoseconds(void) {
    struct timespec now;
    clock_gettime(CLOCK_MONOTONIC, &now);
    return (double)now.tv_sec * 1e9 + (double)now.tv_nsec;
}

static void *work(void *given) {
    struct worker *worker = (struct worker *)given;
    size_t turn;
    pthread_barrier_wait(&start);
    worker->begun = nanoseconds();
    for (turn = 0; turn < TURNS; turn++)
        worker->way(&pairs[(131 * worker->number + turn) % LISTS]);
    worker->ended = nanoseconds();
    return NULL;
}

/* What a transaction takes that so many threads make side by side, from when the first begins until the last ends. */
static double timed(size_t count, way *way) {
    static struct worker workers[THREADS];
    double begun, ended;
    size_t at;
    pthread_barrier_init(&start, NULL, (unsigned)count);
    for (at = 0; at < count; at++) {
        workers[at].way = way;
        workers[at].number = at;
        if (pthread_create(&workers[at].thread, NULL, work, &workers[at]) != 0)
            exit(3);
    }
    for (at = 0; at < count; at++)
        pthread_join(workers[at].thread, NULL);
    pthread_barrier_destroy(&start);
    begun = workers[0].begun;
    ended = workers[0].ended;
    for (at = 1; at < count; at++) {
        begun = workers[at].begun < begun ? workers[at].begun : begun;
        ended = workers[at].ended > ended ? workers[at].ended : ended;
    }
    return (ended - begun) / (double)(count * TURNS);
}

static void print_times(const char *name, const double *times, int runs) {
    int run;
    printf("%s\t", name);
    for (run = 0; run < runs; run++)
        printf("%s%.1f", run > 0 ? " " : "", times[run]);
    putchar('\n');
}

static uint32_t below(uint32_t bound) {
    static uint64_t drawn = 9;
    drawn = drawn * 6364136223846793005ULL + 1442695040888963407ULL;
    return (uint32_t)(drawn >> 33) % bound;
}

static uint32_t leaf(uint32_t number) { return 1 + number % GROUPS * (1 + EACH) + 1 + number / GROUPS; }

/* The tree of bench/library.py, and pairs of leaves that look drawn, with their plans. */
static uint32_t plan_all(void) {
    static const uint32_t lengths[2] = {1, 1};
    static uint32_t parents[NODES], weights[NODES];
    grove_tree tree = GROVE_NOTHING;
    grove_planned planned;
    uint32_t node, at, status;
    for (node = 0; node < NODES; node++) {
        uint32_t within = node == 0 ? 0 : (node - 1) % (1 + EACH);
        parents[node] = within == 0 ? 0 : node - within;
        weights[node] = node == 0 ? 64 : within == 0 ? 8 : 1;
        pthread_mutex_init(&nodes[node].lock, NULL);
    }
    status = grove_c_tree_build(&tree, parents, NODES, weights, NODES);
    for (at = 0; at < LISTS && status == GROVE_DONE; at++) {
        struct pair *pair = &pairs[at];
        uint32_t from = below(LEAVES);
        pair->nodes[0] = leaf(from);
        pair->nodes[1] = leaf((from + 1 + below(LEAVES - 1)) % LEAVES);
        status =
            grove_c_tree_plan_nodes(&tree, pair->nodes, 2, lengths, 2, pair->steps, MOST_STEPS, NULL, 0, &planned);
        pair->plan.steps = pair->steps;
        pair->plan.steps_length = planned.steps;
        pair->plan.nodes = pair->nodes;
    }
    grove_c_tree_close(&tree);
    return status;
}

int main(int count, char **words) {
    static const struct {
        const char *name;
        size_t threads;
        way *way;
    } ways[] = {
        {"C, a thread, sorted mutexes", 1, by_sorted_locks},
        {"C, a thread, planned", 1, by_plan},
        {"C, 16 threads, sorted mutexes", THREADS, by_sorted_locks},
        {"C, 16 threads, planned", THREADS, by_plan},
    };
    enum { WAYS = sizeof ways / sizeof *ways };
    double *times[WAYS];
    int run, runs = count == 2 ? atoi(words[1]) : 0;
    size_t at;
    long sum = 0;
    if (runs <= 0)
        return 2;
    if (grove_c_version() != GROVE_VERSION || plan_all() != GROVE_DONE)
        return 3;
    for (at = 0; at < WAYS; at++)
        if ((times[at] = malloc((size_t)runs * sizeof **times)) == NULL)
            return 3;
    for (run = 0; run < runs; run++)
        for (at = 0; at < WAYS; at++)
            times[at][run] = timed(ways[at].threads, ways[at].way);
    for (at = 0; at < NODES; at++)
        sum += nodes[at].record;
    for (at = 0; at < WAYS; at++)
        print_times(ways[at].name, times[at], runs);
    return sum != 2L * runs * 2 * (1 + THREADS) * TURNS;
}
