/* Plans, checks and judges the values of each document of a stream (valuing.py) by numbers, and writes the stream of
 * answers: the lines that the program prints of the document, but for what only it says of a list's accesses.
 *
 * The values of a document are lines of words with tabs between them, and an empty line behind them. */
#define _POSIX_C_SOURCE 200809L
#include <errno.h>
#include <inttypes.h>
#include <stdio.h>
#include <stdlib.h>
#include <string.h>

#include "grove.h"

enum {
    NODES = 4096,
    ACCESSES = 64,
    LONGEST = 1000,
    /* a list may have one access too many */
    LISTED = ACCESSES + 1,
    /* the longest plan, and more: those of others may have any length */
    STEPS = 4 * (2 * NODES + ACCESSES),
    WORDS = 7,
    /* The document has no values for a call, or such as no call takes. */
    NO_VALUES = 7
};

/* The texts of faults, by their numbers. */
static const char *const FAULTS[] = {
    NULL,
    "limit list",
    "no-path list %" PRIu32,
    "bad-length list %" PRIu32,
    "step %" PRIu32 " strange",
    "step %" PRIu32 " relock",
    "step %" PRIu32 " parent-not-held",
    "step %" PRIu32 " not-held",
    "step %" PRIu32 " wrong-access",
    "step %" PRIu32 " access-not-held",
    "access %" PRIu32 " missing",
    NULL,
    "rows %" PRIu32,
    "sign %" PRIu32,
    "too-big %" PRIu32,
    "lock-balance %" PRIu32,
    "release-balance %" PRIu32,
};

/* What a document has, and whether its tree with its list, its plan and its flow are there and are values. */
struct values {
    const char *paths[NODES];
    uint32_t parents[NODES], weights[NODES];
    size_t nodes_count;
    uint32_t nodes[LISTED], lengths[LISTED];
    size_t listed;
    int has_bad_length;
    grove_step steps[STEPS];
    size_t steps_count;
    grove_flow_row rows[NODES];
    size_t rows_count;
    int is_tree, is_plan, is_flow;
};

static struct values values;
static grove_tree tree = GROVE_NOTHING;
static char *text;
static size_t length;

/* ---- Reading */

/* Whether a word is a number of at most so much, which is put. */
static int read_number(const char *word, uint64_t most, uint64_t *number) {
    char *end;
    errno = 0;
    *number = strtoull(word, &end, 10);
    return word[0] >= '0' && word[0] <= '9' && *end == '\0' && errno == 0 && *number <= most;
}

static int read_short(const char *word, uint32_t *number) {
    uint64_t found;
    int is_number = read_number(word, UINT32_MAX, &found);
    *number = (uint32_t)found;
    return is_number;
}

/* The number of the node with the first so many bytes for its path; that of no node if there is none. */
static uint32_t find(const char *path, size_t bytes) {
    uint32_t node = 0;
    while (node < values.nodes_count && (strncmp(values.paths[node], path, bytes) || values.paths[node][bytes] != '\0'))
        node++;
    return node;
}

static uint32_t find_whole(const char *path) { return find(path, strlen(path)); }

static int read_node(char **words) {
    const char *path = words[1], *name = strrchr(path, '/');
    size_t node = values.nodes_count;
    uint64_t weight;
    if (name == NULL || node == NODES || !read_number(words[2], UINT32_MAX, &weight))
        return 0;
    values.paths[node] = path;
    values.weights[node] = (uint32_t)weight;
    values.parents[node] = name == path ? 0 : find(path, (size_t)(name - path));
    values.nodes_count++;
    return 1;
}

/* A document is read access by access, and the library looks at all nodes before the lengths. So what comes behind an
   access of a bad length has any node that there is. */
static int read_access(char **words) {
    uint32_t *slots = &values.lengths[values.listed];
    int is_number;
    if (values.listed == LISTED)
        return 1;
    values.nodes[values.listed++] = values.has_bad_length ? 0 : find_whole(words[2]);
    is_number = read_short(words[4], slots);
    values.has_bad_length |= *slots < 1 || *slots > LONGEST;
    return is_number;
}

/* A step of a node that isn't there has no number. */
static int read_step(char **words) {
    grove_step *step = &values.steps[values.steps_count++];
    if (strcmp(words[1], "access") == 0) {
        step->kind = GROVE_ACCESS;
        return read_short(words[2], &step->number);
    }
    step->kind = strcmp(words[1], "lock") == 0 ? GROVE_LOCK : GROVE_UNLOCK;
    step->number = find_whole(words[2]);
    return step->number < values.nodes_count;
}

static int read_row(char **words) {
    grove_flow_row *row = &values.rows[values.rows_count++];
    uint64_t *amounts[] = {&row->above, &row->held, &row->first, &row->last, &row->own};
    int are_numbers = 1;
    size_t at;
    row->node = find_whole(words[1]);
    for (at = 0; at < sizeof amounts / sizeof amounts[0]; at++)
        are_numbers &= read_number(words[2 + at], UINT64_MAX, amounts[at]);
    return are_numbers && row->node < values.nodes_count;
}

static void read_words(char **words) {
    if (strcmp(words[0], "node") == 0)
        values.is_tree &= read_node(words);
    else if (strcmp(words[0], "access") == 0)
        values.is_tree &= read_access(words);
    else if (strcmp(words[0], "plan") == 0)
        values.is_plan = 1;
    else if (strcmp(words[0], "flow") == 0)
        values.is_flow = 1;
    else if (strcmp(words[0], "step") == 0)
        values.is_plan &= values.steps_count < STEPS && read_step(words);
    else
        values.is_flow &= values.rows_count < NODES && read_row(words);
}

/* Reads a line, and cuts it into its words. */
static void read_line(char *line) {
    char *words[1 + WORDS], *left = line;
    size_t at;
    for (at = 0; at <= WORDS; at++) {
        words[at] = left;
        left += strcspn(left, "\t");
        if (*left == '\t')
            *left++ = '\0';
    }
    read_words(words);
}

/* ---- Answers */

static void write_answer(unsigned char status) {
    unsigned char head[9] = {status};
    size_t left = length, at;
    for (at = 1; at < sizeof head; at++, left >>= 8)
        head[at] = (unsigned char)left;
    fwrite(head, 1, sizeof head, stdout);
    fwrite(text, 1, length, stdout);
}

static void say_fault(FILE *said, const grove_checked *checked) {
    if (checked->fault == GROVE_STILL_HELD)
        fprintf(said, "node %s still-held", values.paths[checked->place]);
    else if (checked->fault == GROVE_VALUE)
        fprintf(said, "value %" PRIu64, checked->cost);
    else
        fprintf(said, FAULTS[checked->fault], checked->place);
}

static void say_step(FILE *said, const grove_step *step) {
    const char *kind = step->kind == GROVE_LOCK ? "lock" : "unlock";
    if (step->kind == GROVE_ACCESS)
        fprintf(said, "[\"access\",%" PRIu32 "]", step->number);
    else
        fprintf(said, "[\"%s\",\"%s\"]", kind, values.paths[step->number]);
}

static void say_row(FILE *said, const grove_flow_row *row) {
    fprintf(said, "{\"above\":%" PRIu64 ",\"first\":%" PRIu64 ",\"held\":%" PRIu64, row->above, row->first, row->held);
    fprintf(said, ",\"last\":%" PRIu64 ",\"node\":\"%s\",\"own\":%" PRIu64 "}", row->last, values.paths[row->node],
            row->own);
}

/* The lines of a plan. */
static void say_plan(FILE *said, const grove_planned *planned, const grove_step *steps, const grove_flow_row *rows) {
    uint32_t at;
    fprintf(said, "cost %" PRIu64 "\nplan [", planned->cost);
    for (at = 0; at < planned->steps; at++) {
        fputs(at ? "," : "", said);
        say_step(said, &steps[at]);
    }
    fputs("]\nflow [", said);
    for (at = 0; at < planned->rows; at++) {
        fputs(at ? "," : "", said);
        say_row(said, &rows[at]);
    }
    fputs("]\n", said);
}

/* What a check or a judgement ended with. */
static uint32_t say_checked(FILE *said, uint32_t status, const grove_checked *checked) {
    if (status == GROVE_DONE)
        fprintf(said, "cost %" PRIu64 "\n", checked->cost);
    else if (status == GROVE_REFUSED)
        say_fault(said, checked);
    return status;
}

static uint32_t judge(FILE *said) {
    grove_checked checked;
    uint32_t status = grove_c_tree_judge_nodes(&tree, values.nodes, values.listed, values.lengths, values.listed,
                                               values.steps, values.steps_count, &checked);
    return values.is_plan ? say_checked(said, status, &checked) : NO_VALUES;
}

static uint32_t check(FILE *said) {
    grove_checked checked;
    uint32_t status = grove_c_tree_check_nodes(&tree, values.nodes, values.listed, values.lengths, values.listed,
                                               values.steps, values.steps_count, values.rows, values.rows_count,
                                               &checked);
    return values.is_plan && values.is_flow ? say_checked(said, status, &checked) : NO_VALUES;
}

/* Of a list that is refused a judgement tells the fault. */
static uint32_t plan(FILE *said) {
    static grove_step steps[2 * NODES + ACCESSES];
    static grove_flow_row rows[NODES];
    grove_planned planned;
    grove_checked checked;
    uint32_t status = grove_c_tree_plan_nodes(&tree, values.nodes, values.listed, values.lengths, values.listed, steps,
                                              2 * NODES + ACCESSES, rows, NODES, &planned);
    if (status == GROVE_DONE) {
        say_plan(said, &planned, steps, rows);
        return GROVE_DONE;
    }
    status = grove_c_tree_judge_nodes(&tree, values.nodes, values.listed, values.lengths, values.listed, NULL, 0,
                                      &checked);
    return say_checked(said, status, &checked);
}

static void answer(uint32_t call(FILE *), int is_there) {
    FILE *said = open_memstream(&text, &length);
    uint32_t status = NO_VALUES;
    if (said == NULL)
        exit(3);
    if (is_there)
        status = call(said);
    fclose(said);
    write_answer((unsigned char)status);
    free(text);
}

/* Each call of the document that has been read. */
static void answer_each(void) {
    int is_there = values.is_tree && values.nodes_count > 0 &&
                   grove_c_tree_build(&tree, values.parents, values.nodes_count, values.weights,
                                      values.nodes_count) == GROVE_DONE;
    answer(plan, is_there);
    answer(check, is_there);
    answer(judge, is_there);
}

static void begin(void) {
    values.nodes_count = values.listed = values.steps_count = values.rows_count = 0;
    values.is_tree = 1;
    values.is_plan = values.is_flow = values.has_bad_length = 0;
}

/* All of standard input, with a zero behind it. */
static char *read_all(void) {
    size_t room = 1 << 16, count = 0;
    char *bytes = malloc(room);
    while (bytes != NULL && (count += fread(bytes + count, 1, room - count - 1, stdin)) == room - 1)
        bytes = realloc(bytes, room *= 2);
    if (bytes == NULL)
        exit(3);
    bytes[count] = '\0';
    return bytes;
}

int main(void) {
    char *bytes = read_all(), *line = bytes;
    begin();
    while (*line != '\0') {
        char *end = line + strcspn(line, "\n");
        *end = '\0';
        if (line == end) {
            answer_each();
            begin();
        } else {
            read_line(line);
        }
        line = end + 1;
    }
    grove_c_tree_close(&tree);
    free(bytes);
    return fflush(stdout) == 0 ? 0 : 3;
}
