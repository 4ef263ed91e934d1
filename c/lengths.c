/*
 * Tries the lengths that ostrovuc.h gives for lent lists: with exactly these a call is accepted, and with any one of the lists an entry shorter it is
 * refused with 7, or 6 for the logarithms. Learning and deepening, over settings, rows and seeds of all sizes; symbols
 * written and read back, over trees of all sizes.
 */
#include "ostrovuc.h"

#include <stdio.h>
#include <stdlib.h>

/* The lent lists, in this order. */
enum { NODES, SPANS, QUEUE_WORDS, QUEUE_VALUES, QUEUE_GAINS, COUNTS, LOGS, LISTS };

static const char *const names[LISTS] = {"nodes", "spans", "queue words", "queue values", "queue gains", "counts", "logarithms"};
static const size_t entries[LISTS] = {sizeof(ostrovuc_ma_node), sizeof(ostrovuc_span), 4, 4, 4, 4, 4};

/* A job whose rows are all alike: 0 in every property and token, no residuals. */
struct job {
    ostrovuc_settings settings;
    uint32_t seed;
    size_t rows;
};

static void *zeros(size_t length, size_t entry) {
    void *list = calloc(length == 0 ? 1 : length, entry);
    if (list == NULL) {
        fputs("lengths: no memory\n", stderr);
        exit(1);
    }
    return list;
}

static void due_lengths(const struct job *job, size_t due[LISTS]) {
    uint32_t leaves = job->settings.max_leaves;
    due[NODES] = ostrovuc_nodes_length(leaves, job->seed);
    due[SPANS] = ostrovuc_spans_length(leaves, job->seed);
    due[QUEUE_WORDS] = ostrovuc_queue_words_length(leaves);
    due[QUEUE_VALUES] = ostrovuc_queue_values_length(leaves);
    due[QUEUE_GAINS] = ostrovuc_queue_gains_length(leaves);
    due[COUNTS] = ostrovuc_counts_length(&job->settings, job->rows, job->seed);
    due[LOGS] = ostrovuc_logs_length(job->rows);
}

/* A seed of `count` nodes: every other node is a split, of whose children the first is a leaf, which takes all rows. */
static void plant(ostrovuc_ma_node *nodes, size_t length, uint32_t count) {
    for (uint32_t n = 0; n < count && n < length; n++) {
        nodes[n].depth = (n + 1) / 2;
        if (n % 2 == 1 || n + 2 >= count) continue;
        nodes[n].kind = OSTROVUC_SPLIT;
        nodes[n].val = -1;
        nodes[n].gt = n + 1;
        nodes[n].le = n + 2;
    }
}

/* The number that comes back for lists of these lengths. */
static uint32_t answer(const struct job *job, const size_t length[LISTS]) {
    void *list[LISTS];
    for (int i = 0; i < LISTS; i++) list[i] = zeros(length[i], entries[i]);
    size_t props_length = job->rows * OSTROVUC_PROPERTIES, tok_length = job->rows * OSTROVUC_PREDICTORS;
    int32_t *props = zeros(props_length, sizeof *props);
    uint8_t *tok = zeros(tok_length, sizeof *tok);
    plant(list[NODES], length[NODES], job->seed);
    ostrovuc_learned_tree tree;
    if (job->seed == 0)
        tree = ostrovuc_learn(
            list[NODES], length[NODES], list[SPANS], length[SPANS], job->settings, list[LOGS], length[LOGS], props,
            props_length, tok, tok_length, NULL, 0, list[QUEUE_WORDS], length[QUEUE_WORDS], list[QUEUE_VALUES], length[QUEUE_VALUES], list[QUEUE_GAINS],
            length[QUEUE_GAINS], list[COUNTS], length[COUNTS]);
    else
        tree = ostrovuc_deepen(
            list[NODES], length[NODES], list[SPANS], length[SPANS], job->settings, job->seed, list[LOGS], length[LOGS],
            props, props_length, tok, tok_length, NULL, 0, list[QUEUE_WORDS], length[QUEUE_WORDS], list[QUEUE_VALUES], length[QUEUE_VALUES], list[QUEUE_GAINS],
            length[QUEUE_GAINS], list[COUNTS], length[COUNTS]);
    for (int i = 0; i < LISTS; i++) free(list[i]);
    free(props);
    free(tok);
    return tree.number;
}

static void expect(const struct job *job, const char *which, uint32_t number, uint32_t expected) {
    if (number == expected) return;
    const ostrovuc_settings *s = &job->settings;
    printf("alphabet %u, limit %u, side predictors %u, candidates %u, %zu rows, seed of %u, ", s->alphabet, s->max_leaves, s->side_preds,
           s->max_candidates, job->rows, job->seed);
    printf("%s: %u came back and not %u\n", which, number, expected);
    exit(1);
}

/* Tries a job's lengths, and each list an entry shorter. */
static void try_job(const struct job *job) {
    size_t length[LISTS];
    due_lengths(job, length);
    expect(job, "all lists as long as is due", answer(job, length), OSTROVUC_ACCEPTED);
    for (int i = 0; i < LISTS; i++) {
        length[i]--;
        expect(job, names[i], answer(job, length), i == LOGS ? OSTROVUC_REFUSED_LOGARITHMS : OSTROVUC_REFUSED_ROOM);
        length[i]++;
    }
}

/* The number that comes back for a tree written into so many symbols, with so many entries in the queue. */
static uint32_t answer_to_writing(uint32_t count, ostrovuc_symbol *symbols, size_t length, size_t queue_length) {
    ostrovuc_ma_node *nodes = zeros(count, sizeof *nodes);
    uint32_t *queue = zeros(queue_length, sizeof *queue);
    plant(nodes, count, count);
    uint32_t number = ostrovuc_write_symbols(nodes, count, count, symbols, length, queue, queue_length).number;
    free(nodes);
    free(queue);
    return number;
}

/* The number that comes back for symbols read into so many nodes. */
static uint32_t answer_to_reading(const ostrovuc_symbol *symbols, size_t length, size_t entries) {
    ostrovuc_ma_node *nodes = zeros(entries, sizeof *nodes);
    uint32_t number = ostrovuc_read_symbols(symbols, length, nodes, entries).number;
    free(nodes);
    return number;
}

static void expect_of_tree(uint32_t count, const char *which, uint32_t number, uint32_t expected) {
    if (number == expected) return;
    printf("a tree of %u nodes, %s: %u came back and not %u\n", count, which, number, expected);
    exit(1);
}

/* Tries the lengths for a tree's symbols, and each list an entry shorter. */
static void try_tree(uint32_t count) {
    size_t length = ostrovuc_symbols_length(count), entries = ostrovuc_read_nodes_length(length);
    ostrovuc_symbol *symbols = zeros(length, sizeof *symbols);
    expect_of_tree(count, "symbols", answer_to_writing(count, symbols, length - 1, count), OSTROVUC_REFUSED_ROOM);
    expect_of_tree(count, "queue", answer_to_writing(count, symbols, length, count - 1), OSTROVUC_REFUSED_ROOM);
    expect_of_tree(count, "written", answer_to_writing(count, symbols, length, count), OSTROVUC_ACCEPTED);
    expect_of_tree(count, "nodes", answer_to_reading(symbols, length, entries - 1), OSTROVUC_REFUSED_ROOM);
    expect_of_tree(count, "read", answer_to_reading(symbols, length, entries), OSTROVUC_ACCEPTED);
    free(symbols);
}

/* One of four choices, by the lowest digit of `number` to base four, which is then taken off. */
static uint32_t pick(const uint32_t choices[4], unsigned *number) {
    uint32_t choice = choices[*number % 4];
    *number /= 4;
    return choice;
}

/* Every choice of alphabet, limit, side predictors, candidates and seed, with a few rows. */
static struct job job_by_settings(unsigned number) {
    struct job job = {{.allowed_preds = 1}, 0, 5};
    job.settings.alphabet = pick((const uint32_t[]){1, 17, 128, 256}, &number);
    job.settings.max_leaves = pick((const uint32_t[]){1, 2, 64, 4096}, &number);
    job.settings.side_preds = pick((const uint32_t[]){0, 1, 3, 14}, &number);
    job.settings.max_candidates = pick((const uint32_t[]){0, 1, 2, 32}, &number);
    job.seed = pick((const uint32_t[]){0, 1, 127, 8191}, &number);
    return job;
}

/* Every choice of rows and seed, with the smallest alphabet. */
static struct job job_by_rows(unsigned number) {
    struct job job = {{.alphabet = 1, .max_leaves = 2, .allowed_preds = 1}, 0, 0};
    job.rows = pick((const uint32_t[]){0, 1, 4200, 65536}, &number);
    job.seed = pick((const uint32_t[]){0, 1, 127, 8191}, &number);
    return job;
}

/* Tries the jobs of so many numbers. */
static unsigned try_jobs(struct job (*job_by)(unsigned), unsigned numbers) {
    for (unsigned number = 0; number < numbers; number++) {
        struct job job = job_by(number);
        try_job(&job);
    }
    return numbers;
}

/* Tries trees of all sizes, the small ones each, and gives how many. */
static unsigned try_trees(void) {
    unsigned trees = 0;
    for (uint32_t count = 1; count <= OSTROVUC_MAX_NODES; count += count < 127 ? 2 : 126) {
        try_tree(count);
        trees++;
    }
    return trees;
}

int main(void) {
    unsigned jobs = try_jobs(job_by_settings, 4 * 4 * 4 * 4 * 4) + try_jobs(job_by_rows, 4 * 4);
    unsigned trees = try_trees();
    printf("%u jobs and %u trees, with each list as long as is due and an entry shorter\n", jobs, trees);
    return 0;
}
