#include "ostrovuc.h"
#include <math.h>
#include <stdio.h>

enum { ROWS = 8, X = 3, LEAVES = 3, NODES = 2 * LEAVES - 1, WORDS = OSTROVUC_QUEUE_WORDS * LEAVES, COUNTS = 8192 };
static int32_t props[ROWS][OSTROVUC_PROPERTIES], queue_values[LEAVES];
static uint8_t tok[ROWS][OSTROVUC_PREDICTORS], greys[ROWS] = {2, 2, 2, 9, 9, 9, 9, 5};
static uint32_t queue_words[WORDS], counts[COUNTS];
static float logs[ROWS + 1], queue_gains[LEAVES];
static ostrovuc_ma_node nodes[NODES];
static ostrovuc_span spans[NODES];

int main(void) {
    ostrovuc_settings s = {.alphabet = 16, .max_leaves = LEAVES, .side_preds = 1, .max_candidates = 8, .allowed_preds = 1};
    for (int x = 0; x < ROWS; x++) props[x][X] = x, tok[x][0] = greys[x], logs[x + 1] = log2f(x + 1);
    ostrovuc_learned_tree tree = ostrovuc_learn(
        nodes, NODES, spans, NODES, s, logs, ROWS + 1, *props, ROWS * OSTROVUC_PROPERTIES, *tok, sizeof tok, NULL, 0,
        queue_words, WORDS, queue_values, LEAVES, queue_gains, LEAVES, counts, COUNTS);
    for (uint32_t n = 0; n < tree.nodes; n++)
        if (nodes[n].kind != OSTROVUC_SPLIT)
            for (uint32_t row = spans[n].first; row < spans[n].end; row++) printf("leaf %u: pixel %d\n", n, props[row][X]);
    return (int)tree.number;
}
