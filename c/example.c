/*
 * Learns a tree from the 64 pixels of a small picture: the right half is lit, the left half is not, the top line is
 * brighter, and there are a few specks. Prints the tree, its nodes set in by their depths, the leaf that each pixel
 * reaches, the leaves' contexts, the symbols that JPEG XL transmits for the tree, the tree read back from them, and
 * what refusals look like.
 */
#include "ostrovuc.h"

#include <math.h>
#include <stdio.h>
#include <stdlib.h>

enum { SIDE = 8, ROWS = SIDE * SIDE, PROPERTY_Y = 2, PROPERTY_X = 3 };

/* The rows of the job: learning moves them. */
struct rows {
    int32_t props[ROWS * OSTROVUC_PROPERTIES];
    uint8_t tok[ROWS * OSTROVUC_PREDICTORS];
    int32_t res[ROWS];
};

/* What learning is lent besides the rows. */
struct room {
    ostrovuc_ma_node *nodes;
    ostrovuc_span *spans;
    uint32_t *queue_words, *counts;
    int32_t *queue_values;
    float *queue_gains, *logs;
};

static int32_t pixel(int x, int y) {
    int32_t speck = (5 * x + 3 * y) % 11 == 0;
    return (x >= SIDE / 2 ? 200 : 16) + (y == 0 ? 3 : 0) + speck;
}

/* A row for each pixel. Only predictor 0 (zero) is used, so a pixel's residual is its value. */
static void fill_rows(struct rows *rows) {
    for (int row = 0; row < ROWS; row++) {
        int x = row % SIDE, y = row / SIDE;
        rows->props[row * OSTROVUC_PROPERTIES + PROPERTY_Y] = y;
        rows->props[row * OSTROVUC_PROPERTIES + PROPERTY_X] = x;
        rows->res[row] = pixel(x, y);
        rows->tok[row * OSTROVUC_PREDICTORS] = (uint8_t)ostrovuc_uint_encode(ostrovuc_pack_signed(rows->res[row])).token;
    }
}

/* A list may be lent just as malloc gives it. */
static void *list(size_t length, size_t entry) {
    void *entries = malloc(length * entry);
    if (entries == NULL) {
        fputs("example: no memory\n", stderr);
        exit(1);
    }
    return entries;
}

static struct room make_room(const ostrovuc_settings *s) {
    struct room room;
    room.nodes = list(ostrovuc_nodes_length(s->max_leaves, 0), sizeof *room.nodes);
    room.spans = list(ostrovuc_spans_length(s->max_leaves, 0), sizeof *room.spans);
    room.queue_words = list(ostrovuc_queue_words_length(s->max_leaves), sizeof *room.queue_words);
    room.queue_values = list(ostrovuc_queue_values_length(s->max_leaves), sizeof *room.queue_values);
    room.queue_gains = list(ostrovuc_queue_gains_length(s->max_leaves), sizeof *room.queue_gains);
    room.counts = list(ostrovuc_counts_length(s, ROWS, 0), sizeof *room.counts);
    room.logs = list(ostrovuc_logs_length(ROWS), sizeof *room.logs);
    for (int count = 1; count <= ROWS; count++) room.logs[count] = (float)log2(count);
    return room;
}

static void drop_room(struct room *room) {
    free(room->nodes);
    free(room->spans);
    free(room->queue_words);
    free(room->queue_values);
    free(room->queue_gains);
    free(room->counts);
    free(room->logs);
}

static ostrovuc_learned_tree learn(const ostrovuc_settings *s, struct rows *rows, struct room *room) {
    return ostrovuc_learn(
        room->nodes, ostrovuc_nodes_length(s->max_leaves, 0), room->spans, ostrovuc_spans_length(s->max_leaves, 0), *s,
        room->logs, ostrovuc_logs_length(ROWS), rows->props, ROWS * OSTROVUC_PROPERTIES, rows->tok,
        ROWS * OSTROVUC_PREDICTORS, rows->res, ROWS, room->queue_words, ostrovuc_queue_words_length(s->max_leaves),
        room->queue_values, ostrovuc_queue_values_length(s->max_leaves), room->queue_gains,
        ostrovuc_queue_gains_length(s->max_leaves), room->counts, ostrovuc_counts_length(s, ROWS, 0));
}

static void print_node(const ostrovuc_ma_node *node) {
    if (node->kind == OSTROVUC_SPLIT)
        printf("property %u > %d leads to %u, else to %u", node->prop, node->val, node->gt, node->le);
    else
        printf("leaf, predictor %u, offset %d", node->info.pred, node->info.offset);
}

/* Begins a node's line, set in by its depth. */
static void print_number(uint32_t n, const ostrovuc_ma_node *node) {
    printf("%*snode %u", 2 * (int)node->depth, "", n);
}

static void print_tree(ostrovuc_learned_tree tree, const struct room *room) {
    printf("%d rows: %u nodes, %u leaves, %.2f bits, flat %.2f\n", ROWS, tree.nodes, tree.leaves, tree.bits, tree.flat);
    for (uint32_t n = 0; n < tree.nodes; n++) {
        const ostrovuc_ma_node *node = &room->nodes[n];
        print_number(n, node);
        printf(", %u rows: ", room->spans[n].end - room->spans[n].first);
        print_node(node);
        if (node->kind != OSTROVUC_SPLIT) printf(", %.2f bits", node->info.cost);
        putchar('\n');
    }
}

/* The leaf of each pixel, in its place. */
static void print_leaves(ostrovuc_learned_tree tree, const struct room *room) {
    for (int y = 0; y < SIDE; y++) {
        for (int x = 0; x < SIDE; x++) {
            int32_t props[OSTROVUC_PROPERTIES] = {[PROPERTY_Y] = y, [PROPERTY_X] = x};
            ostrovuc_leaf found = ostrovuc_lookup(room->nodes, tree.nodes, tree.nodes, props, OSTROVUC_PROPERTIES);
            printf(x == 0 ? "%u" : " %u", found.leaf);
        }
        putchar('\n');
    }
}

static void print_contexts(ostrovuc_learned_tree tree, const struct room *room) {
    uint32_t *contexts = list(tree.nodes, sizeof *contexts), *queue = list(tree.nodes, sizeof *queue);
    ostrovuc_count counted = ostrovuc_leaf_contexts(room->nodes, tree.nodes, tree.nodes, contexts, tree.nodes, queue, tree.nodes);
    printf("%u contexts\n", counted.count);
    for (uint32_t n = 0; n < tree.nodes; n++)
        if (contexts[n] != OSTROVUC_NO_CONTEXT) printf("leaf %u has context %u\n", n, contexts[n]);
    free(contexts);
    free(queue);
}

/* A node a line: each begins with its property, a leaf's being 0. */
static void print_symbols(const ostrovuc_symbol *symbols, uint32_t count) {
    static const char *const names[] = {
        [OSTROVUC_CONTEXT_SPLIT_VAL] = "split_val",           [OSTROVUC_CONTEXT_PROPERTY] = "property",
        [OSTROVUC_CONTEXT_PREDICTOR] = "predictor",           [OSTROVUC_CONTEXT_OFFSET] = "offset",
        [OSTROVUC_CONTEXT_MULTIPLIER_LOG] = "multiplier_log", [OSTROVUC_CONTEXT_MULTIPLIER_BITS] = "multiplier_bits",
    };
    printf("%u symbols", count);
    for (const ostrovuc_symbol *s = symbols; s < symbols + count; s++)
        printf("%s%s %u", s->context == OSTROVUC_CONTEXT_PROPERTY ? "\n" : ", ", names[s->context], s->value);
    putchar('\n');
}

/* Reads a tree from its symbols, and from all but the last one. */
static void print_read_back(const ostrovuc_symbol *symbols, size_t length) {
    size_t entries = ostrovuc_read_nodes_length(length);
    ostrovuc_ma_node *nodes = list(entries, sizeof *nodes);
    ostrovuc_count read = ostrovuc_read_symbols(symbols, length, nodes, entries);
    printf("read back: %u nodes\n", read.count);
    for (uint32_t n = 0; n < read.count; n++) {
        print_number(n, &nodes[n]);
        printf(": ");
        print_node(&nodes[n]);
        putchar('\n');
    }
    read = ostrovuc_read_symbols(symbols, length - 1, nodes, entries);
    printf("without the last symbol: refusal %u, place %u\n", read.number, read.place);
    free(nodes);
}

static void print_transmitted(ostrovuc_learned_tree tree, const struct room *room) {
    size_t length = ostrovuc_symbols_length(tree.nodes);
    ostrovuc_symbol *symbols = list(length, sizeof *symbols);
    uint32_t *queue = list(tree.nodes, sizeof *queue);
    ostrovuc_count written =
        ostrovuc_write_symbols(room->nodes, tree.nodes, tree.nodes, symbols, length, queue, tree.nodes);
    print_symbols(symbols, written.count);
    print_read_back(symbols, written.count);
    free(symbols);
    free(queue);
}

/* A tree whose last node does not have its distance from the root as its depth: the nodes are looked at before room. */
static void print_wrong_depth(ostrovuc_learned_tree tree, const struct room *room) {
    uint32_t last = tree.nodes - 1;
    room->nodes[last].depth++;
    ostrovuc_count counted = ostrovuc_leaf_contexts(room->nodes, tree.nodes, tree.nodes, NULL, 0, NULL, 0);
    printf("node %u a level too deep: refusal %u, place %u\n", last, counted.number, counted.place);
    room->nodes[last].depth--;
}

int main(void) {
    ostrovuc_settings s = {
        .alphabet = 128, .max_leaves = 4, .split_cost_bits = 4, .side_preds = 1, .max_candidates = 16, .allowed_preds = 1, .modal_offsets = true};
    static struct rows rows;
    struct room room = make_room(&s);
    fill_rows(&rows);
    ostrovuc_learned_tree tree = learn(&s, &rows, &room);
    if (tree.number != OSTROVUC_ACCEPTED) return 1;
    print_tree(tree, &room);
    print_leaves(tree, &room);
    print_contexts(tree, &room);
    print_transmitted(tree, &room);
    print_wrong_depth(tree, &room);

    rows.tok[5 * OSTROVUC_PREDICTORS + 13] = 128;
    tree = learn(&s, &rows, &room);
    const char *kind = room.nodes[0].kind == OSTROVUC_SPLIT ? "split" : "leaf";
    printf("token 128 in row 5: refusal %u, place %u; node 0 is still a %s\n", tree.number, tree.place, kind);
    drop_room(&room);
    return 0;
}
