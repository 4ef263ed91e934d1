/*
 * Calls of every operation that is lent lists, over lists with any contents: what a call gives stands in its lists, and
 * wherever nothing is looked for stand the words of a fill. A list of length 0 is lent as a null pointer; every other
 * one has exactly the memory of its entries, so that a memory checker sees a step beyond it.
 */
#ifndef OSTROVUC_LENT_H
#define OSTROVUC_LENT_H

#include "ostrovuc.h"

#include <math.h>
#include <stdio.h>
#include <stdlib.h>
#include <string.h>

enum operation { LEARN, DEEPEN, LOOKUP, CONTEXTS, WRITE, READ, SAMPLE, OPERATIONS };

/*
 * The lists of learning and deepening, then those of contexts, of writing and reading symbols, and of sampling. Nodes
 * are those of every operation but sampling, and the queue is that of contexts and of writing.
 */
enum list {
    NODES, SPANS, LOGS, PROPS, TOK, RES, QUEUE_WORDS, QUEUE_VALUES, QUEUE_GAINS, COUNTS,
    NUMBERS, QUEUE,
    SYMBOLS, READ_SYMBOLS,
    PICKED,
    LISTS
};

/* A list's name, the bytes of an entry, and by how many entries it is longer than is due in a plain call. */
static const struct {
    const char *name;
    size_t entry, spare;
} lists[LISTS] = {
    [NODES] = {"nodes", sizeof(ostrovuc_ma_node), 5},
    [SPANS] = {"spans", sizeof(ostrovuc_span), 7},
    [LOGS] = {"logs", sizeof(float), 2},
    [PROPS] = {"props", sizeof(int32_t), 0},
    [TOK] = {"tok", sizeof(uint8_t), 0},
    [RES] = {"res", sizeof(int32_t), 0},
    [QUEUE_WORDS] = {"queue_words", sizeof(uint32_t), 2},
    [QUEUE_VALUES] = {"queue_values", sizeof(int32_t), 3},
    [QUEUE_GAINS] = {"queue_gains", sizeof(float), 1},
    [COUNTS] = {"counts", sizeof(uint32_t), 9},
    [NUMBERS] = {"contexts", sizeof(uint32_t), 3},
    [QUEUE] = {"queue", sizeof(uint32_t), 4},
    [SYMBOLS] = {"symbols", sizeof(ostrovuc_symbol), 3},
    [READ_SYMBOLS] = {"symbols", sizeof(ostrovuc_symbol), 0},
    [PICKED] = {"out", sizeof(uint32_t), 2},
};

/* ---- contents */

/* Zeros; bytes a5; NaNs quiet, signalling and negative; numbers that might be taken for a split's kind, and are not. */
static const uint32_t patterns[] = {
    0x00000000, 0xa5a5a5a5,
    0x7fc00000, 0x7f800001, 0x7fbfffff, 0xffc12345, 0xff800001, 0xffffffff,
    0x00000002, 0x00000101, 0x80000001,
};

enum { PATTERNS = sizeof patterns / sizeof *patterns, ZEROS = 0, BY_TURNS = PATTERNS, FILLS };

/* Word i of a list: of most fills one pattern throughout, of the last all of them by turns. */
static uint32_t fill_word(unsigned fill, size_t i) {
    return patterns[fill == BY_TURNS ? i % PATTERNS : fill];
}

/* The words of a node record, and those that a split and a leaf have a use for. */
enum { KIND, PROP, VAL, GT, LE, COST, PRED, OFFSET, DEPTH, NODE_WORDS };
enum {
    OF_SPLIT = 1 << KIND | 1 << PROP | 1 << VAL | 1 << GT | 1 << LE | 1 << DEPTH,
    OF_LEAF = 1 << PRED | 1 << OFFSET | 1 << DEPTH
};

/* A node as a call gives it: word w, if bit w of `given` is set. The others are what the fill left. */
struct node {
    unsigned given;
    uint32_t words[NODE_WORDS];
};

/* The symbols of a tree of so many splits, all of them before the leaves; but symbol `at` is another one. */
struct symbols {
    size_t splits, at;
    ostrovuc_symbol other;
};

static ostrovuc_symbol symbol(const struct symbols *given, size_t i) {
    static const ostrovuc_symbol split[2] = {{1, 4}, {0, 7}}, leaf[5] = {{1, 0}, {2, 13}, {3, 5}, {4, 0}, {5, 0}};
    if (i == given->at) return given->other;
    return i < 2 * given->splits ? split[i % 2] : leaf[(i - 2 * given->splits) % 5];
}

/* ---- calls */

enum { TREE = 5, SPLITS = 2, ROWS = 12 };

/* A call that is to be made: its numbers, the lengths of its lists, and what is given in them. */
struct call {
    enum operation operation;
    ostrovuc_settings settings;
    uint32_t count;
    size_t rows, target, length[LISTS];
    struct node nodes[TREE];
    struct symbols symbols;
    int32_t props[ROWS * OSTROVUC_PROPERTIES], res[ROWS];
    uint8_t tok[ROWS * OSTROVUC_PREDICTORS];
    float logs[ROWS + 1];
};

/* The first row comes to leaf 4 by nodes 0 and 2; no row comes to leaf 3. */
static void give_tree(struct node nodes[TREE]) {
    nodes[0] = (struct node){OF_SPLIT, {[KIND] = OSTROVUC_SPLIT, [PROP] = 3, [VAL] = 0, [GT] = 1, [LE] = 2}};
    nodes[1] = (struct node){OF_LEAF, {[PRED] = 5, [OFFSET] = 3, [DEPTH] = 1}};
    nodes[2] = (struct node){
        OF_SPLIT, {[KIND] = OSTROVUC_SPLIT, [PROP] = 2, [VAL] = 100, [GT] = 3, [LE] = 4, [DEPTH] = 1}};
    nodes[3] = (struct node){OF_LEAF, {[PRED] = 6, [OFFSET] = 9, [DEPTH] = 2}};
    nodes[4] = (struct node){OF_LEAF, {[PRED] = 7, [OFFSET] = 1, [DEPTH] = 2}};
}

/* Property 2 is a row's line and property 3 its column, which tells the residuals apart. */
static void give_rows(struct call *c) {
    for (int row = 0; row < ROWS; row++) {
        c->props[row * OSTROVUC_PROPERTIES + 2] = row / 2;
        c->props[row * OSTROVUC_PROPERTIES + 3] = row % 2;
        c->res[row] = (row % 2 == 0 ? 100 : 20) + (row % 7 == 0);
        uint8_t *tok = &c->tok[row * OSTROVUC_PREDICTORS];
        for (int pred = 0; pred < OSTROVUC_PREDICTORS; pred++) tok[pred] = (uint8_t)(5 * row + 3 * pred);
        c->logs[row + 1] = (float)log2(row + 1);
    }
}

static void due_for_growing(struct call *c) {
    uint32_t leaves = c->settings.max_leaves;
    c->length[NODES] = ostrovuc_nodes_length(leaves, c->count);
    c->length[LOGS] = ostrovuc_logs_length(ROWS);
    c->length[PROPS] = ROWS * OSTROVUC_PROPERTIES;
    c->length[TOK] = ROWS * OSTROVUC_PREDICTORS;
    c->length[RES] = ROWS;
    c->length[SPANS] = ostrovuc_spans_length(leaves, c->count);
    c->length[QUEUE_WORDS] = ostrovuc_queue_words_length(leaves);
    c->length[QUEUE_VALUES] = ostrovuc_queue_values_length(leaves);
    c->length[QUEUE_GAINS] = ostrovuc_queue_gains_length(leaves);
    c->length[COUNTS] = ostrovuc_counts_length(&c->settings, ROWS, c->count);
}

static void due_lengths(struct call *c) {
    switch (c->operation) {
    case LEARN:
    case DEEPEN: due_for_growing(c); break;
    case LOOKUP: c->length[NODES] = c->count, c->length[PROPS] = OSTROVUC_PROPERTIES; break;
    case CONTEXTS: c->length[NODES] = c->length[NUMBERS] = c->length[QUEUE] = c->count; break;
    case WRITE:
        c->length[NODES] = c->length[QUEUE] = c->count;
        c->length[SYMBOLS] = ostrovuc_symbols_length(c->count);
        break;
    case READ: c->length[NODES] = c->count, c->length[READ_SYMBOLS] = ostrovuc_symbols_length(c->count); break;
    default: c->length[PICKED] = c->target;
    }
}

/*
 * A call that is accepted: it learns from the rows, deepens, looks up in, numbers or writes the tree, reads one, or
 * picks 3 rows of 5.
 */
static struct call plain_call(enum operation operation) {
    struct call c = {.operation = operation, .count = operation == LEARN ? 0 : TREE, .rows = 5, .target = 3};
    c.symbols = (struct symbols){.splits = SPLITS, .at = SIZE_MAX};
    c.settings = (ostrovuc_settings){
        .alphabet = 128, .max_leaves = 4, .side_preds = 2, .max_candidates = 32, .allowed_preds = 0x3fff,
        .modal_offsets = true, .settle = true};
    give_tree(c.nodes);
    give_rows(&c);
    due_lengths(&c);
    for (int list = 0; list < LISTS; list++)
        if (c.length[list] != 0) c.length[list] += lists[list].spare;
    return c;
}

/* ---- a list as it is lent */

static size_t list_bytes(const struct call *c, enum list list) {
    return c->length[list] * lists[list].entry;
}

static void *memory(size_t bytes) {
    void *list = malloc(bytes);
    if (list == NULL) {
        fputs("bytes: no memory\n", stderr);
        exit(1);
    }
    return list;
}

/* Puts what is given to a list's front; the list may be shorter. */
static void put(uint8_t *list, size_t bytes, const void *given, size_t given_bytes) {
    memcpy(list, given, bytes < given_bytes ? bytes : given_bytes);
}

/* A lookup is given no depths, since it does not look at them. */
static void put_nodes(const struct call *c, uint8_t *list, size_t bytes) {
    unsigned left_out = c->operation == LOOKUP ? 1 << DEPTH : 0;
    for (size_t k = 0; k < TREE * NODE_WORDS && 4 * k < bytes; k++) {
        const struct node *node = &c->nodes[k / NODE_WORDS];
        size_t word = k % NODE_WORDS;
        if ((node->given & ~left_out) >> word & 1) memcpy(list + 4 * k, &node->words[word], 4);
    }
}

static void put_symbols(uint8_t *list, size_t bytes, const struct symbols *given) {
    for (size_t i = 0; i < bytes / sizeof(ostrovuc_symbol); i++) {
        ostrovuc_symbol s = symbol(given, i);
        memcpy(list + i * sizeof s, &s, sizeof s);
    }
}

/* Of the logarithms entry 0 is not given, nor are those past the rows. */
static void put_given(const struct call *c, enum list which, uint8_t *list, size_t bytes) {
    switch (which) {
    case NODES:
        if (c->operation != LEARN && c->operation != READ) put_nodes(c, list, bytes);
        break;
    case READ_SYMBOLS: put_symbols(list, bytes, &c->symbols); break;
    case LOGS: put(list + 4, bytes - 4, &c->logs[1], sizeof c->logs - 4); break;
    case PROPS: put(list, bytes, c->props, sizeof c->props); break;
    case TOK: put(list, bytes, c->tok, sizeof c->tok); break;
    case RES: put(list, bytes, c->res, sizeof c->res); break;
    default: break;
    }
}

/* A list of a call, to be freed. */
static void *lend(const struct call *c, enum list which, unsigned fill) {
    size_t bytes = list_bytes(c, which);
    if (bytes == 0) return NULL;
    uint8_t *list = memory(bytes);
    for (size_t k = 0; k < bytes; k++) list[k] = (uint8_t)(fill_word(fill, k / 4) >> 8 * (k % 4));
    put_given(c, which, list, bytes);
    return list;
}

/* ---- a call that is made */

/* The words of the answer, number and place first, and the lists before and after. */
struct run {
    uint32_t answer[8];
    void *before[LISTS], *after[LISTS];
};

static ostrovuc_learned_tree grow(const struct call *c, void *const at[LISTS]) {
    const size_t *length = c->length;
    if (c->operation == LEARN)
        return ostrovuc_learn(
            at[NODES], length[NODES], at[SPANS], length[SPANS], c->settings, at[LOGS], length[LOGS], at[PROPS],
            length[PROPS], at[TOK], length[TOK], at[RES], length[RES], at[QUEUE_WORDS], length[QUEUE_WORDS],
            at[QUEUE_VALUES], length[QUEUE_VALUES], at[QUEUE_GAINS], length[QUEUE_GAINS], at[COUNTS], length[COUNTS]);
    return ostrovuc_deepen(
        at[NODES], length[NODES], at[SPANS], length[SPANS], c->settings, c->count, at[LOGS], length[LOGS], at[PROPS],
        length[PROPS], at[TOK], length[TOK], at[RES], length[RES], at[QUEUE_WORDS], length[QUEUE_WORDS],
        at[QUEUE_VALUES], length[QUEUE_VALUES], at[QUEUE_GAINS], length[QUEUE_GAINS], at[COUNTS], length[COUNTS]);
}

static void answer(const struct call *c, void *const at[LISTS], uint32_t words[8]) {
    const size_t *length = c->length;
    ostrovuc_learned_tree grown;
    ostrovuc_leaf found;
    ostrovuc_count counted;
    switch (c->operation) {
    case LOOKUP:
        found = ostrovuc_lookup(at[NODES], length[NODES], c->count, at[PROPS], length[PROPS]);
        memcpy(words, &found, sizeof found);
        break;
    case CONTEXTS:
        counted = ostrovuc_leaf_contexts(
            at[NODES], length[NODES], c->count, at[NUMBERS], length[NUMBERS], at[QUEUE], length[QUEUE]);
        memcpy(words, &counted, sizeof counted);
        break;
    case WRITE:
        counted = ostrovuc_write_symbols(
            at[NODES], length[NODES], c->count, at[SYMBOLS], length[SYMBOLS], at[QUEUE], length[QUEUE]);
        memcpy(words, &counted, sizeof counted);
        break;
    case READ:
        counted = ostrovuc_read_symbols(at[READ_SYMBOLS], length[READ_SYMBOLS], at[NODES], length[NODES]);
        memcpy(words, &counted, sizeof counted);
        break;
    case SAMPLE:
        counted = ostrovuc_evenly_sampled_indices(c->rows, c->target, at[PICKED], length[PICKED]);
        memcpy(words, &counted, sizeof counted);
        break;
    default:
        grown = grow(c, at);
        memcpy(words, &grown, sizeof grown);
    }
}

static struct run run(const struct call *c, unsigned fill) {
    struct run r = {.answer = {0}};
    for (int list = 0; list < LISTS; list++) {
        r.before[list] = lend(c, list, fill);
        r.after[list] = lend(c, list, fill);
    }
    answer(c, r.after, r.answer);
    return r;
}

static void drop(struct run *r) {
    for (int list = 0; list < LISTS; list++) {
        free(r->before[list]);
        free(r->after[list]);
    }
}

#endif
