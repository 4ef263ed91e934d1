/*
 * Ostrovuc: JPEG XL's meta-adaptive (MA) predictor trees, learned by a proved library.
 *
 * Link with target/staticlib/libma_tree.a, which `interface/library ma_tree` writes for x86-64. It calls memcpy and memset and nothing else.
 *
 * The library allocates nothing and keeps nothing between calls, so calls may run at the same time on lists of their own; a call takes up to 1 MB of stack.
 * Every list is lent by the caller, as a pointer and a length in entries. The lists of a call do not overlap; a list of length 0 may have any pointer.
 * Whatever bytes the lists hold and whatever the numbers are, the answer is a finished tree or a refusal: a call asks
 * nothing of its caller but that pointers and lengths are true and that the settings' three bools are true or false.
 *
 * An answer's `number` is 0 if the call was accepted, else the refusal (enum ostrovuc_number), with its `place`, which
 * is 0 where nothing is named. A refusal leaves every byte of every lent list as it was; the rest of its answer is 0.
 */
#ifndef OSTROVUC_H
#define OSTROVUC_H

#include <stdbool.h>
#include <stddef.h>
#include <stdint.h>

#ifdef __cplusplus
#define OSTROVUC_HOLDS(condition, text) static_assert(condition, text)
extern "C" {
#elif defined(__STDC_VERSION__) && __STDC_VERSION__ >= 201112L
#define OSTROVUC_HOLDS(condition, text) _Static_assert(condition, text)
#else
#define OSTROVUC_HOLDS(condition, text) struct ostrovuc_nothing
#endif

/* Properties of a row, and its tokens: one for each predictor. */
#define OSTROVUC_PROPERTIES 24
#define OSTROVUC_PREDICTORS 14

/* The largest job: rows, leaves, and nodes of a seed, or of a tree that is written as symbols or read from them. */
#define OSTROVUC_MAX_ROWS 65536
#define OSTROVUC_MAX_LEAVES 4096
#define OSTROVUC_MAX_NODES 8191

/* A node's kind. Whatever is not OSTROVUC_SPLIT is read as a leaf; a node that is written has one of these two. */
#define OSTROVUC_LEAF UINT32_C(0)
#define OSTROVUC_SPLIT UINT32_C(1)

/* What ostrovuc_leaf_contexts writes for a split. */
#define OSTROVUC_NO_CONTEXT UINT32_C(4294967295)

/* Which number comes back. A function's checks run in the order that its comment gives, and the first that fails gives the number. */
enum ostrovuc_number {
    OSTROVUC_ACCEPTED = 0,
    OSTROVUC_REFUSED_SETTINGS = 1,       /* a setting is outside its range */
    OSTROVUC_REFUSED_NO_PREDICTOR = 2,   /* the allowed set, without 6 if weighted is off, has none of 0 to 13 */
    OSTROVUC_REFUSED_ROWS = 3,           /* the lists of rows do not fit together, or there are more than 65,536 rows */
    OSTROVUC_REFUSED_TOKEN = 4,          /* a token is not below the alphabet; place: the lowest such row */
    OSTROVUC_REFUSED_SHORT_ALPHABET = 5, /* modal offsets on rows with residuals want an alphabet of at least 128 */
    OSTROVUC_REFUSED_LOGARITHMS = 6,     /* there are fewer than rows + 1, or one of 1 to rows is not from 0 to 32 */
    OSTROVUC_REFUSED_ROOM = 7,           /* a lent list is too short */
    OSTROVUC_REFUSED_TREE = 8,           /* the nodes, their depths included, are no sound tree; place: the lowest node
                                            at fault, 0 for a wrong count */
    OSTROVUC_REFUSED_PROPERTIES = 9,     /* a lookup takes exactly 24 properties */
    OSTROVUC_REFUSED_TOKEN_VALUE = 10,   /* the token is over 127, or its extra bits are too large for their count */
    OSTROVUC_REFUSED_SYMBOLS = 11        /* the symbols are no tree: see ostrovuc_read_symbols */
};

/* What stands beside a node: its cost in bits, its predictor and its offset. */
typedef struct ostrovuc_node_info {
    float cost;
    uint32_t pred;
    int32_t offset;
} ostrovuc_node_info;

/*
 * A node. A split sends a row whose property is above `val` to `gt`, else to `le`. A leaf has no use for prop, val, gt
 * and le: they are written as 0 and never read. Any bit pattern may stand in any field, and a record that a call does
 * not write keeps it.
 *
 * `depth` is the distance from the root. Learning, deepening and reading symbols give it. In a seed, and in a tree
 * whose contexts or symbols are asked for, it must be 0 at node 0, else one more than at the node's only parent; a node
 * where it is not is at fault (8). A lookup does not look at it.
 */
typedef struct ostrovuc_ma_node {
    uint32_t kind;
    uint32_t prop;
    int32_t val;
    uint32_t gt;
    uint32_t le;
    ostrovuc_node_info info;
    uint32_t depth;
} ostrovuc_ma_node;

/* The rows of a node: the first, and the one behind the last. */
typedef struct ostrovuc_span {
    uint32_t first;
    uint32_t end;
} ostrovuc_span;

/* A symbol of a tree as ISO/IEC 18181-1 has it: what it tells of a node, by the standard's number, and a value. */
typedef struct ostrovuc_symbol {
    uint32_t context;
    uint32_t value;
} ostrovuc_symbol;

/* The contexts of symbols, by their numbers in the standard. Those of ostrovuc_leaf_contexts are of residuals. */
enum ostrovuc_symbol_context {
    OSTROVUC_CONTEXT_SPLIT_VAL = 0,      /* a split's value, packed */
    OSTROVUC_CONTEXT_PROPERTY = 1,       /* a split's property + 1; 0 for a leaf */
    OSTROVUC_CONTEXT_PREDICTOR = 2,      /* a leaf's predictor */
    OSTROVUC_CONTEXT_OFFSET = 3,         /* a leaf's offset, packed */
    OSTROVUC_CONTEXT_MULTIPLIER_LOG = 4, /* a leaf's multiplier is (bits + 1) << log, and here always 1: this is 0 */
    OSTROVUC_CONTEXT_MULTIPLIER_BITS = 5 /* and so is this */
};

/* The settings of learning, with their ranges. */
typedef struct ostrovuc_settings {
    uint32_t alphabet;       /* 1 to 256: every token is below it */
    uint32_t max_leaves;     /* 1 to 4,096 */
    float split_cost_bits;   /* 0 to 1,048,576: what a split must gain */
    float prune_leaf_bits;   /* 0 to 1,048,576: the price of a leaf in pruning; 0 does not prune */
    uint32_t min_node;       /* 0 to 65,536: fewer rows are not split */
    uint32_t side_preds;     /* 0 to 14: how many predictors are tried on each side; 0 counts as 1 */
    uint32_t max_candidates; /* 0 to 32: thresholds tried of each property */
    bool allow_wp;           /* the weighted predictor (6) and its property (15) */
    uint16_t allowed_preds;  /* bit p allows predictor p; bits 14 and 15 are ignored */
    bool modal_offsets;      /* leaves of predictor 0 take the commonest residual as their offset */
    bool settle;             /* after pruning, token column 0 is made anew for each leaf */
} ostrovuc_settings;

/* A learned tree: how many nodes and leaves it has, its estimated bits, and the bits of a flat tree over property 0. */
typedef struct ostrovuc_learned_tree {
    uint32_t number;
    uint32_t place;
    uint32_t nodes;
    uint32_t leaves;
    double bits;
    double flat;
} ostrovuc_learned_tree;

/* The leaf of a lookup, by its node number, and its predictor. */
typedef struct ostrovuc_leaf {
    uint32_t number;
    uint32_t place;
    uint32_t leaf;
    uint32_t pred;
} ostrovuc_leaf;

/* How many were written. */
typedef struct ostrovuc_count {
    uint32_t number;
    uint32_t place;
    uint32_t count;
} ostrovuc_count;

/* A value's token, how many extra bits follow it, and those bits. */
typedef struct ostrovuc_encoding {
    uint32_t token;
    uint32_t extra_count;
    uint32_t extra_bits;
} ostrovuc_encoding;

/* The value of a token and its extra bits. */
typedef struct ostrovuc_read {
    uint32_t number;
    uint32_t place;
    uint32_t value;
} ostrovuc_read;

OSTROVUC_HOLDS(sizeof(bool) == 1, "a bool is one byte");
OSTROVUC_HOLDS(sizeof(size_t) == 8, "a length is eight bytes");
OSTROVUC_HOLDS(sizeof(ostrovuc_node_info) == 12, "three words");
OSTROVUC_HOLDS(sizeof(ostrovuc_ma_node) == 36, "nine words");
OSTROVUC_HOLDS(sizeof(ostrovuc_span) == 8, "two words");
OSTROVUC_HOLDS(sizeof(ostrovuc_symbol) == 8, "two words");
OSTROVUC_HOLDS(sizeof(ostrovuc_settings) == 36, "nine words");
OSTROVUC_HOLDS(sizeof(ostrovuc_learned_tree) == 32, "four words and two doubles");
OSTROVUC_HOLDS(sizeof(ostrovuc_leaf) == 16, "four words");
OSTROVUC_HOLDS(sizeof(ostrovuc_count) == 12, "three words");
OSTROVUC_HOLDS(sizeof(ostrovuc_encoding) == 12, "three words");
OSTROVUC_HOLDS(sizeof(ostrovuc_read) == 12, "three words");

/*
 * Lengths of the lent lists, in entries, for settings within their ranges: any shorter list is refused, longer ones will do. `leaves` is the settings'
 * max_leaves and `seed` the node count of the seed, 0 for learning. A seed that has 0 nodes is refused at any lengths:
 * with 8, or with 7 if there are fewer counts than rows.
 */

/* Nodes: as many as the tree can grow to, and the seed. */
static inline size_t ostrovuc_nodes_length(uint32_t leaves, uint32_t seed) {
    size_t grown = leaves == 0 ? 0 : 2 * (size_t)leaves - 1;
    return grown < seed ? seed : grown;
}

/* Spans: one for each node. */
static inline size_t ostrovuc_spans_length(uint32_t leaves, uint32_t seed) {
    return ostrovuc_nodes_length(leaves, seed);
}

/* The queue of waiting leaves: so many words, one value and one gain each. */
enum { OSTROVUC_QUEUE_WORDS = 4 };

static inline size_t ostrovuc_queue_words_length(uint32_t leaves) {
    return OSTROVUC_QUEUE_WORDS * (size_t)leaves;
}

static inline size_t ostrovuc_queue_values_length(uint32_t leaves) {
    return leaves;
}

static inline size_t ostrovuc_queue_gains_length(uint32_t leaves) {
    return leaves;
}

/*
 * Count space: 4,096 numbers and what flat bits (the tokens of 14 predictors in four groups of rows) or the scoring of
 * a property take beyond them; or, where there is a seed, what ordering its rows by leaf takes, if that is more.
 */
static inline size_t ostrovuc_counts_length(const ostrovuc_settings *s, size_t rows, uint32_t seed) {
    size_t alphabet = s->alphabet;
    size_t sides = s->side_preds == 0 ? 1 : s->side_preds;
    size_t flat = 56 * alphabet;
    size_t scores = 14 * alphabet + sides * alphabet * ((size_t)s->max_candidates + 2);
    size_t learning = 4096 + (flat < scores ? scores : flat);
    size_t ordering = seed == 0 ? 0 : rows + 2 * (size_t)seed;
    return learning < ordering ? ordering : learning;
}

/* Logarithms: entry c is log2 of c for 1 to rows; entry 0 is there and never read. */
static inline size_t ostrovuc_logs_length(size_t rows) {
    return rows + 1;
}

/* Symbols of a tree of `count` nodes: of 2k + 1 nodes k are splits, with two each, k + 1 leaves, with five. */
static inline size_t ostrovuc_symbols_length(uint32_t count) {
    return (7 * (size_t)count + 3) / 2;
}

/* Nodes of a tree of so many symbols. */
static inline size_t ostrovuc_read_nodes_length(size_t symbols) {
    return 2 * symbols / 7;
}

/*
 * Learns a tree from the rows. Refusals 1 to 7, in this order.
 *
 *   nodes     ostrovuc_nodes_length(max_leaves, 0): the tree, node 0 its root, each node with its depth
 *   spans     ostrovuc_spans_length(max_leaves, 0): the rows of each node; a split's are parted between its children,
 *             gt's first, and le has those at or under its value, neither none nor all
 *   logs      ostrovuc_logs_length(rows)
 *   props     24 a row; rows are moved so that each node's stand together
 *   tok       14 a row, moved with it; with residuals and modal offsets, column 0 is made anew from the residual and its leaf's mode (but pruning leaves it
 *             stale unless `settle` is on)
 *   res       one a row, moved with it; or none at all (length 0)
 *   queue_*   ostrovuc_queue_*_length(max_leaves): zeros after
 *   counts    ostrovuc_counts_length(&s, rows, 0): zeros after
 *
 * What nodes, spans, queue_* and counts hold beforehand does not matter: any bytes, as memory straight from malloc has
 * them. Entries of nodes and spans past those written keep every byte; those that pruning vacates hold a leaf of
 * predictor 0 and depth 0, and the span (0, 0).
 */
ostrovuc_learned_tree ostrovuc_learn(
    ostrovuc_ma_node *nodes, size_t nodes_length, ostrovuc_span *spans, size_t spans_length, ostrovuc_settings s,
    const float *logs, size_t logs_length, int32_t *props, size_t props_length, uint8_t *tok, size_t tok_length,
    int32_t *res, size_t res_length, uint32_t *queue_words, size_t queue_words_length, int32_t *queue_values,
    size_t queue_values_length, float *queue_gains, size_t queue_gains_length, uint32_t *counts, size_t counts_length);

/*
 * Deepens the seed, the tree of the first `count` nodes. Refusals 1 to 8, in this order. Lists as for learning, at the
 * lengths for a seed of `count` nodes. In the seed's records a split's info and a leaf's cost may be anything too, but
 * every depth must be right. The seed's splits stay, with infinite cost, predictor and offset 0 and the span (0, 0);
 * its leaves without rows keep predictor and offset, with cost 0 and the span (0, 0).
 */
ostrovuc_learned_tree ostrovuc_deepen(
    ostrovuc_ma_node *nodes, size_t nodes_length, ostrovuc_span *spans, size_t spans_length, ostrovuc_settings s,
    uint32_t count, const float *logs, size_t logs_length, int32_t *props, size_t props_length, uint8_t *tok,
    size_t tok_length, int32_t *res, size_t res_length, uint32_t *queue_words, size_t queue_words_length,
    int32_t *queue_values, size_t queue_values_length, float *queue_gains, size_t queue_gains_length, uint32_t *counts,
    size_t counts_length);

/*
 * The leaf that a row of 24 properties reaches in the tree of `count` nodes. Refusals 9, then 8: the count is 0 or
 * beyond the list, or a node met on the way is at fault. Depths are not looked at.
 */
ostrovuc_leaf ostrovuc_lookup(const ostrovuc_ma_node *nodes, size_t nodes_length, uint32_t count, const int32_t *props, size_t props_length);

/*
 * Numbers the leaves breadth first, gt before le: contexts[n] is the context of leaf n, OSTROVUC_NO_CONTEXT for a
 * split. `contexts` and `queue` have at least `count` entries, with any bytes in them; contexts past `count` stay, the
 * queue holds zeros after. Refusals 8, then 7.
 */
ostrovuc_count ostrovuc_leaf_contexts(
    const ostrovuc_ma_node *nodes, size_t nodes_length, uint32_t count, uint32_t *contexts, size_t contexts_length, uint32_t *queue,
    size_t queue_length);

/*
 * Writes the tree of `count` nodes as ISO/IEC 18181-1 transmits it, breadth first, gt before le, and gives how many
 * symbols there are: a split is (1, property + 1), (0, packed value), a leaf is (1, 0), (2, predictor),
 * (3, packed offset), (4, 0), (5, 0). `symbols` has at least ostrovuc_symbols_length(count) entries and `queue` at
 * least `count`, with any bytes in them; symbols past those written stay, the queue holds zeros after. Refusals 8,
 * then 7.
 */
ostrovuc_count ostrovuc_write_symbols(
    const ostrovuc_ma_node *nodes, size_t nodes_length, uint32_t count, ostrovuc_symbol *symbols, size_t symbols_length,
    uint32_t *queue, size_t queue_length);

/*
 * Reads such symbols back, all of them, and gives how many nodes the tree has. Its nodes are numbered breadth first and
 * have their depths; a split has infinite cost, predictor and offset 0, a leaf cost 0. Written again, the tree is the
 * same symbols. `nodes` has at least ostrovuc_read_nodes_length(symbols_length) entries, with any bytes in them; those
 * past the tree stay. Refusals 11, then 7. 11: the symbols are cut short or some are left over, one has not the context
 * that is due, a property is over 23, a predictor over 13, a multiplier not 1, or there are more than 8,191 nodes.
 */
ostrovuc_count ostrovuc_read_symbols(
    const ostrovuc_symbol *symbols, size_t symbols_length, ostrovuc_ma_node *nodes, size_t nodes_length);

/* Picks min(rows, target) rows evenly and writes their numbers to `out`, which is at least as long. Refusals 3, then 7. */
ostrovuc_count ostrovuc_evenly_sampled_indices(size_t rows, size_t target, uint32_t *out, size_t out_length);

/* Packs a signed number: 0, -1, 1, -2, .. become 0, 1, 2, 3, .. Refuses nothing. */
uint32_t ostrovuc_pack_signed(int32_t value);

/* The token of a value and its extra bits. Refuses nothing. */
ostrovuc_encoding ostrovuc_uint_encode(uint32_t value);

/* The value of a token and its extra bits. Refusal 10, which names no place. */
ostrovuc_read ostrovuc_token_value(uint32_t token, uint32_t extra);

#ifdef __cplusplus
}
#endif

#endif
