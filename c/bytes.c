/*
 * Calls every operation that is lent lists over lists with all sorts of contents (lent.h), and looks at every byte of
 * them afterwards. A refusal leaves each list as it was. Acceptance writes the entries of the answer whole, leaves
 * those past them as they were, and zeros in queue and count space; and it answers and writes the same as over zeros.
 */
#include "lent.h"

static const char *const operation_names[OPERATIONS] = {
    "learning", "deepening", "lookup", "contexts", "writing symbols", "reading symbols", "sampling"};

/* ---- what a job changes in a plain call: a number, the bits of a float, or the length of a list */

static void alphabet(struct call *c, uint32_t value) { c->settings.alphabet = value; }
static void limit(struct call *c, uint32_t value) { c->settings.max_leaves = value; }
static void split_cost(struct call *c, uint32_t bits) { memcpy(&c->settings.split_cost_bits, &bits, sizeof bits); }
static void price(struct call *c, uint32_t bits) { memcpy(&c->settings.prune_leaf_bits, &bits, sizeof bits); }
static void smallest(struct call *c, uint32_t value) { c->settings.min_node = value; }
static void sides(struct call *c, uint32_t value) { c->settings.side_preds = value; }
static void candidates(struct call *c, uint32_t value) { c->settings.max_candidates = value; }
static void allowed(struct call *c, uint32_t value) { c->settings.allowed_preds = (uint16_t)value; }
static void modes(struct call *c, uint32_t value) { c->settings.modal_offsets = value != 0; }

static void token(struct call *c, uint32_t value) { c->tok[5 * OSTROVUC_PREDICTORS + 13] = (uint8_t)value; }
static void first_log(struct call *c, uint32_t bits) { memcpy(&c->logs[1], &bits, sizeof bits); }
static void last_log(struct call *c, uint32_t bits) { memcpy(&c->logs[ROWS], &bits, sizeof bits); }

static void count(struct call *c, uint32_t value) { c->count = value; }
static void property(struct call *c, uint32_t value) { c->nodes[0].words[PROP] = value; }
static void child(struct call *c, uint32_t value) { c->nodes[0].words[GT] = value; }
static void predictor(struct call *c, uint32_t value) { c->nodes[4].words[PRED] = value; }
static void root_depth(struct call *c, uint32_t value) { c->nodes[0].words[DEPTH] = value; }
static void split_depth(struct call *c, uint32_t value) { c->nodes[2].words[DEPTH] = value; }
static void leaf_depth(struct call *c, uint32_t value) { c->nodes[4].words[DEPTH] = value; }
static void bare(struct call *c, uint32_t node) { c->nodes[node].given = 0; }

/* A symbol with another value. */
static void other_value(struct call *c, size_t at, uint32_t value) {
    c->symbols.other = (ostrovuc_symbol){symbol(&c->symbols, at).context, value};
    c->symbols.at = at;
}

/* The symbols of the first split's property and value, and the first leaf's. */
static void split_property(struct call *c, uint32_t value) { other_value(c, 0, value); }
static void split_value(struct call *c, uint32_t value) { other_value(c, 1, value); }
static void leaf_predictor(struct call *c, uint32_t value) { other_value(c, 2 * SPLITS + 1, value); }
static void leaf_offset(struct call *c, uint32_t value) { other_value(c, 2 * SPLITS + 2, value); }
static void multiplier_log(struct call *c, uint32_t value) { other_value(c, 2 * SPLITS + 3, value); }
static void multiplier_bits(struct call *c, uint32_t value) { other_value(c, 2 * SPLITS + 4, value); }

/* This symbol has the context after its own. */
static void next_context(struct call *c, uint32_t at) {
    ostrovuc_symbol s = symbol(&c->symbols, at);
    c->symbols.other = (ostrovuc_symbol){s.context + 1, s.value};
    c->symbols.at = at;
}

/* A whole tree of so many splits, and room for it. */
static void splits(struct call *c, uint32_t value) {
    c->symbols.splits = value;
    c->length[NODES] = 2 * (size_t)value + 1;
    c->length[READ_SYMBOLS] = 7 * (size_t)value + 5;
}

static void target(struct call *c, uint32_t value) { c->target = value; }
static void total(struct call *c, uint32_t value) { c->rows = value; }

static void records(struct call *c, uint32_t length) { c->length[NODES] = length; }
static void width(struct call *c, uint32_t length) { c->length[PROPS] = length; }
static void longer(struct call *c, uint32_t list) { c->length[list]++; }
static void shorter(struct call *c, uint32_t list) { c->length[list] -= lists[list].spare + 1; }
static void absent(struct call *c, uint32_t list) { c->length[list] = 0; }

static void rows(struct call *c, uint32_t value) {
    c->length[PROPS] = (size_t)value * OSTROVUC_PROPERTIES;
    c->length[TOK] = (size_t)value * OSTROVUC_PREDICTORS;
    c->length[RES] = value;
}

/* No list at all, and so many rows to pick from. */
static void nothing(struct call *c, uint32_t value) {
    memset(c->length, 0, sizeof c->length);
    c->rows = value;
}

/* A root that has everything of a split but its kind, and of a leaf. */
static void root_kind(struct call *c, uint32_t value) {
    c->nodes[0].given = OF_SPLIT | OF_LEAF;
    c->nodes[0].words[KIND] = value;
    c->nodes[0].words[PRED] = 13;
}

static void lone_kind(struct call *c, uint32_t value) {
    root_kind(c, value);
    c->count = 1;
}

static void seed(struct call *c, uint32_t value) {
    c->count = value;
    c->length[NODES] = value;
    c->length[SPANS] = value;
    c->length[COUNTS] = ROWS + 2 * (size_t)value;
}

/* ---- jobs */

/*
 * A job's operations. Learning and deepening grow a tree; contexts and writing go breadth first; these and deepening
 * want a sound tree.
 */
enum {
    LEARNS = 1 << LEARN,
    DEEPENS = 1 << DEEPEN,
    LOOKS_UP = 1 << LOOKUP,
    NUMBERS_LEAVES = 1 << CONTEXTS,
    WRITES = 1 << WRITE,
    READS = 1 << READ,
    SAMPLES = 1 << SAMPLE,
    GROWS = LEARNS | DEEPENS,
    GOES_BREADTH_FIRST = NUMBERS_LEAVES | WRITES,
    WANTS_SOUND = DEEPENS | GOES_BREADTH_FIRST,
    WANTS_TREE = WANTS_SOUND | LOOKS_UP
};

/* A change of some operations' plain calls; the first three words of the answer; how many entries acceptance writes. */
struct job {
    const char *name;
    unsigned operations;
    void (*change)(struct call *, uint32_t);
    uint32_t value, number, place, third;
    size_t written;
};

#define JOB(operations, change, value) #change " " #value, operations, change, value
#define ACCEPTED(third, written) 0, 0, third, written
#define REFUSED(number, place) number, place, 0, 0

static const struct job jobs[] = {
    /* The plain calls, by a number that stays: nodes, a leaf, contexts, symbols, nodes, rows. */
    {JOB(GROWS, limit, 4), ACCEPTED(7, 7)},
    {JOB(LOOKS_UP, count, 5), ACCEPTED(4, 0)},
    {JOB(NUMBERS_LEAVES, count, 5), ACCEPTED(3, 5)},
    {JOB(WRITES, count, 5), ACCEPTED(19, 19)},
    {JOB(READS, split_property, 4), ACCEPTED(5, 5)},
    {JOB(SAMPLES, target, 3), ACCEPTED(3, 3)},
    /* Trees that end early, that are folded, that have no rows, no residuals or no modes. */
    {JOB(LEARNS, limit, 1), ACCEPTED(1, 1)},
    {JOB(DEEPENS, limit, 1), ACCEPTED(5, 5)},
    {JOB(LEARNS, smallest, 7), ACCEPTED(3, 3)},
    {JOB(DEEPENS, smallest, 7), ACCEPTED(5, 5)},
    {JOB(LEARNS, price, 0x49800000), ACCEPTED(1, 7)},
    {JOB(DEEPENS, price, 0x49800000), ACCEPTED(5, 7)},
    {JOB(LEARNS, rows, 0), ACCEPTED(1, 1)},
    {JOB(DEEPENS, rows, 0), ACCEPTED(5, 5)},
    {JOB(GROWS, absent, RES), ACCEPTED(7, 7)},
    {JOB(GROWS, modes, 0), ACCEPTED(7, 7)},
    /*
     * More records than a tree can have; nodes that a lookup does not meet; the ends of what a symbol may say, and of
     * how many nodes are read; fewer rows to pick.
     */
    {JOB(GROWS, records, 8200), ACCEPTED(7, 7)},
    {JOB(LOOKS_UP, records, 8200), ACCEPTED(4, 0)},
    {JOB(NUMBERS_LEAVES, records, 8200), ACCEPTED(3, 5)},
    {JOB(WRITES, records, 8200), ACCEPTED(19, 19)},
    {JOB(READS, records, 8200), ACCEPTED(5, 5)},
    {JOB(LOOKS_UP, bare, 1), ACCEPTED(4, 0)},
    {JOB(LOOKS_UP, bare, 3), ACCEPTED(4, 0)},
    {JOB(READS, split_property, 1), ACCEPTED(5, 5)},
    {JOB(READS, split_property, 24), ACCEPTED(5, 5)},
    {JOB(READS, split_value, 0xffffffff), ACCEPTED(5, 5)},
    {JOB(READS, leaf_predictor, 0), ACCEPTED(5, 5)},
    {JOB(READS, leaf_offset, 0xfffffffe), ACCEPTED(5, 5)},
    {JOB(READS, splits, 0), ACCEPTED(1, 1)},
    {JOB(READS, splits, 4095), ACCEPTED(8191, 8191)},
    {JOB(SAMPLES, target, 0), ACCEPTED(0, 0)},
    {JOB(SAMPLES, total, 2), ACCEPTED(2, 2)},
    /* Any kind but a split's is a leaf: it is a tree by itself, and the children of such a root have no parent. */
    {JOB(DEEPENS, lone_kind, 0), ACCEPTED(7, 7)},
    {JOB(DEEPENS, lone_kind, 2), ACCEPTED(7, 7)},
    {JOB(DEEPENS, lone_kind, 0x101), ACCEPTED(7, 7)},
    {JOB(DEEPENS, lone_kind, 0xffffffff), ACCEPTED(7, 7)},
    {JOB(NUMBERS_LEAVES, lone_kind, 2), ACCEPTED(1, 1)},
    {JOB(NUMBERS_LEAVES, lone_kind, 0x101), ACCEPTED(1, 1)},
    {JOB(WRITES, lone_kind, 2), ACCEPTED(5, 5)},
    {JOB(WRITES, lone_kind, 0x101), ACCEPTED(5, 5)},
    {JOB(LOOKS_UP, lone_kind, 2), ACCEPTED(0, 0)},
    {JOB(LOOKS_UP, root_kind, 0), ACCEPTED(0, 0)},
    {JOB(LOOKS_UP, root_kind, 2), ACCEPTED(0, 0)},
    {JOB(LOOKS_UP, root_kind, 0x101), ACCEPTED(0, 0)},
    {JOB(WANTS_SOUND, root_kind, 0), REFUSED(8, 1)},
    {JOB(WANTS_SOUND, root_kind, 2), REFUSED(8, 1)},
    {JOB(WANTS_SOUND, root_kind, 0x101), REFUSED(8, 1)},
    /* 1, a setting; 2, predictors, of which the weighted one is off. */
    {JOB(GROWS, alphabet, 0), REFUSED(1, 0)},
    {JOB(GROWS, alphabet, 257), REFUSED(1, 0)},
    {JOB(GROWS, limit, 0), REFUSED(1, 0)},
    {JOB(GROWS, limit, 4097), REFUSED(1, 0)},
    {JOB(GROWS, split_cost, 0xbf800000), REFUSED(1, 0)},
    {JOB(GROWS, split_cost, 0x7fc00000), REFUSED(1, 0)},
    {JOB(GROWS, price, 0x7f800001), REFUSED(1, 0)},
    {JOB(GROWS, price, 0xffffffff), REFUSED(1, 0)},
    {JOB(GROWS, smallest, 65537), REFUSED(1, 0)},
    {JOB(GROWS, sides, 15), REFUSED(1, 0)},
    {JOB(GROWS, candidates, 33), REFUSED(1, 0)},
    {JOB(GROWS, allowed, 0), REFUSED(2, 0)},
    {JOB(GROWS, allowed, 0xc040), REFUSED(2, 0)},
    /* 3, rows; 4, a token of row 5; 5, an alphabet too short for modes. */
    {JOB(GROWS, shorter, PROPS), REFUSED(3, 0)},
    {JOB(GROWS, longer, TOK), REFUSED(3, 0)},
    {JOB(GROWS, shorter, RES), REFUSED(3, 0)},
    {JOB(GROWS, absent, PROPS), REFUSED(3, 0)},
    {JOB(GROWS, absent, TOK), REFUSED(3, 0)},
    {JOB(GROWS, rows, 65537), REFUSED(3, 0)},
    {JOB(SAMPLES, total, 65537), REFUSED(3, 0)},
    {JOB(GROWS, token, 128), REFUSED(4, 5)},
    {JOB(GROWS, alphabet, 127), REFUSED(5, 0)},
    /* 6, logarithms. */
    {JOB(GROWS, shorter, LOGS), REFUSED(6, 0)},
    {JOB(GROWS, absent, LOGS), REFUSED(6, 0)},
    {JOB(GROWS, first_log, 0x7fc00000), REFUSED(6, 0)},
    {JOB(GROWS, first_log, 0xff800001), REFUSED(6, 0)},
    {JOB(GROWS, last_log, 0x7f800001), REFUSED(6, 0)},
    {JOB(GROWS, last_log, 0x42040000), REFUSED(6, 0)},
    /* 7, room. */
    {JOB(GROWS, shorter, NODES), REFUSED(7, 0)},
    {JOB(GROWS, shorter, SPANS), REFUSED(7, 0)},
    {JOB(GROWS, shorter, QUEUE_WORDS), REFUSED(7, 0)},
    {JOB(GROWS, shorter, QUEUE_VALUES), REFUSED(7, 0)},
    {JOB(GROWS, shorter, QUEUE_GAINS), REFUSED(7, 0)},
    {JOB(GROWS, shorter, COUNTS), REFUSED(7, 0)},
    {JOB(GROWS, absent, NODES), REFUSED(7, 0)},
    {JOB(GROWS, absent, SPANS), REFUSED(7, 0)},
    {JOB(GROWS, absent, QUEUE_WORDS), REFUSED(7, 0)},
    {JOB(GROWS, absent, QUEUE_VALUES), REFUSED(7, 0)},
    {JOB(GROWS, absent, QUEUE_GAINS), REFUSED(7, 0)},
    {JOB(GROWS, absent, COUNTS), REFUSED(7, 0)},
    {JOB(DEEPENS, count, 13), REFUSED(7, 0)},
    {JOB(NUMBERS_LEAVES, shorter, NUMBERS), REFUSED(7, 0)},
    {JOB(NUMBERS_LEAVES, absent, NUMBERS), REFUSED(7, 0)},
    {JOB(WRITES, shorter, SYMBOLS), REFUSED(7, 0)},
    {JOB(WRITES, absent, SYMBOLS), REFUSED(7, 0)},
    {JOB(GOES_BREADTH_FIRST, shorter, QUEUE), REFUSED(7, 0)},
    {JOB(GOES_BREADTH_FIRST, absent, QUEUE), REFUSED(7, 0)},
    {JOB(READS, shorter, NODES), REFUSED(7, 0)},
    {JOB(READS, absent, NODES), REFUSED(7, 0)},
    {JOB(SAMPLES, shorter, PICKED), REFUSED(7, 0)},
    {JOB(SAMPLES, absent, PICKED), REFUSED(7, 0)},
    /* 8, a tree: node 2 points at node 4, and node 5 is nobody's child. */
    {JOB(WANTS_TREE, count, 0), REFUSED(8, 0)},
    {JOB(WANTS_TREE, count, 4), REFUSED(8, 2)},
    {JOB(WANTS_SOUND, count, 6), REFUSED(8, 5)},
    {JOB(GOES_BREADTH_FIRST | LOOKS_UP, count, 11), REFUSED(8, 0)},
    {JOB(GOES_BREADTH_FIRST | LOOKS_UP, absent, NODES), REFUSED(8, 0)},
    {JOB(DEEPENS, seed, 8192), REFUSED(8, 0)},
    {JOB(WANTS_TREE, property, 24), REFUSED(8, 0)},
    {JOB(WANTS_TREE, child, 0), REFUSED(8, 0)},
    {JOB(WANTS_SOUND, child, 2), REFUSED(8, 0)},
    {JOB(WANTS_TREE, predictor, 14), REFUSED(8, 4)},
    {JOB(WANTS_TREE, predictor, 0x7f800001), REFUSED(8, 4)},
    /* 8, a depth: of the root, then of node 2, whose children come after it, and of leaf 4. */
    {JOB(WANTS_SOUND, root_depth, 1), REFUSED(8, 0)},
    {JOB(WANTS_SOUND, root_depth, 0xffffffff), REFUSED(8, 0)},
    {JOB(WANTS_SOUND, split_depth, 0), REFUSED(8, 2)},
    {JOB(WANTS_SOUND, split_depth, 2), REFUSED(8, 2)},
    {JOB(WANTS_SOUND, leaf_depth, 0), REFUSED(8, 4)},
    {JOB(WANTS_SOUND, leaf_depth, 1), REFUSED(8, 4)},
    {JOB(WANTS_SOUND, leaf_depth, 3), REFUSED(8, 4)},
    {JOB(WANTS_SOUND, leaf_depth, 0xffffffff), REFUSED(8, 4)},
    /* 9, the properties of a lookup. */
    {JOB(LOOKS_UP, width, 23), REFUSED(9, 0)},
    {JOB(LOOKS_UP, width, 25), REFUSED(9, 0)},
    {JOB(LOOKS_UP, absent, PROPS), REFUSED(9, 0)},
    /* 11, symbols: each one of a split and of a leaf, values, too few and too many. */
    {JOB(READS, next_context, 0), REFUSED(11, 0)},
    {JOB(READS, next_context, 1), REFUSED(11, 0)},
    {JOB(READS, next_context, 4), REFUSED(11, 0)},
    {JOB(READS, next_context, 5), REFUSED(11, 0)},
    {JOB(READS, next_context, 6), REFUSED(11, 0)},
    {JOB(READS, next_context, 7), REFUSED(11, 0)},
    {JOB(READS, next_context, 8), REFUSED(11, 0)},
    {JOB(READS, split_property, 25), REFUSED(11, 0)},
    {JOB(READS, split_property, 0xffffffff), REFUSED(11, 0)},
    {JOB(READS, leaf_predictor, 14), REFUSED(11, 0)},
    {JOB(READS, multiplier_log, 1), REFUSED(11, 0)},
    {JOB(READS, multiplier_bits, 1), REFUSED(11, 0)},
    {JOB(READS, shorter, READ_SYMBOLS), REFUSED(11, 0)},
    {JOB(READS, longer, READ_SYMBOLS), REFUSED(11, 0)},
    {JOB(READS, absent, READ_SYMBOLS), REFUSED(11, 0)},
    {JOB(READS, splits, 4096), REFUSED(11, 0)},
    /* No list at all. */
    {JOB(GROWS, nothing, 0), REFUSED(6, 0)},
    {JOB(LOOKS_UP, nothing, 0), REFUSED(9, 0)},
    {JOB(GOES_BREADTH_FIRST, nothing, 0), REFUSED(8, 0)},
    {JOB(READS, nothing, 0), REFUSED(11, 0)},
    {JOB(SAMPLES, nothing, 0), ACCEPTED(0, 0)},
    {JOB(SAMPLES, nothing, 1), REFUSED(7, 0)},
};

/* ---- what is left of the lists */

/* What acceptance does to a list: nothing; the entries that are written; all of it; zeros. */
enum fate { KEPT, WRITTEN, ALL, CLEARED };

static const enum fate grown[LISTS] = {
    [NODES] = WRITTEN,       [SPANS] = WRITTEN,        [PROPS] = ALL,           [TOK] = ALL,        [RES] = ALL,
    [QUEUE_WORDS] = CLEARED, [QUEUE_VALUES] = CLEARED, [QUEUE_GAINS] = CLEARED, [COUNTS] = CLEARED,
};
static const enum fate looked_up[LISTS] = {KEPT};
static const enum fate numbered[LISTS] = {[NUMBERS] = WRITTEN, [QUEUE] = CLEARED};
static const enum fate transmitted[LISTS] = {[SYMBOLS] = WRITTEN, [QUEUE] = CLEARED};
static const enum fate read_back[LISTS] = {[NODES] = WRITTEN};
static const enum fate sampled[LISTS] = {[PICKED] = WRITTEN};

static const enum fate *const fates[OPERATIONS] = {
    grown, grown, looked_up, numbered, transmitted, read_back, sampled};

/* A job tried with an operation and a fill, beside the same over zeros. */
struct trial {
    const struct job *job;
    const struct call *call;
    unsigned fill;
    const struct run *run, *zeroed;
};

static void fail(const struct trial *t, const char *where, const char *what) {
    printf("%s, %s, lists of ", operation_names[t->call->operation], t->job->name);
    if (t->fill == BY_TURNS)
        printf("all words by turns");
    else
        printf("%08x", (unsigned)patterns[t->fill]);
    printf(": %s: %s\n", where, what);
    exit(1);
}

/* How many bytes at a list's front are to be written. */
static size_t written_bytes(const struct trial *t, enum list list) {
    size_t entry = lists[list].entry;
    if (t->job->number != 0) return 0;
    switch (fates[t->call->operation][list]) {
    case KEPT: return 0;
    case WRITTEN: return t->job->written * entry;
    default: return list_bytes(t->call, list);
    }
}

static bool alike(const uint8_t *a, const uint8_t *b, size_t from, size_t to) {
    return from == to || memcmp(a + from, b + from, to - from) == 0;
}

static bool zeros(const void *list, size_t bytes) {
    const uint8_t *at = list;
    for (size_t k = 0; k < bytes; k++)
        if (at[k] != 0) return false;
    return true;
}

static void check_list(const struct trial *t, enum list list) {
    const void *before = t->run->before[list], *after = t->run->after[list], *zeroed = t->zeroed->after[list];
    size_t bytes = list_bytes(t->call, list), written = written_bytes(t, list);
    if (!alike(after, before, written, bytes)) fail(t, lists[list].name, "a byte changed that is not to be written");
    if (!alike(after, zeroed, 0, written)) fail(t, lists[list].name, "written otherwise than over zeros");
    bool is_cleared = t->job->number == 0 && fates[t->call->operation][list] == CLEARED;
    if (is_cleared && !zeros(after, bytes)) fail(t, lists[list].name, "not cleared");
}

static void check(const struct trial *t) {
    const uint32_t *answer = t->run->answer, *zeroed = t->zeroed->answer;
    if (answer[0] != t->job->number) fail(t, "number", "another one");
    if (answer[1] != t->job->place) fail(t, "place", "another one");
    if (answer[2] != t->job->third) fail(t, "answer", "another one");
    if (memcmp(answer, zeroed, sizeof t->run->answer) != 0) fail(t, "answer", "another one than over zeros");
    if (answer[0] != 0 && !zeros(&answer[2], 6 * sizeof *answer)) fail(t, "answer", "more than number and place");
    for (int list = 0; list < LISTS; list++) check_list(t, list);
}

static void try_job(const struct job *job, enum operation operation) {
    struct call call = plain_call(operation);
    job->change(&call, job->value);
    struct run zeroed = run(&call, ZEROS);
    for (unsigned fill = 0; fill < FILLS; fill++) {
        struct run filled = run(&call, fill);
        struct trial trial = {job, &call, fill, &filled, &zeroed};
        check(&trial);
        drop(&filled);
    }
    drop(&zeroed);
}

int main(void) {
    unsigned tried = 0, refused = 0;
    for (const struct job *job = jobs; job < jobs + sizeof jobs / sizeof *jobs; job++)
        for (int operation = 0; operation < OPERATIONS; operation++) {
            if (!(job->operations >> operation & 1)) continue;
            try_job(job, operation);
            tried++;
            refused += job->number != 0;
        }
    printf("%u jobs, %u of them refused, over lists of %d contents each\n", tried, refused, FILLS);
    return 0;
}
