/*
 * Answers a job stream (standard input) through the C interface, on standard output, for comparison with the oracle
 * byte for byte. It has the public operations, kinds 1 to 8, 32 and 33, and a stream's version message, kind 30, which
 * comes first. Every list goes into an answer whole, filled beforehand as the job says.
 */
#include "ostrovuc.h"
#include "wire.h"

/* What a queue entry prints as that is neither zero nor untouched. */
#define OTHER UINT32_C(4294967294)

enum kind {
    LEARN = 1, DEEPEN, LOOKUP, CONTEXTS, SAMPLING, PACK, TOKEN, VALUE,
    VERSION = 30,
    WRITE_SYMBOLS = 32, READ_SYMBOLS
};

/* The state of this format: the base with so many of the requests that came after it. */
#define STATE UINT32_C(5)

/* What is wrong with a stream that does not begin with a version message: its records have no depth. */
static const char no_version[] = "a stream without a version message, which is of state 0";

static uint32_t *filled(size_t length, uint32_t fill) {
    uint32_t *list = new_list(length, sizeof *list);
    for (size_t i = 0; i < length; i++) list[i] = fill;
    return list;
}

/* ---- nodes */

static ostrovuc_ma_node read_node(struct reader *from) {
    ostrovuc_ma_node node;
    node.kind = read_word(from);
    node.prop = read_word(from);
    node.val = (int32_t)read_word(from);
    node.gt = read_word(from);
    node.le = read_word(from);
    node.info.cost = read_single(from);
    node.info.pred = read_word(from);
    node.info.offset = (int32_t)read_word(from);
    node.depth = read_word(from);
    return node;
}

static void write_node(struct writer *to, const ostrovuc_ma_node *node) {
    write_word(to, node->kind);
    write_word(to, node->prop);
    write_word(to, (uint32_t)node->val);
    write_word(to, node->gt);
    write_word(to, node->le);
    write_bytes(to, &node->info.cost, sizeof node->info.cost);
    write_word(to, node->info.pred);
    write_word(to, (uint32_t)node->info.offset);
    write_word(to, node->depth);
}

static void write_nodes(struct writer *to, const ostrovuc_ma_node *nodes, size_t length) {
    write_word(to, (uint32_t)length);
    for (size_t i = 0; i < length; i++) write_node(to, &nodes[i]);
}

/* What an entry holds beforehand where the job gives none. */
static ostrovuc_ma_node pattern(uint32_t v) {
    ostrovuc_ma_node node = {.kind = v % 2, .prop = v % 24, .val = (int32_t)v, .gt = v, .le = v, .depth = v};
    uint32_t cost = v & UINT32_C(0x3fffffff);
    memcpy(&node.info.cost, &cost, sizeof cost);
    node.info.pred = v % 14;
    node.info.offset = (int32_t)v;
    return node;
}

/* A lent node list: how many entries, and those at its front. */
struct nodes {
    ostrovuc_ma_node *list;
    size_t length;
    size_t given;
};

static struct nodes read_nodes(struct reader *from) {
    struct nodes nodes;
    nodes.length = read_word(from);
    nodes.given = read_word(from);
    if (nodes.given > nodes.length || nodes.given > from->left / sizeof *nodes.list)
        damaged("more nodes given than there is room for");
    nodes.list = new_list(nodes.length, sizeof *nodes.list);
    for (size_t i = 0; i < nodes.given; i++) nodes.list[i] = read_node(from);
    return nodes;
}

/* The fill comes later in a job than its nodes. */
static void fill_nodes(struct nodes *nodes, uint32_t fill) {
    for (size_t i = nodes->given; i < nodes->length; i++) nodes->list[i] = pattern(fill + (uint32_t)i);
}

/* ---- learning and deepening */

struct learning {
    ostrovuc_settings settings;
    int32_t *props, *res, *queue_values;
    uint8_t *tok;
    float *logs, *queue_gains;
    ostrovuc_span *spans;
    uint32_t *queue_words, *counts;
    size_t props_length, tok_length, res_length, logs_length, span_entries, queue_entries, counts_length;
    uint32_t seed_count, fill;
    struct nodes nodes;
};

static ostrovuc_settings read_settings(struct reader *from) {
    ostrovuc_settings s;
    s.alphabet = read_word(from);
    s.max_leaves = read_word(from);
    s.split_cost_bits = read_single(from);
    s.prune_leaf_bits = read_single(from);
    s.min_node = read_word(from);
    s.side_preds = read_word(from);
    s.max_candidates = read_word(from);
    s.allow_wp = read_up_to(from, 1);
    s.allowed_preds = (uint16_t)read_up_to(from, UINT16_MAX);
    s.modal_offsets = read_up_to(from, 1);
    s.settle = read_up_to(from, 1);
    return s;
}

static struct learning read_learning(struct reader *from) {
    struct learning job;
    job.settings = read_settings(from);
    job.props = read_list(from, sizeof *job.props, &job.props_length);
    job.tok = read_list(from, sizeof *job.tok, &job.tok_length);
    job.res = read_list(from, sizeof *job.res, &job.res_length);
    job.logs = read_list(from, sizeof *job.logs, &job.logs_length);
    job.seed_count = read_word(from);
    job.nodes = read_nodes(from);
    job.span_entries = read_word(from);
    job.queue_entries = read_word(from);
    job.counts_length = read_word(from);
    job.fill = read_word(from);
    return job;
}

/* Makes the lists that a job names by their length alone. */
static void fill_lists(struct learning *job) {
    fill_nodes(&job->nodes, job->fill);
    job->spans = new_list(job->span_entries, sizeof *job->spans);
    for (size_t i = 0; i < job->span_entries; i++) {
        job->spans[i].first = job->fill + (uint32_t)i;
        job->spans[i].end = job->fill + (uint32_t)i + 1;
    }
    job->queue_words = filled(OSTROVUC_QUEUE_WORDS * job->queue_entries, job->fill);
    job->queue_values = new_list(job->queue_entries, sizeof *job->queue_values);
    job->queue_gains = new_list(job->queue_entries, sizeof *job->queue_gains);
    for (size_t i = 0; i < job->queue_entries; i++) {
        memcpy(&job->queue_values[i], &job->fill, sizeof job->fill);
        memcpy(&job->queue_gains[i], &job->fill, sizeof job->fill);
    }
    job->counts = filled(job->counts_length, job->fill);
}

static void drop_learning(struct learning *job) {
    void *lists[] = {job->props, job->tok, job->res, job->logs, job->nodes.list, job->spans, job->queue_words, job->queue_values, job->queue_gains, job->counts};
    for (size_t i = 0; i < sizeof lists / sizeof *lists; i++) free(lists[i]);
}

static ostrovuc_learned_tree run_learning(struct learning *job, bool deepens) {
    struct learning *j = job;
    if (deepens)
        return ostrovuc_deepen(
            j->nodes.list, j->nodes.length, j->spans, j->span_entries, j->settings, j->seed_count, j->logs,
            j->logs_length, j->props, j->props_length, j->tok, j->tok_length, j->res, j->res_length, j->queue_words,
            OSTROVUC_QUEUE_WORDS * j->queue_entries, j->queue_values, j->queue_entries, j->queue_gains,
            j->queue_entries, j->counts, j->counts_length);
    return ostrovuc_learn(
        j->nodes.list, j->nodes.length, j->spans, j->span_entries, j->settings, j->logs, j->logs_length, j->props,
        j->props_length, j->tok, j->tok_length, j->res, j->res_length, j->queue_words,
        OSTROVUC_QUEUE_WORDS * j->queue_entries, j->queue_values, j->queue_entries, j->queue_gains, j->queue_entries,
        j->counts, j->counts_length);
}

/* A queue entry is 0 or untouched only if it is in all its parts. */
static uint32_t printed_entry(const struct learning *job, size_t i) {
    enum { WORDS = OSTROVUC_QUEUE_WORDS, PARTS = WORDS + 2 };
    uint32_t parts[PARTS];
    memcpy(parts, &job->queue_words[WORDS * i], WORDS * sizeof *parts);
    memcpy(&parts[WORDS], &job->queue_values[i], sizeof *parts);
    memcpy(&parts[WORDS + 1], &job->queue_gains[i], sizeof *parts);
    bool zero = true, untouched = true;
    for (size_t k = 0; k < PARTS; k++) {
        zero = zero && parts[k] == 0;
        untouched = untouched && parts[k] == job->fill;
    }
    return zero ? 0 : untouched ? job->fill : OTHER;
}

static void write_lists(struct writer *to, const struct learning *job) {
    write_nodes(to, job->nodes.list, job->nodes.length);
    write_list(to, job->spans, sizeof *job->spans, job->span_entries);
    write_list(to, job->props, sizeof *job->props, job->props_length);
    write_list(to, job->tok, sizeof *job->tok, job->tok_length);
    write_list(to, job->res, sizeof *job->res, job->res_length);
    uint32_t *queue = new_list(job->queue_entries, sizeof *queue);
    for (size_t i = 0; i < job->queue_entries; i++) queue[i] = printed_entry(job, i);
    write_runs(to, queue, job->queue_entries);
    free(queue);
    write_runs(to, job->counts, job->counts_length);
}

static void answer_learning(struct reader *from, struct writer *to, bool deepens) {
    struct learning job = read_learning(from);
    if (!deepens && job.seed_count != 0) damaged("learning takes no seed");
    fill_lists(&job);
    ostrovuc_learned_tree tree = run_learning(&job, deepens);
    write_word(to, tree.number);
    write_word(to, tree.place);
    write_word(to, tree.nodes);
    write_word(to, tree.leaves);
    write_double(to, tree.bits);
    write_double(to, tree.flat);
    write_lists(to, &job);
    drop_learning(&job);
}

/* ---- the other operations */

static void write_count(struct writer *to, ostrovuc_count counted) {
    write_word(to, counted.number);
    write_word(to, counted.place);
    write_word(to, counted.count);
}

/* A queue of words, each as zero, untouched or neither. */
static void write_queue(struct writer *to, uint32_t *queue, size_t length, uint32_t fill) {
    for (size_t i = 0; i < length; i++)
        if (queue[i] != 0 && queue[i] != fill) queue[i] = OTHER;
    write_runs(to, queue, length);
}

static void answer_lookup(struct reader *from, struct writer *to) {
    uint32_t count = read_word(from);
    struct nodes nodes = read_nodes(from);
    fill_nodes(&nodes, read_word(from));
    size_t length;
    int32_t *props = read_list(from, sizeof *props, &length);
    ostrovuc_leaf found = ostrovuc_lookup(nodes.list, nodes.length, count, props, length);
    write_word(to, found.number);
    write_word(to, found.place);
    write_word(to, found.leaf);
    write_word(to, found.pred);
    free(nodes.list);
    free(props);
}

static void answer_contexts(struct reader *from, struct writer *to) {
    uint32_t count = read_word(from);
    struct nodes nodes = read_nodes(from);
    uint32_t fill = read_word(from);
    fill_nodes(&nodes, fill);
    size_t context_entries = read_word(from), queue_entries = read_word(from);
    uint32_t *contexts = filled(context_entries, fill), *queue = filled(queue_entries, fill);
    ostrovuc_count counted = ostrovuc_leaf_contexts(nodes.list, nodes.length, count, contexts, context_entries, queue, queue_entries);
    write_count(to, counted);
    write_list(to, contexts, sizeof *contexts, context_entries);
    write_queue(to, queue, queue_entries, fill);
    free(nodes.list);
    free(contexts);
    free(queue);
}

static void answer_sampling(struct reader *from, struct writer *to) {
    uint64_t rows = read_long(from), target = read_long(from);
    size_t length = read_word(from);
    uint32_t *out = filled(length, read_word(from));
    ostrovuc_count picked = ostrovuc_evenly_sampled_indices(rows, target, out, length);
    write_count(to, picked);
    write_list(to, out, sizeof *out, length);
    free(out);
}

static void answer_pack(struct reader *from, struct writer *to) {
    uint32_t length = read_word(from);
    write_word(to, length);
    for (uint32_t i = 0; i < length; i++) write_word(to, ostrovuc_pack_signed((int32_t)read_word(from)));
}

static void answer_token(struct reader *from, struct writer *to) {
    uint32_t length = read_word(from);
    write_word(to, length);
    for (uint32_t i = 0; i < length; i++) {
        ostrovuc_encoding encoding = ostrovuc_uint_encode(read_word(from));
        write_word(to, encoding.token);
        write_word(to, encoding.extra_count);
        write_word(to, encoding.extra_bits);
    }
}

static void answer_value(struct reader *from, struct writer *to) {
    uint32_t length = read_word(from);
    write_word(to, length);
    for (uint32_t i = 0; i < length; i++) {
        uint32_t token = read_word(from), extra = read_word(from);
        ostrovuc_read read = ostrovuc_token_value(token, extra);
        write_word(to, read.number);
        write_word(to, read.place);
        write_word(to, read.value);
    }
}

static void answer_write_symbols(struct reader *from, struct writer *to) {
    uint32_t count = read_word(from);
    struct nodes nodes = read_nodes(from);
    uint32_t fill = read_word(from);
    fill_nodes(&nodes, fill);
    size_t symbol_entries = read_word(from), queue_entries = read_word(from);
    ostrovuc_symbol *symbols = new_list(symbol_entries, sizeof *symbols);
    for (size_t i = 0; i < symbol_entries; i++) {
        symbols[i].context = fill + (uint32_t)i;
        symbols[i].value = fill + (uint32_t)i + 1;
    }
    uint32_t *queue = filled(queue_entries, fill);
    ostrovuc_count written =
        ostrovuc_write_symbols(nodes.list, nodes.length, count, symbols, symbol_entries, queue, queue_entries);
    write_count(to, written);
    write_list(to, symbols, sizeof *symbols, symbol_entries);
    write_queue(to, queue, queue_entries, fill);
    free(nodes.list);
    free(symbols);
    free(queue);
}

static void answer_read_symbols(struct reader *from, struct writer *to) {
    size_t length;
    ostrovuc_symbol *symbols = read_list(from, sizeof *symbols, &length);
    struct nodes nodes = {.length = read_word(from)};
    nodes.list = new_list(nodes.length, sizeof *nodes.list);
    fill_nodes(&nodes, read_word(from));
    ostrovuc_count read = ostrovuc_read_symbols(symbols, length, nodes.list, nodes.length);
    write_count(to, read);
    write_nodes(to, nodes.list, nodes.length);
    free(symbols);
    free(nodes.list);
}

static void answer(uint32_t kind, struct reader *from, struct writer *to) {
    switch (kind) {
    case LEARN: answer_learning(from, to, false); break;
    case DEEPEN: answer_learning(from, to, true); break;
    case LOOKUP: answer_lookup(from, to); break;
    case CONTEXTS: answer_contexts(from, to); break;
    case SAMPLING: answer_sampling(from, to); break;
    case PACK: answer_pack(from, to); break;
    case TOKEN: answer_token(from, to); break;
    case VALUE: answer_value(from, to); break;
    case WRITE_SYMBOLS: answer_write_symbols(from, to); break;
    case READ_SYMBOLS: answer_read_symbols(from, to); break;
    case VERSION: damaged("a version message that is not the first"); break;
    default: damaged("a job of a kind other than 1 to 8, 32 and 33");
    }
}

/*
 * Answers the stream's first message, which says what state the stream is of; tells whether what follows is to be
 * answered.
 */
static bool greets(uint32_t kind, struct reader *from, struct writer *to) {
    if (kind != VERSION) damaged(no_version);
    write_word(to, STATE);
    return read_word(from) == STATE;
}

int main(void) {
    struct writer to = {NULL, 0, 0};
    uint32_t kind, length;
    uint8_t *body;
    bool first = true, goes_on = true;
    while (goes_on && (body = next_message(&kind, &length)) != NULL) {
        struct reader from = {body, length};
        to.length = 0;
        if (first)
            goes_on = greets(kind, &from, &to);
        else
            answer(kind, &from, &to);
        if (from.left != 0) damaged("a message has bytes too many");
        put_message(kind, &to);
        free(body);
        first = false;
    }
    if (first) damaged(no_version);
    free(to.bytes);
    if (fflush(stdout) != 0) {
        perror("jobs");
        return 1;
    }
    return 0;
}
