//! Reads out what the learner keeps to itself. This is the only module that
//! the patch adds to the original, as a child of `ma_tree`, so that it sees
//! private parts without making them public.

use super::*;
use stream::{Record, ScoreJob, Settings, Span};

/// A tree with what stands beside its nodes.
pub(crate) struct Tree {
    pub(crate) nodes: Vec<Record>,
    pub(crate) spans: Vec<Span>,
    /// How many entries growth wrote, before pruning vacated some.
    pub(crate) written: usize,
    pub(crate) estimated_bits: f64,
    pub(crate) flat_bits: f64,
}

impl Tree {
    fn of(tree: LearnedTree) -> Self {
        Self {
            nodes: records(&tree.nodes, &tree.info),
            spans: tree.info.iter().map(span_of).collect(),
            written: tree.grown,
            estimated_bits: tree.est_bits,
            flat_bits: tree.flat_bits,
        }
    }
}

pub(crate) fn learn(
    samples: &mut MaSamples,
    settings: &Settings,
    scratch: &mut CoderScratch,
) -> Tree {
    renew_logs(scratch);
    Tree::of(learn_ma_tree_in_place(
        samples,
        params_of(settings),
        &ThreadPool,
        scratch,
    ))
}

pub(crate) fn deepen(
    samples: MaSamples,
    settings: &Settings,
    seed: &[Record],
    scratch: &mut CoderScratch,
) -> (Tree, MaSamples) {
    renew_logs(scratch);
    let params = params_of(settings);
    let (tree, samples) = deepen_ma_tree(samples, params, tree_of(seed), &ThreadPool, scratch);
    (Tree::of(tree), samples)
}

/// The settings that the original has: settling is document 01's addition.
fn params_of(s: &Settings) -> MaLearnParams {
    MaLearnParams {
        alphabet: s.alphabet as usize,
        max_leaves: s.limit as usize,
        split_cost_bits: s.split_cost,
        min_node: s.smallest_node as usize,
        allow_wp: s.weighted,
        allowed_preds: s.allowed,
        side_preds: s.side_predictors as usize,
        max_candidates: s.candidates as usize,
        modal_offsets: s.modal_offsets,
        prune_leaf_bits: s.price,
    }
}

/// The original keeps the first job's logarithms of counts below 4,096 for ever
/// (`count_log2_table`). Here they are part of the scratch, and made anew.
fn renew_logs(scratch: &mut CoderScratch) {
    for (count, log) in scratch.ma_property.logs.iter_mut().enumerate() {
        *log = dirty_log2f(count as f32);
    }
}

/// A tree as the original holds it, with nothing learned about it.
pub(crate) fn tree_of(nodes: &[Record]) -> LearnedTree {
    LearnedTree {
        nodes: nodes.iter().map(node_of).collect(),
        est_bits: 0.0,
        flat_bits: 0.0,
        info: Vec::new(),
        grown: nodes.len(),
    }
}

/// The mode step: rewrites the zero-predictor tokens and gives the mode.
pub(crate) fn mode_step(
    tokens: &mut [[u8; NUM_MA_PREDS]],
    residuals: &[i32],
    scratch: &mut CoderScratch,
) -> i32 {
    rebase_zero(tokens, residuals, &mut scratch.ma_property.multi_bin_count)
}

/// The candidate thresholds of a column.
pub(crate) fn candidates(column: &[i32], limit: usize, scratch: &mut CoderScratch) -> Vec<i32> {
    let rows: Vec<_> = column.iter().map(|&v| [v; NUM_MA_PROPS]).collect();
    let scratch = &mut scratch.ma_property;
    match pick_candidates(&rows, 0, limit, scratch) {
        0 => Vec::new(),
        _ => scratch.cands.clone(),
    }
}

/// Sorts probed values and drops repeats. Where 32 or more lie within 4,096 that is a walk over marks: the place of a
/// value's mark is its distance from the lowest.
pub(crate) fn sort_unique(probe: &mut Vec<i32>, scratch: &mut CoderScratch) {
    sort_unique_probe(probe, &mut scratch.ma_property.probe_bitmap);
}

/// Moves what lies above the threshold to the front and counts it.
pub(crate) fn partition(column: &mut [i32], threshold: i32) -> usize {
    partition_by(column, |&v| v > threshold, |_, _| {})
}

/// The same on the learner's rows, for the benchmark.
pub(crate) fn partition_rows(
    samples: &mut MaSamples,
    start: usize,
    end: usize,
    prop: u8,
    threshold: i32,
) -> usize {
    samples.partition(start, end, prop, threshold)
}

/// The candidate thresholds over the learner's rows, for the benchmark.
pub(crate) fn candidates_of_rows<'a>(
    rows: &[[i32; NUM_MA_PROPS]],
    prop: usize,
    limit: usize,
    scratch: &'a mut CoderScratch,
) -> &'a [i32] {
    let scratch = &mut scratch.ma_property;
    let found = pick_candidates(rows, prop, limit, scratch);
    &scratch.cands[..found]
}

/// Counts the tokens of a node's rows as `node_cost_all` does, for the benchmark.
pub(crate) fn count_tokens(hist: &mut [u32], alphabet: usize, tokens: &[[u8; NUM_MA_PREDS]]) {
    for row in tokens {
        count_predictor_tokens(hist, alphabet, row);
    }
}

/// The entropy of a histogram, for the benchmark.
pub(crate) fn entropy(hist: &[u32], total: u32) -> f32 {
    hist_entropy_bits(hist, total)
}

/// The best threshold among a job's own candidates, with its cost.
pub(crate) fn score(job: &ScoreJob, scratch: &mut CoderScratch) -> Option<(i32, f32)> {
    let rows: Vec<_> = job.column.iter().map(|&v| [v; NUM_MA_PROPS]).collect();
    let (tokens, _) = job.tokens.as_chunks();
    let preds: Vec<_> = job.side_predictors.iter().map(|&p| p as usize).collect();
    let mut scoring = Scoring::of_node(tokens, &preds, job.alphabet as usize, scratch);
    scoring.propose(&job.candidates);
    scoring.score(&rows, tokens, &mut Vec::new(), scratch)
}

/// One property planned for scoring: what the original makes once a node.
pub(crate) struct Scoring {
    plan: SplitPlan,
    luts: Vec<u8>,
    preds: Vec<usize>,
    alphabet: usize,
    window: SymbolWindow,
    node: Vec<u32>,
    extra_bits: [u64; NUM_MA_PREDS],
}

impl Scoring {
    /// For the benchmark. `None` if the property has no candidates. Without tables each value's bin is searched for.
    pub(crate) fn of(
        rows: &[[i32; NUM_MA_PROPS]],
        tokens: &[[u8; NUM_MA_PREDS]],
        prop: usize,
        preds: &[usize],
        alphabet: usize,
        tables: bool,
        scratch: &mut CoderScratch,
    ) -> Option<Self> {
        let mut scoring = Self::of_node(tokens, preds, alphabet, scratch);
        let stride = scoring.window.bin_stride;
        let scratch = &mut scratch.ma_property;
        let luts = &mut scoring.luts;
        scoring.plan = plan_split(rows, prop, MAX_CANDIDATES, stride, 0, luts, scratch)?;
        scoring.plan.use_lut &= tables;
        Some(scoring)
    }

    /// The node's counts and windows; property 0, and no candidates yet.
    fn of_node(
        tokens: &[[u8; NUM_MA_PREDS]],
        preds: &[usize],
        alphabet: usize,
        scratch: &mut CoderScratch,
    ) -> Self {
        renew_logs(scratch);
        scratch.ma_property.prepare(alphabet);
        let mut node = vec![0; NUM_MA_PREDS * alphabet];
        count_tokens(&mut node, alphabet, tokens);
        let mut extra_bits = [0; NUM_MA_PREDS];
        for (bits, hist) in extra_bits.iter_mut().zip(node.chunks_exact(alphabet)) {
            *bits = raw_bits_from_hist(hist);
        }
        let window = SymbolWindow::new(preds, alphabet, &node);
        Self {
            plan: no_plan(window.bin_stride),
            luts: Vec::new(),
            preds: preds.to_vec(),
            alphabet,
            window,
            node,
            extra_bits,
        }
    }

    /// Takes other candidates than the original picks.
    fn propose(&mut self, candidates: &[i32]) {
        self.plan.cands[..candidates.len()].copy_from_slice(candidates);
        self.plan.ncand = candidates.len() as u8;
    }

    pub(crate) fn candidates(&self) -> &[i32] {
        &self.plan.cands[..self.plan.ncand as usize]
    }

    pub(crate) fn node(&self) -> &[u32] {
        &self.node
    }

    /// The scan of the rows, then the walk over the candidates.
    pub(crate) fn score(
        &self,
        rows: &[[i32; NUM_MA_PROPS]],
        tokens: &[[u8; NUM_MA_PREDS]],
        bins: &mut Vec<u32>,
        scratch: &mut CoderScratch,
    ) -> Option<(i32, f32)> {
        bins.clear();
        bins.resize(self.plan.hist_len(), 0);
        let plan = std::slice::from_ref(&self.plan);
        scan_split_plans(
            rows,
            tokens,
            plan,
            &self.luts,
            &self.preds,
            &self.window,
            bins,
        );
        score_split_plan(
            &self.plan,
            &self.preds,
            self.alphabet,
            &self.window,
            bins,
            &self.node,
            &self.extra_bits,
            rows.len() as u32,
            &mut scratch.ma_property,
        )
    }
}

/// A plan without candidates, in which each value's bin is searched for.
fn no_plan(bin_stride: usize) -> SplitPlan {
    SplitPlan {
        prop: 0,
        ncand: 0,
        use_lut: false,
        lo_v: 0,
        hi_v: 0,
        lut_start: 0,
        hist_start: 0,
        bin_stride: bin_stride as u32,
        cands: [0; MAX_CANDIDATES],
    }
}

/// Prunes a tree at any price. Gives the estimated bits.
pub(crate) fn prune(nodes: &mut Vec<Record>, spans: &mut Vec<Span>, price: f32) -> f64 {
    let mut tree: Vec<_> = nodes.iter().map(node_of).collect();
    let mut info: Vec<_> = nodes.iter().zip(&*spans).map(info_of).collect();
    let bits = prune_tree(&mut tree, &mut info, price);
    *nodes = records(&tree, &info);
    *spans = info.iter().map(span_of).collect();
    bits
}

fn node_of(record: &Record) -> MaNode {
    if record.is_split() {
        MaNode::Split {
            prop: record.prop as u8,
            val: record.val,
            gt: record.gt,
            le: record.le,
        }
    } else {
        MaNode::Leaf {
            pred: record.pred,
            offset: record.offset,
        }
    }
}

fn info_of((record, span): (&Record, &Span)) -> NodeInfo {
    NodeInfo {
        base_bits: f32::from_bits(record.cost),
        pred: record.pred,
        offset: record.offset,
        span: (span.first as usize, span.end as usize),
    }
}

fn records(nodes: &[MaNode], info: &[NodeInfo]) -> Vec<Record> {
    assert_eq!(nodes.len(), info.len());
    nodes.iter().zip(info).map(record_of).collect()
}

fn record_of((node, info): (&MaNode, &NodeInfo)) -> Record {
    let record = match *node {
        MaNode::Split { prop, val, gt, le } => Record {
            pred: info.pred,
            offset: info.offset,
            ..Record::split(prop.into(), val, gt, le)
        },
        MaNode::Leaf { pred, offset } => {
            // Stored twice in the original, once in the answer.
            assert_eq!((pred, offset), (info.pred, info.offset));
            Record::leaf(pred, offset)
        }
    };
    record.with_cost(info.base_bits)
}

fn span_of(info: &NodeInfo) -> Span {
    Span {
        first: info.span.0 as u32,
        end: info.span.1 as u32,
    }
}
