//! A job of four rows and its answers by hand, with leaf limits 1, 2 and 3.

use stream::{Learned, Learning, NodeList, PREDICTORS, PROPERTIES, Record, Runs, Settings, Span};

/// Residuals of the four rows as they are handed in.
const RESIDUALS: [i32; 4] = [3, 3, 10, 10];
/// Entries of the lists of nodes and spans: one more than three leaves take.
const ENTRIES: u32 = 6;
const QUEUE: u32 = 4;
const COUNTS: u32 = 9;
const FILL: u32 = 7;

/// Property 0 tells rows 0 and 1 from 2 and 3, property 1 is the row's number.
fn properties(row: usize) -> [i32; PROPERTIES] {
    let mut properties = [0; PROPERTIES];
    properties[0] = if row < 2 { 5 } else { 9 };
    properties[1] = row as i32;
    properties
}

fn tokens(row: usize, zero: u8) -> [u8; PREDICTORS] {
    let mut tokens = [row as u8 + 1; PREDICTORS];
    tokens[0] = zero;
    tokens
}

/// Unpruned; residuals and modal offsets are used.
pub fn job(limit: u32) -> Learning {
    Learning {
        settings: Settings {
            alphabet: 128,
            limit,
            split_cost: 0.0,
            price: 0.0,
            smallest_node: 0,
            side_predictors: 1,
            candidates: 32,
            weighted: true,
            allowed: 1,
            modal_offsets: true,
            settling: false,
        },
        properties: (0..4).flat_map(properties).collect(),
        tokens: (0..4).flat_map(|row| tokens(row, 100)).collect(),
        residuals: RESIDUALS.to_vec(),
        logarithms: vec![0.0; 5],
        seed_count: 0,
        nodes: NodeList {
            entries: ENTRIES,
            given: Vec::new(),
        },
        span_entries: ENTRIES,
        queue_entries: QUEUE,
        count_entries: COUNTS,
        fill: FILL,
    }
}

/// The same for deepening a seed of one leaf.
pub fn deepening(limit: u32) -> Learning {
    let mut job = job(limit);
    job.seed_count = 1;
    job.nodes.given = vec![Record::leaf(0, 0)];
    job
}

/// An answer with these nodes and spans at the front of their lists, and rows in this order with their zero-predictor
/// tokens.
fn answer(nodes: &[(Record, [u32; 2])], rows: [(usize, u8); 4], bits: f64) -> Learned {
    let mut records = job(1).nodes.whole(FILL);
    let mut spans = Span::list(ENTRIES, FILL);
    for (at, &(node, [first, end])) in nodes.iter().enumerate() {
        (records[at], spans[at]) = (node, Span { first, end });
    }
    Learned {
        number: 0,
        place: 0,
        node_count: nodes.len() as u32,
        leaf_count: nodes.len() as u32 / 2 + 1,
        estimated_bits: bits,
        flat_bits: 9.0,
        nodes: records,
        spans,
        properties: rows.iter().flat_map(|&(row, _)| properties(row)).collect(),
        tokens: rows
            .iter()
            .flat_map(|&(row, zero)| tokens(row, zero))
            .collect(),
        residuals: rows.iter().map(|&(row, _)| RESIDUALS[row]).collect(),
        queue: Runs::of(0, QUEUE),
        counts: Runs::of(0, COUNTS),
    }
}

/// A split with what stands beside it.
fn split(prop: u32, val: i32, gt: u32, leaf: Record) -> Record {
    Record {
        cost: leaf.cost,
        pred: leaf.pred,
        offset: leaf.offset,
        depth: leaf.depth,
        ..Record::split(prop, val, gt, gt + 1)
    }
}

fn leaf(offset: i32, cost: f32) -> Record {
    Record::leaf(0, offset).with_cost(cost)
}

/// Limit 1: a leaf, whose mode is 3.
pub fn one_leaf() -> Learned {
    let rows = [(0, 0), (1, 0), (2, 14), (3, 14)];
    answer(&[(leaf(3, 8.0), [0, 4])], rows, 8.0)
}

/// Limit 2: rows 2 and 3 go to the front.
pub fn two_leaves() -> Learned {
    let nodes = [
        (split(0, 5, 1, leaf(3, 8.0)), [0, 4]),
        (leaf(10, 1.0).at_depth(1), [0, 2]),
        (leaf(3, 2.0).at_depth(1), [2, 4]),
    ];
    answer(&nodes, [(2, 0), (3, 0), (0, 0), (1, 0)], 3.0)
}

/// Limit 3: the leaf of rows 0 and 1 is split too.
pub fn three_leaves() -> Learned {
    let nodes = [
        (split(0, 5, 1, leaf(3, 8.0)), [0, 4]),
        (leaf(10, 1.0).at_depth(1), [0, 2]),
        (split(1, 0, 3, leaf(3, 2.0).at_depth(1)), [2, 4]),
        (leaf(3, 0.5).at_depth(2), [2, 3]),
        (leaf(3, 0.5).at_depth(2), [3, 4]),
    ];
    answer(&nodes, [(2, 0), (3, 0), (1, 0), (0, 0)], 2.0)
}

/// Two leaves folded into one by pruning: two entries are vacated, and the tokens are the two leaves' still.
pub fn folded() -> Learned {
    let nodes = [
        (leaf(3, 8.0), [0, 4]),
        (Record::BLANK, [0, 0]),
        (Record::BLANK, [0, 0]),
    ];
    let rows = [(2, 0), (3, 0), (0, 0), (1, 0)];
    Learned {
        node_count: 1,
        leaf_count: 1,
        ..answer(&nodes, rows, 8.0)
    }
}

/// The same, settled.
pub fn settled() -> Learned {
    let mut answer = folded();
    for place in [0, 1] {
        answer.tokens[PREDICTORS * place] = 14;
    }
    answer
}

/// Refusal 5: every list as it was.
pub fn refused(job: &Learning) -> Learned {
    Learned {
        number: 5,
        place: 0,
        node_count: 0,
        leaf_count: 0,
        estimated_bits: 0.0,
        flat_bits: 0.0,
        nodes: job.nodes.whole(job.fill),
        spans: Span::list(job.span_entries, job.fill),
        properties: job.properties.clone(),
        tokens: job.tokens.clone(),
        residuals: job.residuals.clone(),
        queue: Runs::of(job.fill, job.queue_entries),
        counts: Runs::of(job.fill, job.count_entries),
    }
}
