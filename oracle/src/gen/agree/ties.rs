//! Waiting leaves whose gains and rows are chosen: in which order growth takes them.

use super::draft;
use crate::logs;
use crate::rows::Rows;
use crate::trees::with_depths;
use stream::{Job, Record};

pub const JOBS: &[fn() -> Job] = &[
    // The larger leaf has the lower number, and its span comes first.
    || deepening(&[leaf(1, 2, 4), leaf(1, 1, 4)], 1),
    // More rows and less gain.
    || deepening(&[leaf(1, 1, 4), leaf(2, 2, 2)], 1),
    || deepening(&[leaf(2, 2, 2), leaf(1, 1, 4)], 1),
    // As many rows, but other numbers of them above and below.
    || deepening(&[leaf(2, 1, 4), leaf(1, 2, 4), leaf(2, 1, 4)], 2),
    // The largest leaf is neither the first nor the last, and the last lies less deep.
    || deepening(&[leaf(1, 1, 4), leaf(1, 2, 4), leaf(1, 1, 4)], 2),
    // A new leaf has more rows than an old one, or fewer than an old one but for those of its parent.
    || deepening(&[leaf(1, 1, 4), two_splits(3, 1)], 2),
    || deepening(&[leaf(1, 2, 4), two_splits(2, 2)], 2),
];

/// Properties 9 and 10, and the tokens of predictors 0 and 1. Costs are extra bits alone.
#[derive(Clone)]
struct Row([i32; 2], [u8; 2]);

/// The token that costs so many bits.
const fn costing(bits: u8) -> u8 {
    4 * (bits + 2)
}

/// A leaf with so many rows above and below the threshold of what it offers, which gains so many bits: they are what
/// either predictor costs, and each side has a predictor that costs nothing.
fn leaf(above: usize, below: usize, gain: u8) -> Vec<Row> {
    let mut rows = [
        vec![Row([1, 0], [0, 0]); above],
        vec![Row([0, 0], [0, 0]); below],
    ]
    .concat();
    rows[0].1 = [costing(gain), 0];
    rows[above].1 = [0, costing(gain)];
    rows
}

/// A leaf whose split gains 5 bits; what it has above can then be split for 4, by property 10.
fn two_splits(above: usize, below: usize) -> Vec<Row> {
    let mut rows = leaf(above, below, 0);
    rows[0] = Row([1, 1], [costing(4), 0]);
    rows[1] = Row([1, 0], [0, costing(9)]);
    rows[above].1 = [costing(5), 0];
    rows
}

/// A seed with these leaves, in the order of their numbers, and so many splits more. Property 2 counts the leaves from
/// the last.
fn deepening(leaves: &[Vec<Row>], splits: u32) -> Job {
    let rows: Vec<(i32, &Row)> = (0..)
        .zip(leaves.iter().rev())
        .flat_map(|(from_last, leaf)| leaf.iter().map(move |row| (from_last, row)))
        .collect();
    let mut made = Rows::zeros(rows.len());
    made.set_column(2, |at| rows[at].0);
    made.set_column(9, |at| rows[at].1.0[0]);
    made.set_column(10, |at| rows[at].1.0[1]);
    for (tokens, (_, row)) in made.tokens.iter_mut().zip(&rows) {
        tokens[..2].copy_from_slice(&row.1);
    }
    let mut draft = draft(45, leaves.len() as u32 + splits, made);
    draft.settings.side_predictors = 2;
    draft.logs = logs::zero(rows.len());
    draft.seed = chain(leaves.len() as i32 - 1);
    Job::Deepen(draft.fitted())
}

/// So many splits of property 2, each on the gt side of the one before, and then the leaves, the deepest first.
fn chain(splits: i32) -> Vec<Record> {
    let split = |at: i32| Record::split(2, at, at as u32 + 1, (2 * splits - at) as u32);
    let mut nodes: Vec<Record> = (0..splits).map(split).collect();
    nodes.resize(2 * nodes.len() + 1, Record::leaf(0, 0));
    with_depths(nodes)
}
