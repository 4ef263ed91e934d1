//! Stored depths that a wrong rule takes for right ones, or the other way round, and those that growth gives.

use super::{draft, learn, pairs, rows_of};
use crate::depths::parent_behind;
use crate::draft::{Draft, plain_settings};
use crate::fitted;
use crate::rows::Rows;
use crate::trees::with_depths;
use stream::{Job, Record};

pub const JOBS: &[fn() -> Job] = &[
    // A leaf alone whose depth is 1: 8 in deepening, contexts and the writer, a leaf found in lookup.
    || deepening(leaf_at(1)),
    || contexts(leaf_at(1)),
    || writing(leaf_at(1)),
    || lookup(leaf_at(1)),
    // A split with two leaves, of which gt or le lies wrong: 8 for that one.
    || contexts(split_over(0, 1)),
    || contexts(split_over(1, 0)),
    || contexts(split_over(2, 1)),
    || writing(split_over(1, 2)),
    || deepening(split_over(1, u32::MAX)),
    || lookup(split_over(0, 7)),
    // The parent stands behind its child: 8 for node 2, which has none itself, where the child's depth is one more.
    || contexts(behind(6, 5)),
    || contexts(behind(5, 5)),
    || contexts(behind(0, 5)),
    // A sum that runs round would make it one more.
    || contexts(behind(0, u32::MAX)),
    || writing(behind(0, u32::MAX)),
    // The lowest node is named, whatever is wrong with it.
    || contexts(lower_and_higher()),
    || contexts(sound_tree()),
    || writing(sound_tree()),
    // Limits k and k + 1: in learning, and in deepening, where the split lies at depth 2.
    || limit(2),
    || limit(3),
    || deeper(3),
    || deeper(4),
    // A kept split and its leaves keep their depths under new numbers; the fold of another vacates two entries.
    folded_beside_a_kept_split,
];

fn leaf_at(depth: u32) -> Vec<Record> {
    vec![Record::leaf(5, 0).at_depth(depth)]
}

fn split_over(gt: u32, le: u32) -> Vec<Record> {
    vec![
        Record::split(2, 3, 1, 2),
        Record::leaf(1, 0).at_depth(gt),
        Record::leaf(2, 0).at_depth(le),
    ]
}

fn behind(child: u32, parent: u32) -> Vec<Record> {
    parent_behind([1, 2], (2, 3), child, parent)
}

/// Splits 0, 1 and 2, each on the le side of the one before. Depths do not ascend with the numbers.
fn sound_tree() -> Vec<Record> {
    with_depths(vec![
        Record::split(2, 3, 5, 1),
        Record::split(2, 1, 4, 2),
        Record::split(9, 0, 6, 3),
        Record::leaf(1, 0),
        Record::leaf(2, 0),
        Record::leaf(3, 0),
        Record::leaf(4, 0),
    ])
}

/// Node 3's depth is wrong, and there is no predictor like node 5's.
fn lower_and_higher() -> Vec<Record> {
    let mut nodes = sound_tree();
    nodes[3].depth = 1;
    nodes[5].pred = 14;
    nodes
}

/// One entry more than needed in the list of nodes, here and below, and in that of contexts.
fn contexts(nodes: Vec<Record>) -> Job {
    let mut job = fitted::contexts(nodes);
    job.nodes.entries += 1;
    job.context_entries += 1;
    Job::Contexts(job)
}

fn writing(nodes: Vec<Record>) -> Job {
    let mut job = fitted::writing(nodes);
    job.nodes.entries += 1;
    Job::WriteSymbols(job)
}

fn lookup(nodes: Vec<Record>) -> Job {
    let mut job = fitted::lookup(nodes);
    job.nodes.entries += 1;
    job.properties.fill(4);
    Job::Lookup(job)
}

fn deepening(seed: Vec<Record>) -> Job {
    let mut draft = Draft::new(plain_settings(1, 2), Rows::zeros(1));
    draft.settings.candidates = 0;
    draft.seed = seed;
    Job::Deepen(draft.fitted())
}

/// Four pairs of rows, at either limit with an entry more than three leaves take.
fn limit(leaves: u32) -> Job {
    let mut draft = draft(8, 3, pairs());
    draft.settings.limit = leaves;
    let mut job = draft.fitted();
    (job.nodes.entries, job.span_entries, job.queue_entries) = (6, 6, 3);
    Job::Learn(job)
}

/// Three leaves, of which the deepest two have rows.
fn deeper(leaves: u32) -> Job {
    let mut draft = draft(8, leaves, pairs());
    draft.seed = with_depths(vec![
        Record::split(2, 9, 1, 2),
        Record::leaf(1, 5),
        Record::split(2, 1, 3, 4),
        Record::leaf(0, 0),
        Record::leaf(0, 0),
    ]);
    let mut job = draft.fitted();
    (job.nodes.entries, job.span_entries, job.queue_entries) = (8, 8, 4);
    Job::Deepen(job)
}

/// Rows 2 to 4 cost 2.5 bits together and rows 0 and 1 cost 2, both nothing apart, at a price of 2.25.
fn folded_beside_a_kept_split() -> Job {
    let rows = [(0, 0, 1), (0, 1, 2), (5, 0, 4), (5, 1, 5), (5, 1, 5)];
    let mut draft = draft(8, 5, rows_of(&rows));
    draft.settings.price = 2.25;
    draft.settings.candidates = 4;
    learn(draft)
}
