//! Demand 3's first half: two accepted unpruned runs that differ only in the leaf limit, k and k + 1, have answers
//! alike in everything, or in everything but one more split.

use crate::rules::{Rows, places};
use crate::runs::{is_unpruned, tree, uses_modes};
use crate::{Checked, Run, ensure};
use stream::{Answer, Job, Learned, Learning, Record, Span};

/// What became of a pair.
pub enum Pair {
    Alike,
    /// By one more split.
    Split,
    /// One of the two was refused: nothing is due.
    Half,
}

/// None if the two are no such pair, or both refused.
pub fn check(first: &Run, second: &Run) -> Checked<Option<Pair>> {
    if first.deepens != second.deepens || !is_pair(&first.job, &second.job) {
        return Ok(None);
    }
    match (first.answer.number, second.answer.number) {
        (0, 0) => {}
        (0, _) | (_, 0) => return Ok(Some(Pair::Half)),
        _ => return Ok(None),
    }
    if alike(&first.answer, &second.answer) {
        return Ok(Some(Pair::Alike));
    }
    let checked = differ_by_one_split(&first.job, &first.answer, &second.answer);
    checked.map_err(|what| format!("k + 1: {what}"))?;
    Ok(Some(Pair::Split))
}

fn is_pair(first: &Learning, second: &Learning) -> bool {
    if !is_unpruned(first) || first.settings.limit.checked_add(1) != Some(second.settings.limit) {
        return false;
    }
    // As they travel: NaN is like itself, and 0 is not -0.
    let mut raised = first.clone();
    raised.settings.limit = second.settings.limit;
    Job::Deepen(raised).message().body == Job::Deepen(second.clone()).message().body
}

/// Alike in everything, bit for bit.
fn alike(first: &Learned, second: &Learned) -> bool {
    let body = |answer: &Learned| Answer::Learned(answer.clone()).message().body;
    body(first) == body(second)
}

/// Alike in everything but what one split changes.
fn differ_by_one_split(job: &Learning, first: &Learned, second: &Learned) -> Checked {
    let flat = |answer: &Learned| answer.flat_bits.to_bits();
    let parts = [
        ("place", first.place == second.place),
        ("flat bits", flat(first) == flat(second)),
        ("queue", first.queue == second.queue),
        ("count space", first.counts == second.counts),
        (
            "node list's length",
            first.nodes.len() == second.nodes.len(),
        ),
        (
            "span list's length",
            first.spans.len() == second.spans.len(),
        ),
    ];
    for (part, same) in parts {
        ensure(same, format_args!("the {part} differs"))?;
    }
    let count = tree(first)?.len();
    ensure(
        tree(second)?.len() == count + 2,
        "the node count is not 2 more, nor all alike",
    )?;
    ensure(
        first.leaf_count.checked_add(1) == Some(second.leaf_count),
        "the leaf count is not 1 more",
    )?;
    let parent = the_split(first, second, count)?;
    new_leaves(second, count, parent, first.spans[parent])?;
    estimate(first, second, parent, count)?;
    rows(job, first, second, parent)
}

/// The one leaf that became a split; every other entry of nodes and spans is alike.
fn the_split(first: &Learned, second: &Learned, count: usize) -> Checked<usize> {
    let is_new = |entry: usize| (count..count + 2).contains(&entry);
    let differs = |&entry: &usize| !is_new(entry) && first.nodes[entry] != second.nodes[entry];
    let changed: Vec<usize> = (0..first.nodes.len()).filter(differs).collect();
    let [parent] = changed[..] else {
        return Err(format!("entries {changed:?} of the node list changed"));
    };
    let (was, is) = (first.nodes[parent], second.nodes[parent]);
    ensure(
        parent < count && !was.is_split(),
        format_args!("entry {parent}, which changed, was no leaf"),
    )?;
    // What stands beside the node stays, its cost, predictor and offset; and so does its depth.
    let due = Record {
        kind: Record::SPLIT,
        prop: is.prop,
        val: is.val,
        gt: count as u32,
        le: count as u32 + 1,
        ..was
    };
    ensure(
        is == due && is.prop <= 23,
        format_args!("leaf {parent} became {is:?}"),
    )?;
    let moved = |&entry: &usize| !is_new(entry) && first.spans[entry] != second.spans[entry];
    match (0..first.spans.len()).find(moved) {
        Some(entry) => Err(format!("span entry {entry} changed")),
        None => Ok(parent),
    }
}

/// The two leaves behind the first answer's nodes lie one deeper than the split and share its span, gt first.
fn new_leaves(second: &Learned, count: usize, parent: usize, shared: Span) -> Checked {
    for node in [second.nodes[count], second.nodes[count + 1]] {
        let due = Record {
            cost: node.cost,
            ..Record::leaf(node.pred, node.offset).at_depth(second.nodes[parent].depth + 1)
        };
        ensure(
            node == due && node.pred <= 13,
            format_args!("a new leaf is {node:?}"),
        )?;
    }
    let (gt, le) = (second.spans[count], second.spans[count + 1]);
    let is_shared = gt.first == shared.first
        && gt.first <= gt.end
        && gt.end == le.first
        && le.first <= le.end
        && le.end == shared.end;
    ensure(
        is_shared,
        format_args!("{gt:?} and {le:?} do not share {shared:?}"),
    )
}

/// The growth term: gt + le - parent, formed in single, added in double.
fn estimate(first: &Learned, second: &Learned, parent: usize, count: usize) -> Checked {
    let cost = |node: usize| f32::from_bits(second.nodes[node].cost);
    let term: f32 = cost(count) + cost(count + 1) - cost(parent);
    let due = first.estimated_bits + f64::from(term);
    let bits = second.estimated_bits;
    ensure(
        due.to_bits() == bits.to_bits(),
        format_args!("estimated bits are {bits}, not {due}"),
    )
}

/// The places of the leaf's span hold the same rows save order and zero-predictor token, every other place the same
/// row.
fn rows(job: &Learning, first: &Learned, second: &Learned, parent: usize) -> Checked {
    let (before, after) = (Rows::after(first), Rows::after(second));
    ensure(before.fit(&after), "the lists of rows have other lengths")?;
    let Some(span) = places(first.spans[parent], before.count()) else {
        return Err(format!("the span of node {parent} holds no places"));
    };
    for place in 0..before.count() {
        ensure(
            span.contains(&place) || before.row(place) == after.row(place),
            format_args!("place {place}, outside the split's span, has another row"),
        )?;
    }
    let but_zero = uses_modes(job);
    ensure(
        before.sorted(span.clone(), but_zero) == after.sorted(span, but_zero),
        format_args!("the places of the span of node {parent} have other rows"),
    )
}
