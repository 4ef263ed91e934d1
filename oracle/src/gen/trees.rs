//! Sound trees, for seeds, lookup, contexts and pruning.

use crate::rng::Rng;
use crate::rows::Rows;
use stream::{PROPERTIES, Record};

/// How a tree is shaped.
#[derive(Clone, Copy)]
pub enum Shape {
    /// Any leaf may be split next.
    Any,
    /// The gt leaf is always split next.
    GtChain,
    /// The le leaf is always split next.
    LeChain,
    /// All leaves at the same depth, or nearly.
    Level,
}

/// Where a split's test comes from.
pub struct Tests<'a> {
    /// Values are taken from these rows where there are any.
    pub rows: Option<&'a Rows>,
}

impl Tests<'_> {
    fn draw(&self, rng: &mut Rng) -> (u32, i32) {
        let property = rng.below(PROPERTIES);
        let value = match self.rows {
            Some(rows) if rows.len() > 0 && !rng.one_in(6) => {
                rows.properties[rng.below(rows.len())][property]
            }
            _ => rng.within(-10..=10),
        };
        (property as u32, value)
    }
}

/// A sound tree of so many leaves, numbered as growth numbers: the two children
/// of each split stand side by side, gt first.
pub fn tree(rng: &mut Rng, leaves: usize, shape: Shape, tests: &Tests) -> Vec<Record> {
    let mut nodes = vec![any_leaf(rng)];
    let mut open = vec![0];
    for _ in 1..leaves {
        let at = match shape {
            Shape::Any => rng.below(open.len()),
            Shape::GtChain => open.len().saturating_sub(2),
            Shape::LeChain => open.len() - 1,
            Shape::Level => 0,
        };
        let leaf: usize = open.remove(at);
        let gt = nodes.len();
        let (property, value) = tests.draw(rng);
        let depth = nodes[leaf].depth;
        let split = Record::split(property, value, gt as u32, gt as u32 + 1);
        nodes[leaf] = split.at_depth(depth);
        nodes.push(any_leaf(rng).at_depth(depth + 1));
        nodes.push(any_leaf(rng).at_depth(depth + 1));
        open.extend([gt, gt + 1]);
    }
    nodes
}

fn any_leaf(rng: &mut Rng) -> Record {
    let offset = rng.pick(&[0, 0, 1, -7, i32::MIN, i32::MAX]);
    Record::leaf(rng.below(14) as u32, offset)
}

/// These nodes, each with its depth: a tree whose splits stand before their children.
pub fn with_depths(mut nodes: Vec<Record>) -> Vec<Record> {
    for at in 0..nodes.len() {
        let Record { gt, le, depth, .. } = nodes[at];
        if nodes[at].is_split() {
            nodes[gt as usize].depth = depth + 1;
            nodes[le as usize].depth = depth + 1;
        }
    }
    nodes
}

/// The same tree with its nodes in another order, parents still before their
/// children, which need no longer stand side by side.
pub fn renumbered(rng: &mut Rng, nodes: &[Record]) -> Vec<Record> {
    let mut order = Vec::with_capacity(nodes.len());
    let mut open = vec![0];
    while !open.is_empty() {
        let node: usize = open.swap_remove(rng.below(open.len()));
        order.push(node);
        if nodes[node].is_split() {
            open.extend([nodes[node].gt as usize, nodes[node].le as usize]);
        }
    }
    in_order(nodes, &order)
}

/// The same tree numbered as pruning numbers: from the root on, all of gt before le.
pub fn preordered(nodes: &[Record]) -> Vec<Record> {
    let mut order = Vec::with_capacity(nodes.len());
    let mut open = vec![0];
    while let Some(node) = open.pop() {
        order.push(node);
        if nodes[node].is_split() {
            open.extend([nodes[node].le as usize, nodes[node].gt as usize]);
        }
    }
    in_order(nodes, &order)
}

/// The nodes in this order of their old numbers.
fn in_order(nodes: &[Record], order: &[usize]) -> Vec<Record> {
    let mut number = vec![0; nodes.len()];
    for (new, &old) in order.iter().enumerate() {
        number[old] = new as u32;
    }
    let moved = |&old: &usize| match nodes[old] {
        leaf if !leaf.is_split() => leaf,
        split => Record {
            gt: number[split.gt as usize],
            le: number[split.le as usize],
            ..split
        },
    };
    order.iter().map(moved).collect()
}

/// A tree as learning leaves it, numbered as growth numbers: each split parts rows at a value that one of them has,
/// and beside it stands what it was as a leaf. It has fewer leaves where no rows are left to part.
pub fn learned(rng: &mut Rng, leaves: usize, rows: &Rows) -> Vec<Record> {
    let mut nodes = vec![evaluated(rng)];
    let mut open = vec![(0, Vec::from_iter(0..rows.len()))];
    while nodes.len() < 2 * leaves - 1 && !open.is_empty() {
        let (node, own) = open.swap_remove(rng.below(open.len()));
        let Some((property, value)) = (0..8).find_map(|_| parting(rng, rows, &own)) else {
            continue;
        };
        let gt = nodes.len();
        let leaf = nodes[node];
        nodes[node] = Record {
            cost: leaf.cost,
            pred: leaf.pred,
            offset: leaf.offset,
            depth: leaf.depth,
            ..Record::split(property as u32, value, gt as u32, gt as u32 + 1)
        };
        let below = |record: Record| record.at_depth(leaf.depth + 1);
        nodes.extend([below(evaluated(rng)), below(evaluated(rng))]);
        let above = |&row: &usize| rows.properties[row][property] > value;
        let (above, below) = own.into_iter().partition(above);
        open.extend([(gt, above), (gt + 1, below)]);
    }
    nodes
}

/// A leaf with a cost, and an offset if its predictor is 0.
fn evaluated(rng: &mut Rng) -> Record {
    let pred = rng.pick(&[0, 0, 1, 4, 5, 6, 13]);
    let mode = rng.within(-300..=300);
    let offset = if pred == 0 { mode } else { 0 };
    Record::leaf(pred, offset).with_cost(900.0 * rng.single())
}

/// A property, and a value that one of these rows has and another passes, if there is one.
fn parting(rng: &mut Rng, rows: &Rows, own: &[usize]) -> Option<(usize, i32)> {
    let property = rng.below(PROPERTIES);
    let value = rows.properties[rng.pick(own)][property];
    let passes = |&row: &usize| rows.properties[row][property] > value;
    own.iter().any(passes).then_some((property, value))
}

/// Fills every field that the node has no use for.
pub fn with_junk(rng: &mut Rng, nodes: &mut [Record]) {
    for node in nodes {
        let junk = Record {
            kind: node.kind,
            prop: rng.below(256) as u32,
            val: rng.word() as i32,
            gt: rng.word(),
            le: rng.word(),
            cost: rng.word(),
            pred: rng.below(30) as u32,
            offset: rng.word() as i32,
            depth: node.depth,
        };
        *node = if node.is_split() {
            Record {
                prop: node.prop,
                val: node.val,
                gt: node.gt,
                le: node.le,
                ..junk
            }
        } else {
            Record {
                pred: node.pred,
                offset: node.offset,
                ..junk
            }
        };
    }
}
