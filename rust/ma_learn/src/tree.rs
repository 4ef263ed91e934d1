//! A tree to be shown: one that was learnt, or one that was read from its symbols.

use jobs::Run;
use ostrovuc::{Learned, MaNode, Span};

/// A tree, and what learning says of it; a tree that was read from symbols has neither rows nor bits.
pub struct Tree<'a> {
    pub nodes: &'a [MaNode],
    pub learning: Option<Learning>,
}

/// What a run answered beside its nodes, and how many rows come to each of them.
pub struct Learning {
    pub learned: Learned,
    pub rows: usize,
    rows_at: Vec<usize>,
}

/// How a node hangs from the one above it.
#[derive(Clone, Copy, Debug, Eq, PartialEq)]
pub enum Side {
    Root,
    /// The property is above the split's value.
    Yes,
    /// It is not.
    No,
}

/// A node as it is met on a walk.
#[derive(Clone, Copy)]
pub struct Place<'a> {
    pub number: u32,
    pub node: &'a MaNode,
    pub side: Side,
    /// Where the tree was learnt.
    pub rows: Option<Rows>,
}

/// How many rows come to a node.
#[derive(Clone, Copy, Debug, Eq, PartialEq)]
pub struct Rows {
    pub all: usize,
    /// How many of them a split sends to its yes side; 0 at a leaf.
    pub yes: usize,
    /// How many to its no side; 0 at a leaf.
    pub no: usize,
}

impl<'a> Tree<'a> {
    /// The tree that a run answered, if it was not refused.
    pub fn of(run: &'a Run) -> Option<Self> {
        let learned = run.result.ok()?;
        let count = learned.nodes as usize;
        let nodes = &run.room.nodes[..count];
        let rows_at = rows_at(nodes, &run.room.spans[..count]);
        let learning = Learning {
            learned,
            rows: run.rows(),
            rows_at,
        };
        Some(Self {
            nodes,
            learning: Some(learning),
        })
    }

    /// A tree that was read from its symbols.
    pub fn read(nodes: &'a [MaNode]) -> Self {
        Self {
            nodes,
            learning: None,
        }
    }

    pub fn leaves(&self) -> usize {
        self.nodes.iter().filter(|node| !node.is_split()).count()
    }

    /// Every node, each before those below it, and the yes side before the no side.
    pub fn walk(&self) -> impl Iterator<Item = Place<'a>> {
        let mut waiting = vec![(0, Side::Root)];
        std::iter::from_fn(move || {
            let (number, side) = waiting.pop()?;
            let node = &self.nodes[number as usize];
            if node.is_split() {
                waiting.push((node.le, Side::No));
                waiting.push((node.gt, Side::Yes));
            }
            let learning = self.learning.as_ref();
            Some(Place {
                number,
                node,
                side,
                rows: learning.map(|learning| learning.rows_of(number, node)),
            })
        })
    }
}

impl Learning {
    /// Bits that the tree saves against the flat one.
    pub fn bits_saved(&self) -> f64 {
        self.learned.flat - self.learned.bits
    }

    fn rows_of(&self, number: u32, node: &MaNode) -> Rows {
        let at = |number: u32| self.rows_at[number as usize];
        let (yes, no) = if node.is_split() {
            (at(node.gt), at(node.le))
        } else {
            (0, 0)
        };
        Rows {
            all: at(number),
            yes,
            no,
        }
    }
}

/// How many rows come to each node: to a leaf those of its span, to a split those of its two children. A split that
/// growth made has a span too, of as many rows; a seed's has none. Children stand behind their parents, so the last
/// node is counted first.
fn rows_at(nodes: &[MaNode], spans: &[Span]) -> Vec<usize> {
    let mut rows = vec![0; nodes.len()];
    for (n, (node, span)) in nodes.iter().zip(spans).enumerate().rev() {
        rows[n] = if node.is_split() {
            rows[node.gt as usize] + rows[node.le as usize]
        } else {
            (span.end - span.first) as usize
        };
    }
    rows
}
