//! Smaller trees: a part of one in its place, splits folded, fields brought to 0, and depths to what they are.

use crate::Result;
use crate::shrink::Shrinker;
use stream::{ContextsJob, Learning, LookupJob, PruneJob, Record, WriteSymbolsJob};

/// A job with a tree in it.
pub trait Tree: Clone {
    fn nodes(&mut self) -> &mut Vec<Record>;
    /// What else must change when only these nodes, by their old numbers, are left.
    fn keep(&mut self, left: &[usize]);
}

/// A count that stood for all nodes still does.
fn recount(count: &mut u32, nodes: usize, left: usize) {
    if *count as usize == nodes {
        *count = left as u32;
    }
}

macro_rules! counted {
    ($($job:ty: $count:ident),*) => {$(
        impl Tree for $job {
            fn nodes(&mut self) -> &mut Vec<Record> {
                &mut self.nodes.given
            }

            fn keep(&mut self, left: &[usize]) {
                recount(&mut self.$count, self.nodes.given.len(), left.len());
            }
        }
    )*};
}

counted!(Learning: seed_count, LookupJob: count, ContextsJob: count, WriteSymbolsJob: count);

impl Tree for PruneJob {
    fn nodes(&mut self) -> &mut Vec<Record> {
        &mut self.nodes
    }

    fn keep(&mut self, left: &[usize]) {
        self.spans = left.iter().map(|&node| self.spans[node]).collect();
    }
}

pub fn tree<J: Tree>(s: &mut Shrinker<'_, J>) -> Result<()> {
    smaller(s, |job, edit| edit(job))?;
    s.pieces(
        |job| job.nodes().len(),
        |job, piece| keep_only(job, |node| !piece.contains(&node)),
    )?;
    fields(s)
}

/// What goes around an edit of a tree: it may change more of the job than the tree.
pub type Around<J> = fn(&mut J, edit: &dyn Fn(&mut J));

/// Splits folded, then a part of the tree in its place.
pub fn smaller<J: Tree>(s: &mut Shrinker<'_, J>, around: Around<J>) -> Result<()> {
    folds(s, around)?;
    parts(s, around)
}

fn folds<J: Tree>(s: &mut Shrinker<'_, J>, around: Around<J>) -> Result<()> {
    let mut at = 0;
    while at < s.job.nodes().len() {
        s.attempt(|job| around(job, &|job| fold(job, at)))?;
        at += 1;
    }
    Ok(())
}

fn parts<J: Tree>(s: &mut Shrinker<'_, J>, around: Around<J>) -> Result<()> {
    let mut at = 1;
    while at < s.job.nodes().len() {
        let kept = s.attempt(|job| around(job, &|job| keep_from(job, at)))?;
        at = if kept { 1 } else { at + 1 };
    }
    Ok(())
}

/// Makes a node a leaf, and drops what then has no way to it.
fn fold<J: Tree>(job: &mut J, at: usize) {
    let nodes = job.nodes();
    if nodes[at].is_split() {
        let Record {
            cost,
            pred,
            offset,
            depth,
            ..
        } = nodes[at];
        nodes[at] = Record {
            cost,
            depth,
            ..Record::leaf(pred, offset)
        };
        let reached = reached_from(nodes, 0);
        keep_only(job, |node| reached[node]);
    }
}

/// Keeps the tree below a node alone, all of it as much less deep as the node was: right depths stay right.
fn keep_from<J: Tree>(job: &mut J, root: usize) {
    let reached = reached_from(job.nodes(), root);
    let above = job.nodes()[root].depth;
    keep_only(job, |node| reached[node]);
    for node in job.nodes() {
        node.depth = node.depth.wrapping_sub(above);
    }
}

/// Which nodes can be come to from this one, by children that are greater.
fn reached_from(nodes: &[Record], root: usize) -> Vec<bool> {
    let mut reached = vec![false; nodes.len()];
    reached[root] = true;
    for (node, record) in nodes.iter().enumerate() {
        if reached[node] && record.is_split() {
            for child in [record.gt, record.le].map(|child| child as usize) {
                if child > node && child < nodes.len() {
                    reached[child] = true;
                }
            }
        }
    }
    reached
}

/// Drops the other nodes and renumbers; a child that is dropped, or was none, keeps its number.
fn keep_only<J: Tree>(job: &mut J, is_kept: impl Fn(usize) -> bool) {
    let nodes = job.nodes().len();
    let left: Vec<usize> = (0..nodes).filter(|&node| is_kept(node)).collect();
    job.keep(&left);
    let renumbered = |child: u32| match left.binary_search(&(child as usize)) {
        Ok(new) => new as u32,
        Err(_) => child,
    };
    let nodes = job.nodes();
    *nodes = left.iter().map(|&node| nodes[node]).collect();
    for record in nodes.iter_mut().filter(|record| record.is_split()) {
        record.gt = renumbered(record.gt);
        record.le = renumbered(record.le);
    }
}

/// Brings what the nodes hold to 0, each field on as many nodes as goes, then nearer to 0.
fn fields<J: Tree>(s: &mut Shrinker<'_, J>) -> Result<()> {
    const CLEAR: [fn(&mut Record); 7] = [
        |node| node.prop = 0,
        |node| node.val = 0,
        |node| node.cost = 0,
        |node| node.pred = 0,
        |node| node.offset = 0,
        clear_children,
        plain_kind,
    ];
    for clear in CLEAR {
        s.pieces(
            |job| job.nodes().len(),
            |job, piece| job.nodes()[piece].iter_mut().for_each(clear),
        )?;
    }
    for at in 0..s.job.nodes().len() {
        s.lower(|job| &mut job.nodes()[at].prop)?;
        s.lower(|job| &mut job.nodes()[at].val)?;
        s.lower(|job| &mut job.nodes()[at].pred)?;
        s.lower(|job| &mut job.nodes()[at].offset)?;
        plain_cost(s, at)?;
    }
    depths(s)
}

/// Makes the depths right of as many nodes as goes, and the others nearer to 0.
fn depths<J: Tree>(s: &mut Shrinker<'_, J>) -> Result<()> {
    s.pieces(
        |job| job.nodes().len(),
        |job, piece| {
            let right = right_depths(job.nodes());
            let nodes = job.nodes()[piece.clone()].iter_mut();
            nodes
                .zip(&right[piece])
                .for_each(|(node, &depth)| node.depth = depth);
        },
    )?;
    for (at, right) in right_depths(s.job.nodes()).into_iter().enumerate() {
        if s.job.nodes()[at].depth != right {
            s.lower(|job| &mut job.nodes()[at].depth)?;
        }
    }
    Ok(())
}

/// How many splits stand above each node, as far as children are greater than their splits.
fn right_depths(nodes: &[Record]) -> Vec<u32> {
    let mut depths = vec![0; nodes.len()];
    for (at, node) in nodes.iter().enumerate().filter(|(_, node)| node.is_split()) {
        for child in [node.gt, node.le].map(|child| child as usize) {
            if child > at && child < nodes.len() {
                depths[child] = depths[at] + 1;
            }
        }
    }
    depths
}

/// A leaf has no children.
fn clear_children(node: &mut Record) {
    if !node.is_split() {
        (node.gt, node.le) = (0, 0);
    }
}

/// Any other number but a split's is a leaf too.
fn plain_kind(node: &mut Record) {
    if !node.is_split() {
        node.kind = Record::LEAF;
    }
}

/// Makes a cost 1, or whole.
fn plain_cost<J: Tree>(s: &mut Shrinker<'_, J>, at: usize) -> Result<()> {
    let now = f32::from_bits(s.job.nodes()[at].cost);
    if now != 0.0 && now != 1.0 {
        for plainer in [1.0, now.trunc()] {
            if s.attempt(|job| job.nodes()[at].cost = plainer.to_bits())? {
                break;
            }
        }
    }
    Ok(())
}
