//! Stored depths, right and wrong.

use crate::At;
use crate::draft::{Draft, any_fill, any_settings, any_slack};
use crate::rng::Rng;
use crate::seeds::Fault;
use crate::trees::{Shape, Tests, renumbered, tree, with_junk};
use crate::{fitted, rows};
use stream::{Job, Record};

/// Ways to store wrong depths, each alone in a sound tree: of the root; of a leaf or of a split below it, which is
/// given 0, its parent's, two more than that, or the last of 32 bits; of many nodes; and of three nodes of which one
/// has its parent behind it.
pub const DEPTHS: [Fault; 14] = [
    |_, seed| seed[0].depth = 1,
    |_, seed| seed[0].depth = u32::MAX,
    |rng, seed| any_below(rng, seed, false).depth = 0,
    |rng, seed| move_depth(any_below(rng, seed, false), -1),
    |rng, seed| move_depth(any_below(rng, seed, false), 1),
    |rng, seed| any_below(rng, seed, false).depth = u32::MAX,
    |rng, seed| any_below(rng, seed, true).depth = 0,
    |rng, seed| move_depth(any_below(rng, seed, true), -1),
    |rng, seed| move_depth(any_below(rng, seed, true), 1),
    |rng, seed| any_below(rng, seed, true).depth = u32::MAX,
    // All nodes, so that each lies one deeper than its parent and the root at 1.
    |_, seed| seed.iter_mut().for_each(|node| move_depth(node, 1)),
    // A node and all below it, so that it is the only one that does not lie one deeper.
    |rng, seed| {
        let at = rng.below(seed.len());
        move_all_below(seed, at);
    },
    // Only a sum that runs round makes node 1 one deeper than its parent.
    |_, seed| *seed = parent_behind([0, 0], (0, 0), 0, u32::MAX),
    |rng, seed| {
        let parent = rng.pick(&[0, 5, u32::MAX - 1]);
        let child = rng.pick(&[0, parent, parent + 1, parent + 1, parent.saturating_add(2)]);
        *seed = parent_behind([0, 0], (0, 0), child, parent);
    },
];

/// A node other than the root, a split or a leaf where there is one.
fn any_below<'a>(rng: &mut Rng, seed: &'a mut [Record], splits: bool) -> &'a mut Record {
    let wanted = |&i: &usize| seed[i].is_split() == splits;
    let wanted: Vec<usize> = (1..seed.len()).filter(wanted).collect();
    let at = match (wanted.is_empty(), seed.len()) {
        (false, _) => rng.pick(&wanted),
        (true, 1) => 0,
        (true, count) => 1 + rng.below(count - 1),
    };
    &mut seed[at]
}

fn move_depth(node: &mut Record, by: i32) {
    node.depth = node.depth.wrapping_add_signed(by);
}

/// One more for a node and for all below it, as far as children stand behind their splits.
fn move_all_below(seed: &mut [Record], first: usize) {
    let mut open = vec![first];
    while let Some(at) = open.pop() {
        let Some(node) = seed.get_mut(at) else {
            continue;
        };
        move_depth(node, 1);
        if node.is_split() {
            let children = [node.gt, node.le].map(|child| child as usize);
            open.extend(children.into_iter().filter(|&child| child > at));
        }
    }
}

/// Nodes 0 and 1 are leaves with these predictors. Node 2 is a split with this test, and both its children are node 1.
pub fn parent_behind(preds: [u32; 2], test: (u32, i32), child: u32, parent: u32) -> Vec<Record> {
    let [root, leaf] = preds.map(|pred| Record::leaf(pred, 0));
    let split = Record::split(test.0, test.1, 1, 1);
    vec![root, leaf.at_depth(child), split.at_depth(parent)]
}

/// Deepening, contexts, the symbol writer and lookup on seven sorts of trees, with right depths and each way to store
/// wrong ones: all together among the first 420 jobs. There is room, and nothing is wrong but depths or, in the three
/// nodes, where the parent stands.
pub fn depths(at: At) -> Job {
    let mut rng = at.rng();
    let turn = at.index as usize;
    let mut nodes = TREES[turn % TREES.len()](&mut rng);
    if rng.one_in(2) {
        nodes = renumbered(&mut rng, &nodes);
    }
    if let Some(fault) = DEPTHS.get(turn % (DEPTHS.len() + 1)) {
        fault(&mut rng, &mut nodes);
    }
    if rng.one_in(4) {
        with_junk(&mut rng, &mut nodes);
    }
    match turn % 4 {
        0 => deepening(&mut rng, nodes),
        1 => contexts(&mut rng, nodes),
        2 => writing(&mut rng, nodes),
        _ => lookup(&mut rng, nodes),
    }
}

/// Chains have more levels than growth may have.
const TREES: [fn(&mut Rng) -> Vec<Record>; 7] = [
    |rng| some_tree(rng, 1, 1, Shape::Any),
    |rng| some_tree(rng, 2, 1, Shape::Any),
    |rng| some_tree(rng, 3, 9, Shape::Any),
    |rng| some_tree(rng, 30, 40, Shape::Any),
    |rng| some_tree(rng, 28, 40, Shape::GtChain),
    |rng| some_tree(rng, 28, 40, Shape::LeChain),
    |rng| some_tree(rng, 4, 40, Shape::Level),
];

fn some_tree(rng: &mut Rng, fewest: usize, sorts: usize, shape: Shape) -> Vec<Record> {
    let leaves = fewest + rng.below(sorts);
    tree(rng, leaves, shape, &Tests { rows: None })
}

fn deepening(rng: &mut Rng, seed: Vec<Record>) -> Job {
    let made = rows::structured(rng, 12, 16);
    let mut draft = Draft::new(any_settings(rng, 16), made);
    draft.seed = seed;
    draft.deepen(rng)
}

fn contexts(rng: &mut Rng, nodes: Vec<Record>) -> Job {
    let mut job = fitted::contexts(nodes);
    job.nodes.entries += any_slack(rng);
    job.fill = any_fill(rng);
    job.context_entries += any_slack(rng);
    job.queue_entries += any_slack(rng);
    Job::Contexts(job)
}

fn writing(rng: &mut Rng, nodes: Vec<Record>) -> Job {
    let mut job = fitted::writing(nodes);
    job.nodes.entries += any_slack(rng);
    job.fill = any_fill(rng);
    job.queue_entries += any_slack(rng);
    Job::WriteSymbols(job)
}

fn lookup(rng: &mut Rng, nodes: Vec<Record>) -> Job {
    let mut job = fitted::lookup(nodes);
    job.nodes.entries += any_slack(rng);
    job.fill = any_fill(rng);
    job.properties.fill_with(|| rng.within(-12..=12));
    Job::Lookup(job)
}

#[cfg(test)]
mod tests;
