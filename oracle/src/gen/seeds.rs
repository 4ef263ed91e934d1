//! Families of deepening jobs.

use crate::depths::DEPTHS;
use crate::draft::{Draft, any_fill, any_settings, any_slack};
use crate::logs;
use crate::rng::Rng;
use crate::rows;
use crate::trees::{Shape, Tests, renumbered, tree, with_junk};
use crate::{At, alone_then_two};
use stream::{ContextsJob, Job, NodeList, Record};

fn any_shape(rng: &mut Rng) -> Shape {
    rng.pick(&[
        Shape::Any,
        Shape::Any,
        Shape::GtChain,
        Shape::LeChain,
        Shape::Level,
    ])
}

/// Sound seeds of all shapes and orders: leaves without rows, more leaves than
/// the limit, junk where a node has no use for a field.
pub fn seeds(at: At) -> Job {
    let mut rng = at.rng();
    let count = rng.below(60);
    let alphabet = rng.pick(&[3, 16, 128, 256]);
    let made = rows::structured(&mut rng, count, alphabet);
    let mut draft = Draft::new(any_settings(&mut rng, alphabet), made);
    draft.logs = logs::any(&mut rng, count);
    if rng.one_in(3) {
        draft.rows.residuals.clear();
    }
    let (leaves, shape) = (1 + rng.below(12), any_shape(&mut rng));
    let tests = Tests {
        rows: Some(&draft.rows),
    };
    draft.seed = tree(&mut rng, leaves, shape, &tests);
    if rng.one_in(2) {
        draft.seed = renumbered(&mut rng, &draft.seed);
    }
    if rng.one_in(2) {
        with_junk(&mut rng, &mut draft.seed);
    }
    draft.deepen(&mut rng)
}

/// Seeds at the bound of 8,191 nodes and just beyond, and seeds far deeper
/// than growth may go; of one in eight the last node's depth is wrong.
pub fn seeds_large(at: At) -> Job {
    let mut rng = at.rng();
    let shape = [Shape::Level, Shape::GtChain, Shape::LeChain, Shape::Any][at.index as usize % 4];
    let leaves = match at.index / 4 % 4 {
        0 => 4_096,
        1 => 27 + rng.below(400),
        2 => 4_095,
        _ => 4_097,
    };
    let count = 50 + rng.below(400);
    let made = rows::structured(&mut rng, count, 128);
    let mut draft = Draft::new(any_settings(&mut rng, 128), made);
    draft.settings.limit = rng.pick(&[1, 40, 4_096]);
    let tests = Tests {
        rows: Some(&draft.rows),
    };
    draft.seed = tree(&mut rng, leaves, shape, &tests);
    if rng.one_in(2) {
        draft.seed = renumbered(&mut rng, &draft.seed);
    }
    if rng.one_in(8) {
        let last = draft.seed.last_mut().expect("a tree has a root");
        last.depth = rng.pick(&[0, last.depth - 1, last.depth + 1]);
    }
    draft.deepen(&mut rng)
}

/// One way to spoil a sound tree; the node that it strikes is drawn.
pub type Fault = fn(&mut Rng, &mut Vec<Record>);

/// Those of the nodes, then those of their depths.
pub fn faults() -> Vec<Fault> {
    [&NODES[..], &DEPTHS].concat()
}

const NODES: [Fault; 19] = [
    |rng, seed| any_split(rng, seed).prop = 24,
    |rng, seed| any_split(rng, seed).prop = 255,
    |rng, seed| set_child(rng, seed, |node, _| node),
    |rng, seed| set_child(rng, seed, |node, _| node - node.min(1)),
    |rng, seed| set_child(rng, seed, |_, _| 0),
    |rng, seed| set_child(rng, seed, |_, count| count),
    |rng, seed| set_child(rng, seed, |_, count| count + 1),
    |rng, seed| set_child(rng, seed, |_, _| u32::MAX),
    |rng, seed| set_child(rng, seed, |_, count| count - 1),
    |rng, seed| {
        let split = any_split(rng, seed);
        split.le = split.gt;
    },
    |rng, seed| {
        let split = any_split(rng, seed);
        split.gt = split.le;
    },
    |rng, seed| any_leaf(rng, seed).pred = 14,
    |rng, seed| any_leaf(rng, seed).pred = u32::MAX,
    // A node more than the tree has, whatever its depth.
    |rng, seed| seed.push(Record::leaf(1, 0).at_depth(rng.pick(&[0, 1, 7]))),
    |_, seed| seed.push(Record::split(0, 0, 1, 2)),
    // A split that forgets its children.
    |rng, seed| {
        let split = any_split(rng, seed);
        *split = Record::leaf(3, 0).at_depth(split.depth);
    },
    // So does this one, and a late split at its depth names one of them on both sides,
    // which makes that node the child of exactly one split.
    |rng, seed| {
        let split = any_split(rng, seed);
        let Record { gt, depth, .. } = *split;
        *split = Record::leaf(3, 0).at_depth(depth);
        seed.push(Record::split(0, 0, gt, gt).at_depth(depth));
    },
    // The last node is cut off.
    |_, seed| seed.truncate(seed.len() - 1),
    // Two nodes change places.
    |rng, seed| {
        let (a, b) = (rng.below(seed.len()), rng.below(seed.len()));
        seed.swap(a, b);
    },
];

fn any_of<'a>(rng: &mut Rng, seed: &'a mut [Record], splits: bool) -> &'a mut Record {
    let wanted = |&i: &usize| seed[i].is_split() == splits;
    let wanted: Vec<usize> = (0..seed.len()).filter(wanted).collect();
    let at = if wanted.is_empty() {
        0
    } else {
        rng.pick(&wanted)
    };
    &mut seed[at]
}

fn any_split<'a>(rng: &mut Rng, seed: &'a mut [Record]) -> &'a mut Record {
    any_of(rng, seed, true)
}

fn any_leaf<'a>(rng: &mut Rng, seed: &'a mut [Record]) -> &'a mut Record {
    any_of(rng, seed, false)
}

/// Points one side of a split elsewhere: by the split's number and the count.
fn set_child(rng: &mut Rng, seed: &mut [Record], child: fn(u32, u32) -> u32) {
    let count = seed.len() as u32;
    let splits: Vec<usize> = (0..seed.len()).filter(|&i| seed[i].is_split()).collect();
    if splits.is_empty() {
        return;
    }
    let node = rng.pick(&splits);
    let to = child(node as u32, count);
    if rng.one_in(2) {
        seed[node].gt = to;
    } else {
        seed[node].le = to;
    }
}

/// A sound tree for faults to strike.
pub fn to_be_spoilt(rng: &mut Rng) -> Vec<Record> {
    let (leaves, shape) = (2 + rng.below(7), any_shape(rng));
    let seed = tree(rng, leaves, shape, &Tests { rows: None });
    if rng.one_in(2) {
        renumbered(rng, &seed)
    } else {
        seed
    }
}

/// Each fault alone, then each two at once, in deepening and contexts by turns;
/// wrong counts, and entries that the job does not give, now and then.
pub fn seed_faults(at: At) -> Job {
    let mut rng = at.rng();
    let mut seed = to_be_spoilt(&mut rng);
    let faults = faults();
    for fault in alone_then_two(at.index / 2, faults.len()) {
        faults[fault](&mut rng, &mut seed);
    }
    let count = match rng.below(16) {
        0 => 0,
        1 => seed.len() as u32 + 1,
        2 => seed.len() as u32 - 1,
        3 => 8_192,
        _ => seed.len() as u32,
    };
    if at.index.is_multiple_of(2) {
        return spoilt_contexts(&mut rng, seed, count);
    }
    let made = rows::structured(&mut rng, 6, 16);
    let mut draft = Draft::new(any_settings(&mut rng, 16), made);
    draft.seed = seed;
    let mut job = draft.loose(&mut rng);
    job.seed_count = count;
    job.nodes.entries = job.nodes.entries.max(count);
    job.span_entries = job.span_entries.max(count);
    job.count_entries = job.count_entries.max(6 + 2 * count);
    Job::Deepen(job)
}

fn spoilt_contexts(rng: &mut Rng, seed: Vec<Record>, count: u32) -> Job {
    let entries = (seed.len() as u32).max(count) + any_slack(rng);
    let room = |rng: &mut Rng| count - rng.pick(&[0, 0, 0, 1]).min(count) + any_slack(rng);
    Job::Contexts(ContextsJob {
        count,
        nodes: NodeList {
            entries,
            given: seed,
        },
        fill: any_fill(rng),
        context_entries: room(rng),
        queue_entries: room(rng),
    })
}
