//! Families of everything that is not learning: the small operations, and
//! single parts of the learner.

use crate::At;
use crate::draft::{any_fill, any_slack};
use crate::rng::Rng;
use crate::rows::{self, EXTREMES};
use crate::trees::{Shape, Tests, renumbered, tree, with_depths, with_junk};
use stream::{ContextsJob, Job, LookupJob, NodeList, PruneJob, Record, SampleJob, Span};

fn any_tree(rng: &mut Rng, leaves: usize, tests: &Tests) -> Vec<Record> {
    let shape = rng.pick(&[
        Shape::Any,
        Shape::Any,
        Shape::GtChain,
        Shape::LeChain,
        Shape::Level,
    ]);
    let grown = tree(rng, leaves, shape, tests);
    let mut nodes = match rng.one_in(2) {
        true => renumbered(rng, &grown),
        false => grown,
    };
    if rng.one_in(2) {
        with_junk(rng, &mut nodes);
    }
    nodes
}

pub fn any_word(rng: &mut Rng) -> u32 {
    match rng.below(4) {
        0 => rng.below(40) as u32,
        1 => rng.pick(&EXTREMES) as u32,
        2 => (1u64 << rng.below(33)).wrapping_sub(rng.below(2) as u64) as u32,
        _ => rng.word() >> rng.below(32),
    }
}

/// Sound trees and spoilt ones. A fault off the way, equal children, wrong depths and more
/// than 8,191 nodes are nothing to lookup.
pub fn lookup(at: At) -> Job {
    let mut rng = at.rng();
    let drawn = rows::structured(&mut rng, 8, 4);
    let leaves = if rng.one_in(60) {
        4_097
    } else {
        1 + rng.below(20)
    };
    let mut nodes = any_tree(&mut rng, leaves, &Tests { rows: Some(&drawn) });
    for _ in 0..rng.pick(&[0, 0, 1, 1, 3]) {
        spoil(&mut rng, &mut nodes);
    }
    let length = nodes.len() as u32;
    let entries = length + any_slack(&mut rng);
    let mut properties = drawn.properties[0].to_vec();
    if rng.one_in(12) {
        properties.resize(rng.pick(&[0, 1, 23, 25, 48]), 5);
    }
    Job::Lookup(LookupJob {
        count: match rng.below(20) {
            0 => 0,
            1 => entries + 1,
            2 => u32::MAX,
            3 => entries,
            4 => length - 1,
            _ => length,
        },
        nodes: NodeList {
            entries,
            given: nodes,
        },
        fill: any_fill(&mut rng),
        properties,
    })
}

fn spoil(rng: &mut Rng, nodes: &mut [Record]) {
    let count = nodes.len() as u32;
    let at = rng.below(nodes.len());
    let any = rng.word() % count;
    let other = rng.pick(&[0, at as u32, count, count - 1, u32::MAX, any]);
    let node = &mut nodes[at];
    match rng.below(6) {
        0 => node.prop = rng.pick(&[24, 255]),
        1 => node.pred = rng.pick(&[14, u32::MAX]),
        2 => node.gt = other,
        3 => node.le = other,
        4 => node.le = node.gt,
        _ => node.depth = other,
    }
}

/// Sound trees of all orders, with enough room and just too little of it.
pub fn contexts(at: At) -> Job {
    let mut rng = at.rng();
    let leaves = match rng.below(30) {
        0 => 4_096,
        1 => 4_097,
        _ => 1 + rng.below(40),
    };
    let mut nodes = any_tree(&mut rng, leaves, &Tests { rows: None });
    let count = nodes.len() as u32;
    if rng.one_in(8) {
        spoil(&mut rng, &mut nodes);
    }
    let room = |rng: &mut Rng| {
        let short = if rng.one_in(8) { 1 } else { 0 };
        count - short + any_slack(rng)
    };
    let entries = count + any_slack(&mut rng);
    Job::Contexts(ContextsJob {
        count: match rng.below(16) {
            0 => 0,
            1 => entries + 1,
            2 => u32::MAX,
            _ => count,
        },
        nodes: NodeList {
            entries,
            given: nodes,
        },
        fill: any_fill(&mut rng),
        context_entries: room(&mut rng),
        queue_entries: room(&mut rng),
    })
}

/// Rows and targets from 0 to beyond 2^32, outputs about the length needed.
pub fn sampling(at: At) -> Job {
    let mut rng = at.rng();
    let any_count = |rng: &mut Rng| match rng.below(8) {
        0 => rng.pick(&[0, 1, 65_535, 65_536, 65_537]),
        1 => (1 << 32) + rng.below(5) as u64,
        2 => rng.next() >> rng.below(64),
        3 => u64::MAX,
        4 => rng.below(65_537) as u64,
        _ => rng.below(50) as u64,
    };
    let (rows, target) = (any_count(&mut rng), any_count(&mut rng));
    let needed = rows.min(target).min(70_000) as u32;
    let short = if rng.one_in(6) { 1 } else { 0 };
    Job::Sample(SampleJob {
        rows,
        target,
        output_entries: needed.saturating_sub(short) + any_slack(&mut rng),
        fill: any_fill(&mut rng),
    })
}

fn any_words(rng: &mut Rng) -> Vec<u32> {
    (0..rng.below(60)).map(|_| any_word(rng)).collect()
}

pub fn pack(at: At) -> Job {
    let words = any_words(&mut at.rng());
    Job::Pack(words.into_iter().map(|word| word as i32).collect())
}

pub fn token(at: At) -> Job {
    Job::Token(any_words(&mut at.rng()))
}

/// Tokens about 16 and 128 and everywhere, with extra bits about the most that
/// they may have.
pub fn value(at: At) -> Job {
    let mut rng = at.rng();
    let pair = |rng: &mut Rng| {
        let token = match rng.below(8) {
            0 => rng.pick(&[0, 15, 16, 17, 127, 128, 255, u32::MAX]),
            1 => any_word(rng),
            _ => rng.below(130) as u32,
        };
        let bits = if (16..128).contains(&token) {
            token / 4 - 2
        } else {
            0
        };
        let past = 1 << bits;
        let extra = match rng.below(5) {
            0 => 0,
            1 => past - 1,
            2 => past,
            3 => any_word(rng),
            _ => rng.word() % past,
        };
        (token, extra)
    };
    Job::Value((0..rng.below(60)).map(|_| pair(&mut rng)).collect())
}

/// Ranges of 4,096 and 4,097, ties, the ends of 32 bits, no residuals.
pub fn mode(at: At) -> Job {
    let mut rng = at.rng();
    let count = rng.pick(&[0, 1, 2, 3, 8, 40]) + rng.below(3);
    let width = rng.pick(&[1, 2, 5, 100, 4_095, 4_096, 4_097, 1 << 20]);
    let low = rng.pick(&[0, -3, -2_000, 77, i32::MIN, i32::MAX - width + 1]);
    let few: Vec<i32> = (0..4).map(|_| rng.within(0..=width - 1)).collect();
    let residual = |row: usize| match row {
        0 => low + (width - 1),
        1 => low,
        _ if rng.one_in(30) => rng.pick(&EXTREMES),
        _ => low + rng.pick(&few),
    };
    let mut residuals: Vec<i32> = (0..count).map(residual).collect();
    rng.shuffle(&mut residuals);
    Job::Mode(residuals)
}

/// Columns of few and many values and lengths about every change of stride.
pub fn candidates(at: At) -> Job {
    const LENGTHS: [usize; 12] = [0, 1, 2, 3, 31, 32, 33, 1_024, 2_047, 2_048, 3_072, 4_096];
    let mut rng = at.rng();
    let count = rng.pick(&LENGTHS) + rng.pick(&[0, 0, 1, 5]);
    let low = rng.pick(&[0, -70, 1_000, i32::MIN, i32::MAX - 4_096]);
    let width = rng.pick(&[1, 2, 5, 33, 34, 40, 4_095, 4_096, 4_097]);
    let column = match rng.below(4) {
        0 => (0..count).map(|_| any_word(&mut rng) as i32).collect(),
        1 => (0..count as i32).map(|row| row - 5).collect(),
        _ => (0..count)
            .map(|_| low + rng.within(0..=width - 1))
            .collect(),
    };
    Job::Candidates(column, rng.pick(&[0, 1, 2, 3, 5, 31, 32, 32, 33, u32::MAX]))
}

pub fn partition(at: At) -> Job {
    let mut rng = at.rng();
    let ends = rng.one_in(3);
    let value = |rng: &mut Rng| match ends {
        true => rng.pick(&EXTREMES),
        false => rng.within(-9..=9),
    };
    let column = (0..rng.below(40)).map(|_| value(&mut rng)).collect();
    Job::Partition(column, value(&mut rng))
}

/// The same three on columns of a job's length, to 65,536 rows: spans of every width about
/// 4,096, few values and many.
pub fn columns(at: At) -> Job {
    let mut rng = at.rng();
    let count = rng.pick(&[255, 256, 1_000, 5_000, 20_000, 65_535, 65_536]);
    let width = rng.pick(&[2, 9, 300, 4_095, 4_096, 4_097, 1 << 16, i32::MAX]);
    let low = rng.pick(&[0, -(width / 2), i32::MIN, i32::MAX - (width - 1)]);
    let peak = rng.within(0..=width - 1);
    let value = |rng: &mut Rng| match rng.below(3) {
        0 => low + peak,
        _ => low + rng.within(0..=width - 1),
    };
    let column: Vec<i32> = (0..count).map(|_| value(&mut rng)).collect();
    match at.index % 3 {
        0 => Job::Mode(column),
        1 => Job::Candidates(column, rng.pick(&[1, 8, 31, 32, u32::MAX])),
        _ => Job::Partition(column, value(&mut rng)),
    }
}

/// Trees whose costs are whole eighths, so that a split's own cost can be made
/// exactly what keeping it costs, an eighth more, or an eighth less.
pub fn prune(at: At) -> Job {
    let mut rng = at.rng();
    if at.index % 8 == 7 {
        return prune_by_a_rounding(&mut rng);
    }
    let leaves = 1 + rng.below(30);
    let grown = tree(&mut rng, leaves, Shape::Any, &Tests { rows: None });
    let mut nodes = renumbered(&mut rng, &grown);
    let price = rng.pick(&[0.125, 0.5, 1.0, 3.0, 1_048_576.0]);
    price_nodes(&mut rng, &mut nodes, price);
    let spans = (0..nodes.len() as u32)
        .map(|node| Span {
            first: node,
            end: rng.word(),
        })
        .collect();
    Job::Prune(PruneJob {
        price,
        nodes,
        spans,
    })
}

/// Node 1 is kept at (1 + e) + e, which rounds to 1 in double, while 1 + (e + e)
/// does not; node 2 takes the 1 away, and what is left decides on the root.
fn prune_by_a_rounding(rng: &mut Rng) -> Job {
    let scale = (1u32 << rng.below(20)) as f32;
    let e = scale / (1u64 << 53) as f32;
    let mut nodes = with_depths(vec![
        Record::split(3, 7, 1, 2).with_cost(rng.pick(&[1.0, 2.0, 3.0, 4.0]) * e),
        Record::split(4, 7, 3, 4).with_cost(f32::INFINITY),
        Record::leaf(1, 0).with_cost(-scale),
        Record::leaf(2, 0).with_cost(scale),
        Record::leaf(3, 0).with_cost(e),
    ]);
    if rng.one_in(2) {
        let (gt, le) = (nodes[3], nodes[4]);
        (nodes[3], nodes[4]) = (le, gt);
    }
    Job::Prune(PruneJob {
        price: e,
        spans: Span::list(5, rng.word()),
        nodes,
    })
}

/// Gives every node a cost, from the leaves upward.
fn price_nodes(rng: &mut Rng, nodes: &mut [Record], price: f32) {
    let mut priced = vec![0.0; nodes.len()];
    for i in (0..nodes.len()).rev() {
        let node = nodes[i];
        if !node.is_split() {
            priced[i] = rng.within(-80..=800) as f32 / 8.0;
            nodes[i] = node.with_cost(priced[i]);
            continue;
        }
        let kept = priced[node.gt as usize] + priced[node.le as usize] + price;
        let own = match rng.below(6) {
            0 => f32::INFINITY,
            1 | 2 => kept,
            3 => kept - 0.125,
            4 => kept + 0.125,
            _ => rng.within(0..=4_000) as f32 / 8.0,
        };
        priced[i] = own.min(kept);
        nodes[i] = Record {
            pred: rng.below(14) as u32,
            offset: rng.within(-9..=9),
            ..node.with_cost(own)
        };
    }
}
