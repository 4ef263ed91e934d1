//! What the families say of themselves: within how many jobs each case comes up, whatever the seed.

use super::*;
use std::collections::BTreeSet;

const SEEDS: [u64; 3] = [1, 2, 77];

fn at(family: &'static str, seed: u64, index: usize) -> At {
    At {
        family,
        seed,
        index: index as u64,
    }
}

fn written(family: &'static str, seed: u64, jobs: usize) -> Vec<WriteSymbolsJob> {
    let make = match family {
        "symbols" => symbols,
        _ => symbol_faults,
    };
    let job = |index| match make(at(family, seed, index)) {
        Job::WriteSymbols(job) => job,
        other => panic!("{other:?}"),
    };
    (0..jobs).map(job).collect()
}

fn read(seed: u64, jobs: usize) -> Vec<ReadSymbolsJob> {
    let job = |index| match symbol_reads(at("symbol-reads", seed, index)) {
        Job::ReadSymbols(job) => job,
        other => panic!("{other:?}"),
    };
    (0..jobs).map(job).collect()
}

/// What a tree looks like: a leaf, a split, a chain along gt or le, a level one, or another.
#[derive(Clone, Copy, Debug, Eq, Ord, PartialEq, PartialOrd)]
enum Look {
    Leaf,
    Split,
    GtChain,
    LeChain,
    Level,
    Other,
}

const LOOKS: [Look; 6] = [
    Look::Leaf,
    Look::Split,
    Look::GtChain,
    Look::LeChain,
    Look::Level,
    Look::Other,
];

fn look_of(nodes: &[Record]) -> Look {
    let splits = || nodes.iter().filter(|node| node.is_split());
    let is_leaf = |child: u32| !nodes[child as usize].is_split();
    let mut depths = vec![0; nodes.len()];
    for (at, node) in nodes.iter().enumerate() {
        if node.is_split() {
            depths[node.gt as usize] = depths[at] + 1;
            depths[node.le as usize] = depths[at] + 1;
        }
    }
    let leaves = (0..nodes.len()).filter(|&at| !nodes[at].is_split());
    let (low, high) = leaves.fold((usize::MAX, 0), |(low, high), leaf| {
        (low.min(depths[leaf]), high.max(depths[leaf]))
    });
    match splits().count() {
        0 => Look::Leaf,
        1 => Look::Split,
        _ if splits().all(|split| is_leaf(split.le)) => Look::GtChain,
        _ if splits().all(|split| is_leaf(split.gt)) => Look::LeChain,
        _ if high - low <= 1 => Look::Level,
        _ => Look::Other,
    }
}

/// The tree that a list is, as far as its look goes: which nodes are splits, and where their children are.
fn skeleton(symbols: &[Symbol]) -> Vec<Record> {
    let firsts = symbols.iter().filter(|symbol| symbol.context == 1);
    let mut splits = 0;
    let node = |first: &Symbol| match first.value {
        0 => Record::leaf(0, 0),
        property => {
            splits += 1;
            Record::split(property - 1, 0, 2 * splits - 1, 2 * splits)
        }
    };
    firsts.map(node).collect()
}

#[test]
fn each_tree_meets_each_room() {
    for seed in SEEDS {
        let mut seen = BTreeSet::new();
        for job in written("symbols", seed, 168) {
            let nodes = &job.nodes.given;
            let pairs = i64::from(job.pair_entries) - pairs_of(nodes) as i64;
            let queue = i64::from(job.queue_entries) - nodes.len() as i64;
            let bare = (job.pair_entries, job.queue_entries) == (0, 0);
            let room = if bare { (NONE, NONE) } else { (pairs, queue) };
            seen.insert((look_of(nodes), room));
        }
        for look in LOOKS {
            for room in ROOMS {
                assert!(seen.contains(&(look, room)), "{look:?} with {room:?}");
            }
        }
    }
}

/// Of trees with five nodes and more: numbered as growth does and pruning does not, the other way round, and le first.
#[test]
fn trees_are_numbered_in_three_ways() {
    let of_splits = |job: &WriteSymbolsJob, is_so: fn(usize, &Record) -> bool| {
        let nodes = job.nodes.given.iter().enumerate();
        let mut splits = nodes.filter(|(_, node)| node.is_split());
        splits.all(|(at, split)| is_so(at, split))
    };
    let side_by_side = |job: &WriteSymbolsJob| of_splits(job, |_, split| split.le == split.gt + 1);
    let gt_next = |job: &WriteSymbolsJob| of_splits(job, |at, split| split.gt as usize == at + 1);
    let gt_first = |job: &WriteSymbolsJob| of_splits(job, |_, split| split.gt < split.le);
    for seed in SEEDS {
        let jobs = written("symbols", seed, 21);
        assert!(jobs.iter().any(|job| side_by_side(job) && !gt_next(job)));
        assert!(jobs.iter().any(|job| gt_next(job) && !side_by_side(job)));
        assert!(jobs.iter().any(|job| !gt_first(job)));
    }
}

/// The ends of 32 bits, fields that a node has no use for, kinds of leaves, and costs that learning leaves.
#[test]
fn trees_hold_whatever_a_node_may() {
    const HELD: &[fn(&Record) -> bool] = &[
        |node| node.is_split() && node.val == i32::MIN,
        |node| node.is_split() && node.val == i32::MAX,
        |node| node.is_split() && node.prop == 0,
        |node| node.is_split() && node.prop == 23,
        |node| node.is_split() && node.pred > 13,
        |node| node.is_split() && f32::from_bits(node.cost) > 1.0,
        |node| !node.is_split() && node.offset == i32::MIN,
        |node| !node.is_split() && node.offset == i32::MAX,
        |node| !node.is_split() && node.pred == 0,
        |node| !node.is_split() && node.pred == 13,
        |node| !node.is_split() && node.kind > 1,
        |node| !node.is_split() && node.prop > 24 && node.val != 0,
    ];
    for seed in SEEDS {
        let jobs = written("symbols", seed, 168);
        let nodes = || jobs.iter().flat_map(|job| &job.nodes.given);
        for (at, holds) in HELD.iter().enumerate() {
            assert!(nodes().any(holds), "{at}");
        }
        assert!(jobs.iter().any(|job| job.nodes.entries > job.count));
    }
}

/// Wrong counts by themselves, and trees at fault with no room for anything.
#[test]
fn each_fault_comes_up_alone() {
    const ALONE: &[fn(&WriteSymbolsJob) -> bool] = &[
        |job| job.count == 0,
        |job| job.count + 1 == given(job),
        |job| job.count == given(job) + 1 && job.count <= job.nodes.entries,
        |job| job.count == given(job) + 2 && job.count <= job.nodes.entries,
        |job| job.count == job.nodes.entries + 1,
        |job| job.count == u32::MAX,
        |job| job.count == 8_192 && job.nodes.entries >= 8_192,
        |job| job.nodes.given.iter().any(|n| n.is_split() && n.prop == 24),
        |job| {
            job.nodes
                .given
                .iter()
                .any(|n| !n.is_split() && n.pred == 14)
        },
        |job| job.nodes.given.iter().any(|n| n.is_split() && n.gt == n.le),
        |job| job.nodes.given[0].depth == 1,
        |job| job.nodes.given.iter().skip(1).any(|n| n.depth == 0),
        |job| job.nodes.given.iter().any(|n| n.depth == u32::MAX),
    ];
    assert_eq!(faults().len() + COUNTS.len(), 40);
    for seed in SEEDS {
        let jobs = written("symbol-faults", seed, 40);
        for (at, is_so) in ALONE.iter().enumerate() {
            assert!(jobs.iter().any(is_so), "{at}");
        }
        let is_bare = |job: &&WriteSymbolsJob| (job.pair_entries, job.queue_entries) == (0, 0);
        assert!(jobs.iter().filter(is_bare).count() >= 5);
        let mut struck = jobs[..faults().len()].iter();
        assert!(struck.all(|job| job.count == given(job)));
    }
}

#[test]
fn each_two_faults_come_together() {
    let kinds = faults().len() + COUNTS.len();
    let chosen = (0..1_640).map(|turn| alone_then_two(turn, kinds));
    let twos: BTreeSet<Vec<usize>> = chosen.filter(|chosen| chosen.len() == 2).collect();
    assert_eq!(twos.len(), kinds * kinds);
}

fn given(job: &WriteSymbolsJob) -> u32 {
    job.nodes.given.len() as u32
}

#[test]
fn each_list_meets_each_room() {
    for seed in SEEDS {
        let jobs = read(seed, 35);
        let mut seen = BTreeSet::new();
        for job in &jobs {
            let nodes = skeleton(&job.symbols);
            let room = match job.node_entries {
                0 => NONE,
                entries => i64::from(entries) - nodes.len() as i64,
            };
            seen.insert((look_of(&nodes), room));
        }
        for look in LOOKS {
            // A leaf's one entry less is none.
            let rooms = READING_ROOMS.into_iter();
            for room in rooms.filter(|&room| (look, room) != (Look::Leaf, -1)) {
                assert!(seen.contains(&(look, room)), "{look:?} with {room}");
            }
        }
        let symbols: Vec<&Symbol> = jobs.iter().flat_map(|job| &job.symbols).collect();
        for context in [0, 3] {
            for value in [0, u32::MAX - 1, u32::MAX] {
                assert!(symbols.contains(&&Symbol { context, value }));
            }
        }
    }
}

/// A list before it was spoilt and after, with how many nodes it then has room for.
fn spoilt(seed: u64, index: usize) -> (Vec<Symbol>, Vec<Symbol>, usize) {
    let mut rng = at("unreadable", seed, index).rng();
    let leaves = 2 + rng.below(12);
    let good = symbols_of(&any_tree(&mut rng, leaves, Shape::Any));
    match unreadable(at("unreadable", seed, index)) {
        Job::ReadSymbols(job) => (good, job.symbols, job.node_entries as usize),
        other => panic!("{other:?}"),
    }
}

/// Of the first jobs each spoils one context of one place, then one value, and nothing else.
#[test]
fn each_context_and_value_is_wrong_once() {
    assert_eq!(WAYS, 89);
    for seed in SEEDS {
        let (mut contexts, mut values) = (BTreeSet::new(), BTreeSet::new());
        for index in 0..PLACES * WRONG + VALUES.len() {
            let (good, bad, _) = spoilt(seed, index);
            assert_eq!(good.len(), bad.len());
            let pairs = good.iter().zip(&bad);
            let changed: Vec<_> = pairs.filter(|(good, bad)| good != bad).collect();
            let [(good, bad)] = changed[..] else {
                panic!("{} pairs changed", changed.len());
            };
            if good.value == bad.value {
                contexts.insert((place_of(good), bad.context));
            } else {
                assert_eq!(good.context, bad.context);
                values.insert((place_of(good), bad.value));
            }
        }
        for (place, right) in [1, 0, 1, 2, 3, 4, 5].into_iter().enumerate() {
            for wrong in [0, 1, 2, 3, 4, 5, 6, right + 256, u32::MAX] {
                assert_eq!(contexts.contains(&(place, wrong)), wrong != right);
            }
        }
        assert_eq!(values, BTreeSet::from(VALUES));
    }
}

/// What a spoilt list is to the one that it was.
type Sort = fn(&[Symbol], &[Symbol]) -> bool;

#[test]
fn each_list_is_cut_or_lengthened() {
    const SORTS: &[Sort] = &[
        |_, bad| bad.is_empty(),
        |good, bad| bad == &good[..1],
        |good, bad| bad == &good[..good.len() - 1],
        |good, bad| good.len() > bad.len() + 1 && good.starts_with(bad),
        |good, bad| good.starts_with(bad) && good[bad.len()..][0].context == 1,
        |good, bad| bad.len() == good.len() - 1 && !good.starts_with(bad),
        |good, bad| bad.len() == good.len() + 1 && bad.starts_with(good),
        |good, bad| bad.len() == good.len() + 1 && !bad.starts_with(good),
        |good, bad| bad.len() == good.len() + 5 && bad.starts_with(good),
        |good, bad| bad.len() == good.len() + 2 && bad.starts_with(good),
        |good, bad| bad == [good, good].concat(),
        |good, bad| bad.len() == good.len(),
        |good, bad| bad.len() == good.len() - 3 && !good.starts_with(bad),
    ];
    for seed in SEEDS {
        let first = PLACES * WRONG + VALUES.len();
        let lists: Vec<_> = (first..WAYS).map(|index| spoilt(seed, index)).collect();
        assert!(lists.iter().all(|(good, bad, _)| good != bad));
        for (at, is_so) in SORTS.iter().enumerate() {
            assert!(lists.iter().any(|(good, bad, _)| is_so(good, bad)), "{at}");
        }
    }
}

#[test]
fn each_way_meets_each_room() {
    for seed in SEEDS {
        let mut seen = BTreeSet::new();
        for index in 0..3 * WAYS {
            let (good, _, entries) = spoilt(seed, index);
            let nodes = skeleton(&good).len();
            let room = if entries == 0 { 0 } else { 1 + entries - nodes };
            seen.insert((index % WAYS, room));
        }
        let rooms = (0..WAYS).flat_map(|way| [0, 1, 4].map(|room| (way, room)));
        assert_eq!(seen, rooms.collect());
    }
}

#[test]
fn each_large_job_has_each_shape() {
    let mut seen = BTreeSet::new();
    for index in 0..36 {
        seen.insert(match symbols_large(at("symbols-large", 1, index)) {
            Job::WriteSymbols(job) => {
                let (nodes, exact) = (job.nodes.given.len(), pairs_of(&job.nodes.given));
                let short = (
                    exact - job.pair_entries as usize,
                    nodes - job.queue_entries as usize,
                );
                (look_of(&job.nodes.given), nodes, short)
            }
            Job::ReadSymbols(job) => {
                let nodes = skeleton(&job.symbols);
                let short = nodes.len().abs_diff(job.node_entries as usize);
                let splits = nodes.iter().all(Record::is_split);
                let look = if splits { Look::Split } else { look_of(&nodes) };
                (look, nodes.len(), (short, usize::MAX))
            }
            other => panic!("{other:?}"),
        });
    }
    let shapes = [Look::Level, Look::GtChain, Look::LeChain, Look::Other];
    let whole = [
        (8_191, (0, 0)),
        (8_191, (1, 0)),
        (8_191, (0, 1)),
        (8_193, (0, 0)),
    ];
    let read =
        [(8_191, 0), (8_191, 1), (8_193, 0)].map(|(nodes, short)| (nodes, (short, usize::MAX)));
    let of_trees = whole.into_iter().chain(read);
    let alone = [4_095, 4_096].map(|splits| (Look::Split, splits, (8_193 - splits, usize::MAX)));
    let due = of_trees.flat_map(|(nodes, short)| shapes.map(|look| (look, nodes, short)));
    assert_eq!(seen, due.chain(alone).collect());
}
