//! What the families say of depths: right ones everywhere but where a fault strikes, and within how many jobs each case
//! comes up, whatever the seed.

use super::*;
use crate::seeds::faults;
use crate::{alone_then_two, find};
use std::collections::BTreeSet;

const SEEDS: [u64; 3] = [1, 2, 77];

/// Jobs of a family from the first on, each with its place.
fn jobs(family: &str, seed: u64, count: u64) -> impl Iterator<Item = (usize, Job)> {
    let family = find(family).unwrap_or_else(|_| panic!("no family {family}"));
    let name = family.name;
    let at = move |index| At {
        family: name,
        seed,
        index,
    };
    (0..count).map(move |index| (index as usize, (family.job)(at(index))))
}

fn nodes_of(job: &Job) -> &[Record] {
    match job {
        Job::Learn(job) | Job::Deepen(job) => &job.nodes.given,
        Job::Lookup(job) => &job.nodes.given,
        Job::Contexts(job) => &job.nodes.given,
        Job::WriteSymbols(job) => &job.nodes.given,
        Job::Prune(job) => &job.nodes,
        _ => &[],
    }
}

/// For each node the depth that is due by what its parent stores; 0 where there is no parent.
fn due(nodes: &[Record]) -> Vec<u64> {
    let mut due = vec![0; nodes.len()];
    for node in nodes.iter().filter(|node| node.is_split()) {
        due[node.gt as usize] = u64::from(node.depth) + 1;
        due[node.le as usize] = u64::from(node.depth) + 1;
    }
    due
}

/// The nodes whose depth is not the one due.
fn wrong(nodes: &[Record]) -> Vec<usize> {
    let due = due(nodes);
    let is_wrong = |&at: &usize| u64::from(nodes[at].depth) != due[at];
    (0..nodes.len()).filter(is_wrong).collect()
}

/// Every child is one of the nodes: not so where a job gives fewer than it counts, or a fault is another one.
fn are_whole(nodes: &[Record]) -> bool {
    let mut splits = nodes.iter().filter(|node| node.is_split());
    splits.all(|node| (node.gt.max(node.le) as usize) < nodes.len())
}

#[test]
fn trees_have_right_depths() {
    const SOUND: [(&str, u64); 10] = [
        ("ties", 40),
        ("deep", 8),
        ("settling", 60),
        ("limits-k", 40),
        ("seeds", 60),
        ("seed-room", 10),
        ("prune", 60),
        ("symbols", 168),
        ("symbols-large", 9),
        ("agree", 63),
    ];
    for (family, count) in SOUND {
        let mut nodes = 0;
        for (index, job) in jobs(family, 1, count) {
            let given = nodes_of(&job);
            assert!(
                !are_whole(given) || wrong(given).is_empty(),
                "{family} {index}"
            );
            nodes += given.len();
        }
        assert!(nodes > 20, "{family} has {nodes} nodes");
    }
}

/// How many levels a sound tree has below its root.
fn levels(nodes: &[Record]) -> usize {
    let mut depths = vec![0; nodes.len()];
    for (at, node) in nodes.iter().enumerate().filter(|(_, node)| node.is_split()) {
        depths[node.gt as usize] = depths[at] + 1;
        depths[node.le as usize] = depths[at] + 1;
    }
    depths.into_iter().max().expect("a tree has a root")
}

/// Each operation meets each sort of tree with each fault and with none, and nothing is wrong but that.
#[test]
fn each_operation_meets_each_fault_in_each_tree() {
    for seed in SEEDS {
        let mut seen = BTreeSet::new();
        for (index, job) in jobs("depths", seed, 420) {
            let (tree, fault) = (index % TREES.len(), index % (DEPTHS.len() + 1));
            seen.insert((job.kind(), tree, fault));
            let nodes = nodes_of(&job);
            is_only(fault, nodes);
            let chain = [4, 5].contains(&tree) && fault < 12;
            assert!(!chain || levels(nodes) > 26, "{index}");
        }
        assert_eq!(seen.len(), 4 * 7 * 15);
    }
}

/// The fault of this number is there, and no other one. A leaf alone has no node but its root.
#[track_caller]
fn is_only(fault: usize, nodes: &[Record]) {
    let wrong = wrong(nodes);
    let first = wrong.first().copied();
    let has_below = |splits: bool| nodes[1..].iter().any(|node| node.is_split() == splits);
    match fault {
        0 | 1 => assert_eq!(first, Some(0)),
        2..=9 if nodes.len() > 1 => {
            let splits = fault > 5;
            let at = first.expect("a wrong depth");
            assert!(at > 0 && (!has_below(splits) || nodes[at].is_split() == splits));
        }
        2..=9 => {}
        10 => assert_eq!(wrong, [0]),
        11 => assert_eq!(wrong.len(), 1),
        12 => assert_eq!((wrong, nodes.len()), (vec![1, 2], 3)),
        13 => assert_eq!(nodes.len(), 3),
        _ => assert_eq!(wrong, []),
    }
}

/// What a wrong depth may be to the parent's.
type Relation = fn(u64, u64) -> bool;

#[test]
fn each_wrong_depth_comes_up() {
    const RELATIONS: [Relation; 4] = [
        |depth, parent| depth == 0 && parent > 0,
        |depth, parent| depth == parent && parent > 0,
        |depth, parent| depth == parent + 2,
        |depth, _| depth == u64::from(u32::MAX),
    ];
    for seed in SEEDS {
        let mut seen = BTreeSet::new();
        for (index, job) in jobs("depths", seed, 420) {
            let nodes = nodes_of(&job);
            let fault = index % (DEPTHS.len() + 1);
            if !(2..=9).contains(&fault) || nodes.len() < 4 {
                continue;
            }
            let at = wrong(nodes)[0];
            let (depth, parent) = (u64::from(nodes[at].depth), due(nodes)[at] - 1);
            let is_split = nodes[at].is_split();
            for (which, holds) in RELATIONS.iter().enumerate() {
                if holds(depth, parent) {
                    seen.insert((job.kind(), is_split, parent > 26, which));
                }
            }
        }
        for kind in [2, 3, 4, 32] {
            for (is_split, which) in (0..8).map(|n| (n % 2 == 0, n / 2)) {
                let shallow = seen.contains(&(kind, is_split, false, which));
                let deep = seen.contains(&(kind, is_split, true, which));
                assert!(shallow || deep, "{kind} {is_split} {which}");
            }
            assert!(seen.iter().any(|&(k, _, deep, _)| k == kind && deep));
        }
    }
}

/// In 66 jobs of seed-faults and in 2,244: deepening and contexts take the same turn.
#[test]
fn faults_of_a_seed_come_alone_and_by_twos() {
    let kinds = faults().len();
    assert_eq!(kinds, 33);
    let chosen = (0..1_122).map(|turn| alone_then_two(turn, kinds));
    let chosen: Vec<Vec<usize>> = chosen.collect();
    assert!(chosen[..33].iter().flatten().copied().eq(0..33));
    let twos: BTreeSet<&Vec<usize>> = chosen.iter().filter(|both| both.len() == 2).collect();
    assert_eq!(twos.len(), 33 * 33);
}

/// With the parent behind its child the child is at fault or, where its depth is the one due, the parent is.
#[test]
fn parents_stand_behind_their_children() {
    for family in ["depths", "seed-faults", "symbol-faults"] {
        let mut seen = BTreeSet::new();
        for (_, job) in jobs(family, 1, 2_200) {
            let nodes = nodes_of(&job);
            if let [_, child, parent] = nodes
                && !child.is_split()
                && parent.is_split()
                && (parent.gt, parent.le) == (1, 1)
            {
                let is_due = u64::from(child.depth) == u64::from(parent.depth) + 1;
                seen.insert((job.kind(), is_due, parent.depth));
            }
        }
        for (kind, of_family) in [
            (2, "seed-faults"),
            (4, "seed-faults"),
            (32, "symbol-faults"),
        ] {
            for sort in [
                (true, 5),
                (false, 5),
                (false, u32::MAX),
                (true, u32::MAX - 1),
            ] {
                let due = family == "depths" || family == of_family;
                assert!(
                    !due || seen.contains(&(kind, sort.0, sort.1)),
                    "{family} {kind} {sort:?}"
                );
            }
        }
    }
}

/// Every family with faults has wrong depths among them.
#[test]
fn faults_have_wrong_depths() {
    const FAULTY: [&str; 8] = [
        "depths",
        "seed-faults",
        "seeds-large",
        "refusals",
        "kinds",
        "lookup",
        "contexts",
        "symbol-faults",
    ];
    for name in FAULTY {
        let count = if name == "seeds-large" { 32 } else { 400 };
        let has_wrong = |(_, job): (usize, Job)| {
            let nodes = nodes_of(&job);
            are_whole(nodes) && !wrong(nodes).is_empty()
        };
        assert!(jobs(name, 1, count).any(has_wrong), "{name}");
    }
}
