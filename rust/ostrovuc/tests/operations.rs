//! What accepted calls answer, on a job small enough to follow.

mod small;

use ostrovuc::{
    Entries, Leaf, MaNode, Room, Settings, Span, deepen, evenly_sampled_indices, leaf_contexts,
    learn, logarithms, lookup,
};
use small::{Job, MARK, PREDICTORS, PROPERTIES, ROWS, properties, residual};
use std::ops::Range;

/// The first given rows whose lookup reaches a node, with their residuals, in ascending order.
fn rows_reaching(job: &Job, nodes: u32, leaf: u32) -> Vec<([i32; PROPERTIES], i32)> {
    let reaches = |row: &usize| {
        let found = lookup(&job.room.nodes, nodes, &properties(*row));
        found.expect("a tree that was learned").leaf == leaf
    };
    let mut rows: Vec<_> = (0..ROWS)
        .filter(reaches)
        .map(|row| (properties(row), residual(row)))
        .collect();
    rows.sort();
    rows
}

/// The rows that stand in a span now, with their residuals, in ascending order.
fn rows_within(job: &Job, span: Range<usize>) -> Vec<([i32; PROPERTIES], i32)> {
    let rows = job.props.as_chunks::<PROPERTIES>().0;
    let mut rows: Vec<_> = span.map(|row| (rows[row], job.res[row])).collect();
    rows.sort();
    rows
}

fn spans<const N: usize>(rows: [(u32, u32); N]) -> [Span; N] {
    rows.map(|(first, end)| Span { first, end })
}

fn span(job: &Job, node: usize) -> Range<usize> {
    job.room.spans[node].rows()
}

#[test]
fn learning_splits_by_the_column() {
    let mut job = Job::with_limit(2);
    let tree = job.learn().expect("a sound job");
    assert_eq!((tree.nodes, tree.leaves), (3, 2));
    assert!(tree.bits < tree.flat);
    let [root, above, below] = job.room.nodes[..] else {
        panic!("as many nodes as two leaves take");
    };
    assert_eq!([root, above, below].map(|node| node.kind), [1, 0, 0]);
    assert_eq!([root, above, below].map(|node| node.depth), [0, 1, 1]);
    assert_eq!((root.prop, root.val, root.gt, root.le), (3, 0, 1, 2));
    assert_eq!((above.info.pred, above.info.offset), (0, 20));
    assert_eq!((below.info.pred, below.info.offset), (0, 100));
    assert_eq!(job.room.spans, spans([(0, 12), (0, 6), (6, 12)]));
}

#[test]
fn spans_hold_the_rows_that_look_up_to_them() {
    let mut job = Job::new();
    let tree = job.learn().expect("a sound job");
    assert_eq!(tree.leaves, 4);
    for node in 0..tree.nodes {
        if !job.room.nodes[node as usize].is_split() {
            let within = rows_within(&job, span(&job, node as usize));
            assert_eq!(within, rows_reaching(&job, tree.nodes, node));
        }
    }
}

#[test]
fn tokens_are_fresh_against_the_offsets() {
    let mut job = Job::new();
    let tree = job.learn().expect("a sound job");
    for (n, node) in job.room.nodes[..tree.nodes as usize].iter().enumerate() {
        if !node.is_split() && node.info.pred == 0 {
            for row in span(&job, n) {
                let packed = ostrovuc::pack_signed(job.res[row] - node.info.offset);
                let token = ostrovuc::uint_encode(packed).token;
                assert_eq!(u32::from(job.tok[row * PREDICTORS]), token);
            }
        }
    }
}

#[test]
fn spaces_are_cleared_and_entries_past_the_tree_stay() {
    let mut job = Job::new();
    job.settings.min_node = 7;
    let before = job.room.clone();
    let tree = job.learn().expect("a sound job");
    assert_eq!(tree.nodes, 3);
    let Room {
        nodes,
        spans,
        queue_words,
        queue_values,
        queue_gains,
        counts,
    } = job.room;
    assert_eq!(nodes[3..], before.nodes[3..]);
    assert_eq!(spans[3..], before.spans[3..]);
    assert!(queue_words.iter().chain(&counts).all(|&entry| entry == 0));
    assert!(queue_values.iter().all(|&entry| entry == 0));
    assert!(queue_gains.iter().all(|&entry| entry == 0.0));
}

#[test]
fn pruning_vacates_what_growth_wrote() {
    let mut job = Job::new();
    let before = job.room.clone();
    job.settings.prune_leaf_bits = 1_048_576.0;
    let tree = job.learn().expect("a sound job");
    assert_eq!((tree.nodes, tree.leaves), (1, 1));
    assert_eq!(job.room.nodes[1..], [MaNode::leaf(0, 0); 6]);
    assert_eq!(job.room.spans[1..], [Span::default(); 6]);

    job.room = before.clone();
    job.settings.prune_leaf_bits = 0.0;
    job.settings.split_cost_bits = 1_048_576.0;
    let tree = job.learn().expect("a sound job");
    assert_eq!((tree.nodes, tree.leaves), (1, 1));
    assert_eq!(job.room.nodes[1..], before.nodes[1..]);
    assert_eq!(job.room.spans[1..], before.spans[1..]);
}

/// How far each node lies from the root, by the way down to it.
fn distances(nodes: &[MaNode]) -> Vec<u32> {
    let mut distances = vec![u32::MAX; nodes.len()];
    let mut waiting = vec![(0, 0)];
    while let Some((n, distance)) = waiting.pop() {
        let node: &MaNode = &nodes[n as usize];
        distances[n as usize] = distance;
        if node.is_split() {
            waiting.extend([(node.gt, distance + 1), (node.le, distance + 1)]);
        }
    }
    distances
}

fn depths(nodes: &[MaNode]) -> Vec<u32> {
    nodes.iter().map(|node| node.depth).collect()
}

/// A job whose rows, which property 3 tells apart, all want leaves of their own; these lie at many depths.
fn uneven() -> Job {
    let mut job = Job::with_limit(12);
    let rows = job.props.as_chunks_mut::<PROPERTIES>().0.iter_mut();
    for (row, (props, res)) in rows.zip(&mut job.res).enumerate() {
        props[3] = row as i32;
        *res = 1 << row;
    }
    job
}

#[test]
fn depths_are_distances_from_the_root() {
    let mut job = uneven();
    let grown = job.learn().expect("a sound job").nodes as usize;
    let nodes = &job.room.nodes[..grown];
    assert_eq!(depths(nodes), distances(nodes));
    assert!(depths(nodes).iter().any(|&depth| depth > 3));

    let mut job = uneven();
    job.settings.prune_leaf_bits = 10.0;
    let kept = job.learn().expect("a sound job").nodes as usize;
    assert!(1 < kept && kept < grown, "{kept} of {grown}");
    let (nodes, vacated) = job.room.nodes[..grown].split_at(kept);
    assert_eq!(depths(nodes), distances(nodes));
    assert!(vacated.iter().all(|node| *node == MaNode::leaf(0, 0)));
}

#[test]
fn without_modal_offsets_a_short_alphabet_will_do() {
    let mut job = Job::new();
    job.settings.modal_offsets = false;
    job.settings.alphabet = 127;
    let tree = job.learn().expect("a sound job");
    let nodes = &job.room.nodes[..tree.nodes as usize];
    assert!(nodes.iter().all(|node| node.info.offset == 0));
}

#[test]
fn deepening_a_single_leaf_is_learning() {
    let mut learned = Job::new();
    let tree = learned.learn();
    let mut deepened = Job::new();
    deepened.plant(&[MaNode::leaf(5, -3)]);
    assert_eq!(deepened.deepen(1), tree);
    assert_eq!(deepened, learned);
}

#[test]
fn the_same_room_deepens_what_was_learned() {
    let mut job = Job::with_limit(4);
    job.settings.max_leaves = 2;
    let seed = job.learn().expect("a sound job");
    job.settings.max_leaves = 4;
    let tree = job.deepen(seed.nodes).expect("room for it");
    assert_eq!((tree.nodes, tree.leaves), (7, 4));
    assert_eq!(job.room.nodes[0].info.cost, f32::INFINITY);
    assert_eq!(span(&job, 0), 0..0);
    assert_eq!(depths(&job.room.nodes), distances(&job.room.nodes));
}

/// All rows come to the lowest leaf, which lies too deep to be split.
#[test]
fn a_seed_may_be_deeper_than_learning_grows() {
    let mut job = Job::with_limit(64);
    let seed = comb(81);
    job.plant(&seed);
    for props in job.props.as_chunks_mut::<PROPERTIES>().0 {
        props[0] = -1;
    }
    assert_eq!(job.deepen(81).map(|tree| tree.nodes), Ok(81));
    assert_eq!(span(&job, 80), 0..ROWS);
    assert_eq!(depths(&job.room.nodes[..81]), distances(&seed));
}

#[test]
fn no_rows_give_one_leaf() {
    let settings = Settings {
        alphabet: 1,
        max_leaves: 1,
        allowed_preds: 1 << 5,
        ..Settings::default()
    };
    let mut room = Room::for_learning(&settings, 0);
    let lists = room.lend(&mut [], &mut [], &mut []);
    let tree = learn(lists, &settings, &logarithms(0)).expect("no rows");
    assert_eq!((tree.nodes, tree.leaves), (1, 1));
    assert_eq!((tree.bits, tree.flat), (0.0, 0.0));
    assert_eq!(room.nodes, [MaNode::leaf(5, 0)]);
}

/// 0 splits to 1 and 2, 1 splits to 3 and 4.
const FIVE: [MaNode; 5] = [
    MaNode::split(0, 10, 1, 2),
    MaNode::split(1, -10, 3, 4).at_depth(1),
    MaNode::leaf(5, 0).at_depth(1),
    MaNode::leaf(6, 0).at_depth(2),
    MaNode::leaf(7, 0).at_depth(2),
];

#[test]
fn an_equal_property_goes_to_le() {
    let found = |first, second| {
        let mut props = [0; PROPERTIES];
        props[0] = first;
        props[1] = second;
        lookup(&FIVE, 5, &props)
    };
    assert_eq!(found(10, 0), Ok(Leaf { leaf: 2, pred: 5 }));
    assert_eq!(found(11, -10), Ok(Leaf { leaf: 4, pred: 7 }));
    assert_eq!(found(11, -9), Ok(Leaf { leaf: 3, pred: 6 }));
}

#[test]
fn a_lookup_does_not_look_at_depths() {
    let mut props = [0; PROPERTIES];
    props[0] = 11;
    for depth in [0, 1, 7, u32::MAX] {
        let nodes = FIVE.map(|node| node.at_depth(depth));
        let found = lookup(&nodes, 5, &props);
        assert_eq!(found, Ok(Leaf { leaf: 3, pred: 6 }));
    }
}

#[test]
fn contexts_go_breadth_first() {
    let (mut contexts, mut queue) = ([MARK; 7], [MARK; 6]);
    let counted = leaf_contexts(&FIVE, 5, &mut contexts, &mut queue);
    assert_eq!(counted, Ok(3));
    assert_eq!(contexts, [u32::MAX, u32::MAX, 0, 1, 2, MARK, MARK]);
    assert_eq!(queue, [0; 6]);
}

#[test]
fn any_other_kind_is_a_leaf() {
    for kind in [2, 0x100, 0x101, u32::MAX] {
        let nodes = FIVE.map(|node| match node.is_split() {
            true => node,
            false => MaNode { kind, ..node },
        });
        let (mut contexts, mut queue) = ([MARK; 5], [MARK; 5]);
        let found = lookup(&nodes, 5, &[0; PROPERTIES]);
        assert_eq!(found, Ok(Leaf { leaf: 2, pred: 5 }));
        let counted = leaf_contexts(&nodes, 5, &mut contexts, &mut queue);
        assert_eq!(counted, Ok(3));
        assert_eq!(contexts, [u32::MAX, u32::MAX, 0, 1, 2]);

        let root = MaNode { kind, ..FIVE[0] };
        let found = lookup(&[root], 1, &[0; PROPERTIES]);
        assert_eq!(found, Ok(Leaf { leaf: 0, pred: 0 }));
    }
}

/// Learning and deepening write a leaf's kind as 0, whatever it was in the seed.
#[test]
fn a_seed_of_any_other_kind_is_a_leaf() {
    let mut learned = Job::new();
    let tree = learned.learn();
    let mut deepened = Job::new();
    deepened.plant(&[MaNode { kind: 2, ..FIVE[0] }]);
    assert_eq!(deepened.deepen(1), tree);
    assert_eq!(deepened, learned);
}

#[test]
fn samples_are_even() {
    let mut out = [MARK; 5];
    assert_eq!(evenly_sampled_indices(5, 3, &mut out), Ok(3));
    assert_eq!(out, [0, 1, 3, MARK, MARK]);
    assert_eq!(evenly_sampled_indices(2, usize::MAX, &mut out), Ok(2));
    assert_eq!(out[..3], [0, 1, 3]);
    assert_eq!(evenly_sampled_indices(65_536, 0, &mut []), Ok(0));
}

#[test]
fn logarithms_are_true() {
    assert_eq!(logarithms(0), [0.0]);
    let logs = logarithms(65_536);
    assert_eq!(logs.len(), 65_537);
    assert_eq!([logs[1], logs[2], logs[65_536]], [0.0, 1.0, 16.0]);
    assert_eq!(logs[3], 1.584_962_5);
}

/// A seed of `count` nodes: every other node is a split, of whose children the first is a leaf, which takes all rows.
fn comb(count: u32) -> Vec<MaNode> {
    let node = |n: u32| {
        let node = match n % 2 == 0 && n + 2 < count {
            true => MaNode::split(0, -1, n + 1, n + 2),
            false => MaNode::leaf(0, 0),
        };
        node.at_depth(n.div_ceil(2))
    };
    (0..count).map(node).collect()
}

/// Learning or deepening of so many rows, all alike, with the room made for it.
fn has_room(settings: &Settings, rows: usize, seed: u32) -> bool {
    let (mut props, mut tok) = (vec![0; PROPERTIES * rows], vec![0; PREDICTORS * rows]);
    let logs = logarithms(rows);
    let answer = if seed == 0 {
        let mut room = Room::for_learning(settings, rows);
        learn(room.lend(&mut props, &mut tok, &mut []), settings, &logs)
    } else {
        let mut room = Room::for_deepening(settings, rows, &comb(seed));
        deepen(
            room.lend(&mut props, &mut tok, &mut []),
            settings,
            seed,
            &logs,
        )
    };
    answer.is_ok()
}

#[test]
fn room_suffices() {
    for (alphabet, max_leaves) in [(1, 1), (17, 2), (256, 64), (1, 4_096)] {
        for (side_preds, max_candidates) in [(0, 0), (1, 1), (3, 2), (14, 32)] {
            let settings = Settings {
                alphabet,
                max_leaves,
                side_preds,
                max_candidates,
                allowed_preds: 1,
                ..Settings::default()
            };
            for (rows, seed) in [(5, 0), (5, 1), (4_200, 127), (5, 8_191), (4_200, 8_191)] {
                assert!(
                    has_room(&settings, rows, seed),
                    "{settings:?}, {rows} rows, {seed} nodes"
                );
            }
        }
    }
}

#[test]
fn room_of_any_size_has_as_many_entries() {
    let entries = Entries {
        nodes: 5,
        spans: 3,
        queue: 2,
        counts: 7,
    };
    let mut room = Room::of_entries(entries);
    assert_eq!(room.entries(), entries);
    room.queue_words = vec![1, 2, 3, 4, 5, 6, 7, 8];
    room.queue_values[1] = -1;
    room.queue_gains[0] = 1.0;
    let bits: Vec<_> = room.queue_bits().collect();
    let (first, second) = ([1, 2, 3, 4, 0, 0x3f80_0000], [5, 6, 7, 8, u32::MAX, 0]);
    assert_eq!(bits, [first, second]);
}

#[test]
fn room_is_bounded_whatever_the_settings() {
    let settings = Settings {
        alphabet: u32::MAX,
        max_leaves: u32::MAX,
        side_preds: u32::MAX,
        max_candidates: u32::MAX,
        ..Settings::default()
    };
    let room = Room::for_learning(&settings, 1);
    assert_eq!((room.nodes.len(), room.spans.len()), (8_191, 8_191));
    assert_eq!(room.counts.len(), 4_096 + 14 * 256 + 14 * 256 * 34);
}
