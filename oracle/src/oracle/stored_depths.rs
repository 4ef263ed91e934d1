//! Depths by hand: of what is learned, pruned and read, and what the operations say of wrong ones. (What the writer of
//! symbols says of them: see its own tests.)

use crate::coder_scratch::CoderScratch;
use crate::{operations, plain};
use stream::*;

fn answer(job: Job) -> Answer {
    let job = Job::read(&job.message()).expect("a sound job");
    operations::answer(job, &mut CoderScratch::default()).expect("a sound job")
}

/// Splits 0, 2 and 3 of a tree that is numbered neither level by level nor gt first.
fn seven_nodes() -> Vec<Record> {
    vec![
        Record::split(3, 6, 2, 1),
        Record::leaf(1, 0).at_depth(1),
        Record::split(3, 7, 5, 3).at_depth(1),
        Record::split(9, 0, 6, 4).at_depth(2),
        Record::leaf(2, 0).at_depth(3),
        Record::leaf(3, 0).at_depth(2),
        Record::leaf(4, 0).at_depth(3),
    ]
}

/// The seven nodes with these depths.
fn at_depths(depths: [u32; 7]) -> Vec<Record> {
    let nodes = seven_nodes().into_iter().zip(depths);
    nodes.map(|(node, depth)| node.at_depth(depth)).collect()
}

fn list_of(given: &[Record]) -> NodeList {
    NodeList {
        entries: given.len() as u32,
        given: given.to_vec(),
    }
}

/// Number and place that contexts, with room for two more nodes than there are, come back with.
fn contexts_of(given: &[Record]) -> (u32, u32) {
    let room = given.len() as u32 + 2;
    let job = ContextsJob {
        count: given.len() as u32,
        nodes: list_of(given),
        fill: 7,
        context_entries: room,
        queue_entries: room,
    };
    match answer(Job::Contexts(job)) {
        Answer::Contexts(answer) => (answer.number, answer.place),
        other => panic!("{other:?}"),
    }
}

/// Rows whose property 3 is the row's number, each with a token of its own, and room for eight leaves.
fn learning(rows: usize, limit: u32, seed: &[Record]) -> Learning {
    let mut job = plain::learning(rows, 16, limit);
    for (row, properties) in job.properties.chunks_mut(PROPERTIES).enumerate() {
        properties[3] = row as i32;
    }
    for (row, tokens) in job.tokens.chunks_mut(PREDICTORS).enumerate() {
        tokens.fill(row as u8);
    }
    job.seed_count = seed.len() as u32;
    job.nodes = NodeList {
        entries: 16,
        given: seed.to_vec(),
    };
    (job.span_entries, job.queue_entries) = (16, 16);
    job
}

fn depths_of(nodes: &[Record]) -> Vec<u32> {
    nodes.iter().map(|node| node.depth).collect()
}

/// Nothing but the lists of nodes is looked at, and 8 names this node.
#[track_caller]
fn is_at_fault(nodes: &[Record], place: u32) {
    assert_eq!(contexts_of(nodes), (8, place));
    let Answer::Deepened(answer) = answer(Job::Deepen(learning(4, 5, nodes))) else {
        panic!("no answer to deepening");
    };
    assert_eq!((answer.number, answer.place), (8, place));
    assert_eq!(answer.nodes[..nodes.len()], *nodes);
}

#[test]
fn each_depth_is_one_more_than_the_parents() {
    const WRONG: &[([u32; 7], u32)] = &[
        ([1, 1, 1, 2, 3, 2, 3], 0),
        ([u32::MAX, 1, 1, 2, 3, 2, 3], 0),
        // All are one more, so that only the root's is not what it must be.
        ([1, 2, 2, 3, 4, 3, 4], 0),
        ([0, 0, 1, 2, 3, 2, 3], 1),
        ([0, 2, 1, 2, 3, 2, 3], 1),
        ([0, 1, 0, 2, 3, 2, 3], 2),
        ([0, 1, u32::MAX, 2, 3, 2, 3], 2),
        ([0, 1, 1, 1, 3, 2, 3], 3),
        ([0, 1, 1, 3, 4, 2, 4], 3),
        ([0, 1, 1, 2, 2, 2, 3], 4),
        ([0, 1, 1, 2, 3, 3, 3], 5),
        ([0, 1, 1, 2, 3, 2, 0], 6),
        ([0, 0, 0, 0, 0, 0, 0], 1),
        ([0, 1, 2, 3, 4, 5, 6], 2),
    ];
    assert_eq!(contexts_of(&seven_nodes()), (0, 0));
    for &(depths, place) in WRONG {
        is_at_fault(&at_depths(depths), place);
    }
}

/// The parent counts wherever it stands, and no number is one more than the last.
#[test]
fn a_parent_may_stand_behind() {
    const FIRST: [(u32, u32, u32); 10] = [
        (0, 0, 1),
        (0, 1, 2),
        (5, 0, 1),
        (5, 5, 1),
        (5, 6, 2),
        (5, 7, 1),
        (u32::MAX - 1, 0, 1),
        (u32::MAX - 1, u32::MAX, 2),
        (u32::MAX, 0, 1),
        (u32::MAX, u32::MAX, 1),
    ];
    for (parent, child, at_fault) in FIRST {
        let leaf = Record::leaf(0, 0);
        let split = Record::split(0, 0, 1, 1).at_depth(parent);
        is_at_fault(&[leaf, leaf.at_depth(child), split], at_fault);
    }
}

/// Without a parent, or with two, a node is at fault whatever its depth.
#[test]
fn only_an_only_parent_counts() {
    let leaf = Record::leaf(0, 0);
    for depth in [0, 1, 2, 7, u32::MAX] {
        is_at_fault(&[leaf, leaf.at_depth(depth)], 1);
        let shared = [
            Record::split(0, 0, 1, 2),
            Record::split(0, 0, 2, 3).at_depth(1),
            leaf.at_depth(depth),
            leaf.at_depth(2),
        ];
        is_at_fault(&shared, 2);
    }
}

/// The lowest node is named, whatever is wrong with it.
#[test]
fn the_lowest_node_at_fault_is_named() {
    let mut nodes = at_depths([0, 1, 1, 9, 10, 2, 10]);
    nodes[4].pred = 14;
    is_at_fault(&nodes, 3);
    nodes[2].prop = 24;
    is_at_fault(&nodes, 2);
    let mut nodes = seven_nodes();
    (nodes[3].gt, nodes[1].depth) = (3, 0);
    is_at_fault(&nodes, 1);
}

#[test]
fn room_comes_before_depths_in_deepening_and_after_them_in_contexts() {
    let nodes = at_depths([0, 1, 1, 2, 3, 2, 0]);
    let mut job = learning(4, 5, &nodes);
    job.queue_entries = 4;
    let Answer::Deepened(answer) = answer(Job::Deepen(job)) else {
        panic!("no answer to deepening");
    };
    assert_eq!((answer.number, answer.place), (7, 0));
    let job = ContextsJob {
        count: 7,
        nodes: list_of(&nodes),
        fill: 7,
        context_entries: 0,
        queue_entries: 0,
    };
    let Answer::Contexts(answer) = self::answer(Job::Contexts(job)) else {
        panic!("no answer to contexts");
    };
    assert_eq!((answer.number, answer.place), (8, 6));
}

#[test]
fn lookup_does_not_look_at_depths() {
    for depths in [[1; 7], [u32::MAX; 7], [6, 5, 4, 3, 2, 1, 0]] {
        let job = LookupJob {
            count: 7,
            nodes: list_of(&at_depths(depths)),
            fill: 7,
            properties: vec![7; PROPERTIES],
        };
        let Answer::Found(found) = answer(Job::Lookup(job)) else {
            panic!("no answer to lookup");
        };
        assert_eq!((found.number, found.leaf, found.pred), (0, 6, 4));
    }
}

/// Four rows are set apart one by one, from the lowest on; entries past the tree hold their pattern.
#[test]
fn learned_nodes_have_their_depths() {
    let mut job = learning(4, 4, &[]);
    job.settings.candidates = 1;
    let Answer::Learned(answer) = answer(Job::Learn(job)) else {
        panic!("no answer to learning");
    };
    assert_eq!((answer.number, answer.node_count), (0, 7));
    let depths = depths_of(&answer.nodes);
    assert_eq!(depths[..9], [0, 1, 1, 2, 2, 3, 3, 7 + 7, 7 + 8]);
}

/// Rows 0 to 6 end in leaf 1, 8 and 9 in leaf 5, 7 in leaf 4: leaf 1 is split, then its gt child. The seed's nodes keep
/// their depths and each new leaf has one more than its split.
#[test]
fn deepened_nodes_have_their_depths() {
    let Answer::Deepened(answer) = answer(Job::Deepen(learning(10, 6, &seven_nodes()))) else {
        panic!("no answer to deepening");
    };
    assert_eq!((answer.number, answer.node_count), (0, 11));
    let children = |at: usize| (answer.nodes[at].gt, answer.nodes[at].le);
    assert_eq!((children(1), children(7)), ((7, 8), (9, 10)));
    let depths = depths_of(&answer.nodes);
    assert_eq!(depths[..7], depths_of(&seven_nodes()));
    assert_eq!(depths[7..11], [2, 2, 3, 3]);
}

/// Split 3 is folded: its children are gone, and the others keep their depths under new numbers.
#[test]
fn pruned_nodes_keep_their_depths() {
    let mut nodes = seven_nodes();
    for (at, cost) in [(0, 90.0), (2, 90.0), (3, 1.0)] {
        nodes[at] = nodes[at].with_cost(cost);
    }
    let job = |nodes: &[Record]| {
        Job::Prune(PruneJob {
            price: 2.0,
            nodes: nodes.to_vec(),
            spans: vec![Span { first: 2, end: 5 }; 7],
        })
    };
    let Answer::Pruned(answer) = answer(job(&nodes)) else {
        panic!("no answer to pruning");
    };
    assert_eq!(answer.node_count, 5);
    assert_eq!(depths_of(&answer.nodes), [0, 1, 2, 2, 1, 0, 0]);
    nodes[5].depth = 3;
    let scratch = &mut CoderScratch::default();
    assert!(operations::answer(job(&nodes), scratch).is_err());
}
