//! Splits in growth's order pass, in another they are refused.

use super::Break;
use super::small::{job, two_leaves};
use crate::growth;
use stream::{Learned, Learning, Record, Span};

/// The only predictor allowed is tried on the sides, and nothing is rebased.
fn plain() -> Learning {
    let mut plain = job(4);
    plain.settings.modal_offsets = false;
    plain
}

fn split(gt: u32, cost: f32) -> Record {
    Record::split(0, 0, gt, gt + 1).with_cost(cost)
}

/// Nodes 1 and 2 gain 4 bits each. Node 2, which has more rows, was split first.
fn in_order() -> Learned {
    const SPANS: [[u32; 2]; 7] = [[0, 5], [0, 2], [2, 5], [2, 3], [3, 5], [0, 1], [1, 2]];
    let mut nodes = vec![Record::leaf(0, 0).with_cost(0.0); 7];
    nodes[0] = split(1, 13.0);
    nodes[1] = split(5, 4.0);
    nodes[2] = split(3, 4.0);
    Learned {
        node_count: 7,
        nodes,
        spans: SPANS.map(|[first, end]| Span { first, end }).to_vec(),
        ..two_leaves()
    }
}

/// How the answer is broken, and before which split growth then made another.
#[rustfmt::skip]
const OUT_OF_ORDER: &[Break] = &[
    (|a| a.nodes.swap(1, 2), "before Split { node: 2, gt: 5, gain: 4.0, rows: 3 }"),
    (|a| a.spans[1].end = 4, "before Split { node: 1, gt: 5, gain: 4.0, rows: 4 }"),
    (|a| a.spans[1].end = 3, "before Split { node: 1, gt: 5, gain: 4.0, rows: 3 }"),
    (|a| a.nodes[1] = split(5, 4.5), "before Split { node: 1, gt: 5, gain: 4.5, rows: 2 }"),
    (|a| a.nodes[2] = split(3, 3.5), "before Split { node: 1, gt: 5, gain: 4.0, rows: 2 }"),
    (|a| a.nodes[3] = a.nodes[3].with_cost(0.5), "before Split { node: 1, gt: 5, gain: 4.0, rows: 2 }"),
    (|a| a.nodes[6] = a.nodes[6].with_cost(-0.5), "before Split { node: 1, gt: 5, gain: 4.5, rows: 2 }"),
];

#[test]
fn splits_are_made_in_growths_order() {
    assert_eq!(growth::check(&plain(), &in_order()), Ok(()));
    for (breaks, why) in OUT_OF_ORDER {
        let mut answer = in_order();
        breaks(&mut answer);
        let said = growth::check(&plain(), &answer);
        let said = said.err().unwrap_or_else(|| panic!("not refused: {why}"));
        assert!(said.contains(why), "{said:?}, where due is {why:?}");
    }
}

/// Node 3 gains more than node 2 and came later: it is a leaf of node 2's split.
#[test]
fn a_leaf_waits_once_it_is_there() {
    let mut answer = in_order();
    answer.nodes[3] = split(5, 20.0);
    answer.nodes[2] = split(3, 24.0);
    answer.nodes[1] = Record::leaf(0, 0).with_cost(4.0);
    assert_eq!(growth::check(&plain(), &answer), Ok(()));
}

/// Where the answer does not tell what a split gained, no order is due of it.
#[test]
fn gains_that_an_answer_does_not_tell() {
    const UNTOLD: &[fn(&mut Learning)] = &[
        |job| job.settings.price = 1.0,
        |job| job.settings.modal_offsets = true,
        |job| job.settings.allowed = 3,
    ];
    let mut answer = in_order();
    OUT_OF_ORDER[0].0(&mut answer);
    for untell in UNTOLD {
        let mut job = plain();
        assert!(growth::check(&job, &answer).is_err());
        untell(&mut job);
        assert_eq!(growth::check(&job, &answer), Ok(()));
    }
}
