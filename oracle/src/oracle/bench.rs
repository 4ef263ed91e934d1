//! Document 01's bench table, as answers of the oracle.

use crate::coder_scratch::CoderScratch;
use crate::{operations, plain};
use stream::*;

fn answer(job: Job) -> Answer {
    operations::answer(job, &mut CoderScratch::default()).expect("sound job")
}

/// `rows` rows of zeros with just enough room, predictor 5 alone allowed.
fn learning(rows: usize, alphabet: u32) -> Learning {
    let mut job = plain::learning(rows, alphabet, 1);
    job.settings.side_predictors = 0;
    job.settings.candidates = 0;
    job.settings.allowed = 1 << 5;
    job.settings.modal_offsets = true;
    job.logarithms.fill(0.0);
    job.count_entries = 4_096 + 56 * alphabet;
    job
}

fn learned(job: Learning) -> Learned {
    match answer(Job::Learn(job)) {
        Answer::Learned(answer) => answer,
        other => panic!("{other:?}"),
    }
}

#[test]
fn tokens() {
    let token = |token, extra_count, extra_bits| TokenOf {
        token,
        extra_count,
        extra_bits,
    };
    let expected = vec![
        token(15, 0, 0),
        token(16, 2, 0),
        token(127, 29, 536_870_911),
    ];
    assert_eq!(
        answer(Job::Token(vec![15, 16, u32::MAX])),
        Answer::Tokens(expected)
    );
}

#[test]
fn packing() {
    let packed = Answer::Packed(vec![0, 1, 2, u32::MAX]);
    assert_eq!(answer(Job::Pack(vec![0, -1, 1, i32::MIN])), packed);
}

#[test]
fn values_read_tokens_back() {
    let value = |number, value| ValueOf {
        number,
        place: 0,
        value,
    };
    let pairs = vec![
        (15, 0),
        (15, 1),
        (16, 0),
        (16, 4),
        (127, 536_870_911),
        (128, 0),
    ];
    let values = [(0, 15), (10, 0), (0, 16), (10, 0), (0, u32::MAX), (10, 0)];
    let expected = values.map(|(number, v)| value(number, v)).to_vec();
    assert_eq!(answer(Job::Value(pairs)), Answer::Values(expected));
}

#[test]
fn modes() {
    let mode = |residuals: &[i32]| match answer(Job::Mode(residuals.to_vec())) {
        Answer::Mode(mode, _) => mode,
        other => panic!("{other:?}"),
    };
    assert_eq!(mode(&[5, 3, 5, 3]), 3);
    assert_eq!(mode(&[7, 4_102]), 7);
    assert_eq!(mode(&[7, 4_103]), 0);
}

#[test]
fn candidates() {
    let of = |column: &[i32], limit| answer(Job::Candidates(column.to_vec(), limit));
    assert_eq!(of(&[10, 20, 30], 32), Answer::Candidates(vec![10, 20]));
    assert_eq!(of(&[10, 20, 30], 1), Answer::Candidates(vec![10]));
    assert_eq!(of(&[10, 20, 30], 0), Answer::Candidates(vec![]));
}

/// One row's value stands apart; the first row at which a probe sees it is the
/// stride.
#[test]
fn strides() {
    let probes = |rows: usize, row: usize| {
        let mut column = vec![0; rows];
        column[row] = 1;
        answer(Job::Candidates(column, 32)) == Answer::Candidates(vec![0])
    };
    for (rows, stride) in [(2_047, 1), (2_048, 3), (3_072, 3), (4_096, 5)] {
        let first = (1..rows).find(|&row| probes(rows, row));
        assert_eq!(first, Some(stride), "{rows} rows");
    }
}

#[test]
fn partition() {
    let parted = Answer::Partitioned(2, vec![8, 9, 2, 1]);
    assert_eq!(answer(Job::Partition(vec![1, 9, 2, 8], 5)), parted);
}

#[test]
fn even_sampling() {
    let job = SampleJob {
        rows: 5,
        target: 3,
        output_entries: 3,
        fill: 9,
    };
    let expected = Sampled {
        number: 0,
        place: 0,
        picked: 3,
        output: vec![0, 1, 3],
    };
    assert_eq!(answer(Job::Sample(job)), Answer::Sampled(expected));
}

#[test]
fn no_rows() {
    let answer = learned(learning(0, 1));
    assert_eq!(
        (answer.number, answer.node_count, answer.leaf_count),
        (0, 1, 1)
    );
    assert_eq!(answer.nodes, [Record::leaf(5, 0)]);
    assert_eq!((answer.estimated_bits, answer.flat_bits), (0.0, 0.0));
}

#[test]
fn row_limit_and_modal_alphabet() {
    assert_eq!(learned(learning(65_536, 128)).number, 0);
    assert_eq!(learned(learning(65_537, 128)).number, 3);
    assert_eq!(learned(learning(1, 127)).number, 5);
    assert_eq!(learned(learning(1, 128)).number, 0);
}

#[test]
fn pruning() {
    let pruned = |price| {
        let nodes = vec![
            Record::split(0, 0, 1, 2).with_cost(10.0),
            Record::leaf(0, 0).with_cost(4.0).at_depth(1),
            Record::leaf(0, 0).with_cost(5.0).at_depth(1),
        ];
        let spans = vec![Span::BLANK; 3];
        match answer(Job::Prune(PruneJob {
            price,
            nodes,
            spans,
        })) {
            Answer::Pruned(answer) => (answer.node_count, answer.estimated_bits),
            other => panic!("{other:?}"),
        }
    };
    assert_eq!(pruned(1.0), (1, 10.0));
    assert_eq!(pruned(0.5), (3, 9.0));
}

/// 0 splits to 1 and 2, 1 splits to 3 and 4; each leaf is known by its offset.
fn five_nodes() -> Vec<Record> {
    vec![
        Record::split(0, 0, 1, 2).with_cost(f32::INFINITY),
        Record::split(0, 0, 3, 4)
            .with_cost(f32::INFINITY)
            .at_depth(1),
        Record::leaf(0, 2).at_depth(1),
        Record::leaf(0, 3).at_depth(2),
        Record::leaf(0, 4).at_depth(2),
    ]
}

#[test]
fn contexts_are_breadth_first() {
    let job = ContextsJob {
        count: 5,
        nodes: NodeList {
            entries: 5,
            given: five_nodes(),
        },
        fill: 9,
        context_entries: 5,
        queue_entries: 5,
    };
    let expected = Contexts {
        number: 0,
        place: 0,
        context_count: 3,
        contexts: vec![u32::MAX, u32::MAX, 0, 1, 2],
        queue: Runs::of(0, 5),
    };
    assert_eq!(answer(Job::Contexts(job)), Answer::Contexts(expected));
}

#[test]
fn pruned_order_is_gt_first() {
    let job = PruneJob {
        price: 1.0,
        nodes: five_nodes(),
        spans: vec![Span::BLANK; 5],
    };
    let Answer::Pruned(answer) = answer(Job::Prune(job)) else {
        panic!("no answer to pruning");
    };
    let leaf_or_split = |node: &Record| (!node.is_split()).then_some(node.offset);
    let order: Vec<_> = answer.nodes.iter().map(leaf_or_split).collect();
    assert_eq!(order, [None, None, Some(3), Some(4), Some(2)]);
}
