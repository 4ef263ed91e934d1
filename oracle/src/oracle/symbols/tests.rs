//! Symbols worked out by hand, every refusal, and a learned tree there and back.

use crate::coder_scratch::CoderScratch;
use crate::{operations, plain};
use stream::*;

fn answer(job: Job) -> Answer {
    let job = Job::read(&job.message()).expect("a sound job");
    operations::answer(job, &mut CoderScratch::default()).expect("a sound job")
}

fn symbols(pairs: &[(u32, u32)]) -> Vec<Symbol> {
    let symbol = |&(context, value): &(u32, u32)| Symbol { context, value };
    pairs.iter().map(symbol).collect()
}

/// The tree of these nodes is to be written, with just enough room.
fn writing(given: &[Record]) -> WriteSymbolsJob {
    let splits = given.iter().filter(|node| node.is_split()).count();
    let count = given.len() as u32;
    WriteSymbolsJob {
        count,
        nodes: NodeList {
            entries: count,
            given: given.to_vec(),
        },
        fill: 7,
        pair_entries: (2 * splits + 5 * (given.len() - splits)) as u32,
        queue_entries: count,
    }
}

fn written(job: WriteSymbolsJob) -> SymbolsWritten {
    match answer(Job::WriteSymbols(job)) {
        Answer::SymbolsWritten(answer) => answer,
        other => panic!("{other:?}"),
    }
}

fn reading(symbols: &[Symbol], node_entries: usize) -> ReadSymbolsJob {
    ReadSymbolsJob {
        symbols: symbols.to_vec(),
        node_entries: node_entries as u32,
        fill: 7,
    }
}

fn read(symbols: &[Symbol], node_entries: usize) -> SymbolsRead {
    match answer(Job::ReadSymbols(reading(symbols, node_entries))) {
        Answer::SymbolsRead(answer) => answer,
        other => panic!("{other:?}"),
    }
}

/// A split as it is read.
fn read_split(prop: u32, val: i32, gt: u32, depth: u32) -> Record {
    Record::split(prop, val, gt, gt + 1)
        .with_cost(f32::INFINITY)
        .at_depth(depth)
}

const LEAF: [(u32, u32); 5] = [(1, 0), (2, 13), (3, 5), (4, 0), (5, 0)];

#[test]
fn a_leaf_alone() {
    let leaf = Record {
        kind: 9,
        gt: 4,
        ..Record::leaf(13, -3).with_cost(2.5)
    };
    let written = written(writing(&[leaf]));
    assert_eq!((written.number, written.pair_count), (0, 5));
    assert_eq!(written.symbols, symbols(&LEAF));
    assert_eq!(written.queue, Runs::of(0, 1));
    let read = read(&written.symbols, 1);
    assert_eq!((read.number, read.node_count), (0, 1));
    assert_eq!(read.nodes, [Record::leaf(13, -3)]);
}

/// 0 splits to 1 and 2, 1 to 3 and 4.
fn five_nodes() -> [Record; 5] {
    [
        Record::split(0, 8, 1, 2),
        Record::split(23, -1, 3, 4).at_depth(1),
        Record::leaf(2, 0).at_depth(1),
        Record::leaf(3, 1).at_depth(2),
        Record::leaf(4, -1).at_depth(2),
    ]
}

/// Of these, 2 comes before 3.
#[test]
fn the_order_is_breadth_first() {
    let nodes = five_nodes();
    let pairs = [
        [(1, 1), (0, 16)].as_slice(),
        &[(1, 24), (0, 1)],
        &[(1, 0), (2, 2), (3, 0), (4, 0), (5, 0)],
        &[(1, 0), (2, 3), (3, 2), (4, 0), (5, 0)],
        &[(1, 0), (2, 4), (3, 1), (4, 0), (5, 0)],
    ];
    let written = written(writing(&nodes));
    assert_eq!(written.symbols, symbols(&pairs.concat()));
    let expected = [
        read_split(0, 8, 1, 0),
        read_split(23, -1, 3, 1),
        nodes[2],
        nodes[3],
        nodes[4],
    ];
    assert_eq!(read(&written.symbols, 5).nodes, expected);
}

/// The children of two splits of one level, numbered crosswise: they are read side by side.
#[test]
fn any_numbering_is_renumbered() {
    let nodes = [
        Record::split(5, 1, 2, 1),
        Record::split(6, 2, 3, 6).at_depth(1),
        Record::split(7, 3, 5, 4).at_depth(1),
        Record::leaf(3, 0).at_depth(2),
        Record::leaf(4, 0).at_depth(2),
        Record::leaf(5, 0).at_depth(2),
        Record::leaf(6, 0).at_depth(2),
    ];
    let expected = [
        read_split(5, 1, 1, 0),
        read_split(7, 3, 3, 1),
        read_split(6, 2, 5, 1),
        nodes[5],
        nodes[4],
        nodes[3],
        nodes[6],
    ];
    let written = written(writing(&nodes));
    assert_eq!(read(&written.symbols, 7).nodes, expected);
}

#[test]
fn both_ends_of_32_bits() {
    for (value, packed) in [(i32::MIN, u32::MAX), (i32::MAX, u32::MAX - 1)] {
        let nodes = [
            Record::split(0, value, 1, 2),
            Record::leaf(0, value).at_depth(1),
            Record::leaf(1, 0).at_depth(1),
        ];
        let written = written(writing(&nodes));
        let ends = [written.symbols[1].value, written.symbols[4].value];
        assert_eq!(ends, [packed; 2]);
        let read = read(&written.symbols, 3).nodes;
        assert_eq!((read[0].val, read[1].offset), (value, value));
    }
}

#[test]
fn entries_past_those_written_stay() {
    let mut job = writing(&[Record::leaf(13, -3)]);
    (job.pair_entries, job.queue_entries) = (7, 4);
    let written = written(job);
    let stays = [(12, 13), (13, 14)];
    assert_eq!(written.symbols, symbols(&[&LEAF[..], &stays].concat()));
    assert_eq!(written.queue, Runs::of(0, 4));
    let read = read(&symbols(&LEAF), 3);
    assert_eq!((read.number, read.node_count), (0, 1));
    assert_eq!(read.nodes[1..], reading(&[], 3).lent()[1..]);
}

/// How a job is spoilt, and the number and place that come back.
type Spoilt<J> = (fn(&mut J), u32, u32);

#[test]
fn what_the_writer_refuses() {
    const SPOILT: &[Spoilt<WriteSymbolsJob>] = &[
        (|job| job.pair_entries -= 1, 7, 0),
        (|job| job.queue_entries -= 1, 7, 0),
        (|job| job.count = 0, 8, 0),
        (|job| job.count = 6, 8, 0),
        (|job| job.nodes.given[0].gt = 2, 8, 0),
        (|job| job.nodes.given[1].prop = 24, 8, 1),
        (|job| job.nodes.given[4].pred = 14, 8, 4),
        (|job| job.nodes.given[0].depth = 1, 8, 0),
        (|job| job.nodes.given[3].depth = 1, 8, 3),
        (|job| job.count = 3, 8, 1),
        (|job| (job.count, job.nodes.entries) = (8_192, 8_192), 8, 0),
    ];
    let nodes = five_nodes();
    for (spoil, number, place) in SPOILT {
        for short in [0, 1, 19] {
            let mut job = writing(&nodes);
            spoil(&mut job);
            job.pair_entries = job.pair_entries.saturating_sub(short);
            let expected = SymbolsWritten {
                number: *number,
                place: *place,
                pair_count: 0,
                symbols: Symbol::list(job.pair_entries, 7),
                queue: Runs::of(7, job.queue_entries),
            };
            assert_eq!(written(job), expected);
        }
    }
}

#[track_caller]
fn refuses(pairs: &[(u32, u32)], node_entries: usize, number: u32) {
    let expected = SymbolsRead {
        number,
        place: 0,
        node_count: 0,
        nodes: reading(&[], node_entries).lent(),
    };
    assert_eq!(read(&symbols(pairs), node_entries), expected, "{pairs:?}");
}

/// A split and its leaves: any other context, any end before the last, and one pair more.
#[test]
fn what_the_reader_refuses() {
    let good = [&[(1, 24), (0, 16)][..], &LEAF, &LEAF].concat();
    assert_eq!(read(&symbols(&good), 3).number, 0);
    refuses(&good, 2, 7);
    refuses(&good, 0, 7);
    for entries in [0, 3] {
        for at in 0..good.len() {
            for context in [0, 1, 2, 3, 4, 5, 6, 256 + good[at].0, u32::MAX] {
                if context != good[at].0 {
                    let mut bad = good.clone();
                    bad[at].0 = context;
                    refuses(&bad, entries, 11);
                }
            }
            refuses(&good[..at], entries, 11);
        }
        for (at, value) in [(0, 25), (0, 256), (0, u32::MAX), (3, 14), (5, 1), (6, 1)] {
            let mut bad = good.clone();
            bad[at].1 = value;
            refuses(&bad, entries, 11);
        }
        for more in [(1, 0), (0, 0), (5, 0)] {
            refuses(&[&good[..], &[more]].concat(), entries, 11);
        }
    }
}

const SPLIT: [(u32, u32); 2] = [(1, 3), (0, 0)];

/// Splits one below the other along gt: each but the first has a leaf beside it.
fn chain(splits: usize) -> Vec<(u32, u32)> {
    let below = [&SPLIT[..], &LEAF].concat().repeat(splits - 1);
    [&SPLIT[..], &below, &LEAF, &LEAF].concat()
}

#[test]
fn at_most_8191_nodes() {
    let largest = chain(4_095);
    let answer = read(&symbols(&largest), 8_191);
    assert_eq!((answer.number, answer.node_count), (0, 8_191));
    assert_eq!(answer.nodes[8_187], read_split(2, 0, 8_189, 4_094));
    let back = written(writing(&answer.nodes));
    assert_eq!(back.symbols, symbols(&largest));
    refuses(&largest, 8_190, 7);
    refuses(&chain(4_096), 8_193, 11);
    refuses(&SPLIT.repeat(4_095), 8_193, 11);
    refuses(&SPLIT.repeat(4_096), 8_193, 11);
}

/// Rows of which property 4 hangs on the token, and others that are mixed.
fn learning() -> Learning {
    const ROWS: usize = 300;
    let mixed = |at: usize| (at * 7_919 % 997) as i32 - 300;
    let token = |row: usize, column: usize| (mixed(row) + column as i32).unsigned_abs() as u8 % 13;
    let mut job = plain::learning(ROWS, 128, 20);
    job.settings.price = 1.0;
    job.settings.side_predictors = 3;
    job.settings.weighted = true;
    job.settings.allowed = 0xffff;
    job.settings.modal_offsets = true;
    job.properties = (0..ROWS * PROPERTIES).map(mixed).collect();
    job.tokens = (0..ROWS * PREDICTORS)
        .map(|at| token(at / PREDICTORS, at % PREDICTORS))
        .collect();
    job.residuals = (0..ROWS).map(|row| mixed(row) % 50).collect();
    job
}

fn contexts(nodes: &[Record]) -> Vec<u32> {
    let count = nodes.len() as u32;
    let job = ContextsJob {
        count,
        nodes: NodeList {
            entries: count,
            given: nodes.to_vec(),
        },
        fill: 7,
        context_entries: count,
        queue_entries: count,
    };
    match answer(Job::Contexts(job)) {
        Answer::Contexts(answer) => answer.contexts,
        other => panic!("{other:?}"),
    }
}

fn leaf_of(nodes: &[Record], properties: &[i32]) -> usize {
    let job = LookupJob {
        count: nodes.len() as u32,
        nodes: NodeList {
            entries: nodes.len() as u32,
            given: nodes.to_vec(),
        },
        fill: 7,
        properties: properties.to_vec(),
    };
    match answer(Job::Lookup(job)) {
        Answer::Found(answer) => answer.leaf as usize,
        other => panic!("{other:?}"),
    }
}

/// The request's sentence of what was learned: each row's leaf has the same context, predictor and offset.
#[test]
fn a_learned_tree_comes_back() {
    let job = learning();
    let Answer::Learned(learned) = answer(Job::Learn(job.clone())) else {
        panic!("no answer to learning");
    };
    let tree = &learned.nodes[..learned.node_count as usize];
    assert!(tree.len() > 20, "{} nodes", tree.len());
    let written = written(writing(tree));
    let back = read(&written.symbols, tree.len());
    assert_eq!((back.number, back.node_count), (0, learned.node_count));
    let (before, after) = (contexts(tree), contexts(&back.nodes));
    for row in job.properties.chunks(PROPERTIES) {
        let (old, new) = (leaf_of(tree, row), leaf_of(&back.nodes, row));
        assert_eq!(before[old], after[new]);
        let Record {
            pred,
            offset,
            depth,
            ..
        } = tree[old];
        let leaf = Record::leaf(pred, offset).at_depth(depth);
        assert_eq!(back.nodes[new], leaf);
    }
    assert_eq!(self::written(writing(&back.nodes)).symbols, written.symbols);
}
