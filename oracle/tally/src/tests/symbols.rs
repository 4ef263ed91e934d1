//! A split with two leaves, written and read by hand, and answers that are broken.

use super::{passes, refuses};
use crate::symbols::{symbols_of, tree_of};
use stream::{
    Answer, Job, NodeList, ReadSymbolsJob, Record, Runs, Symbol, SymbolsRead, SymbolsWritten,
    WriteSymbolsJob,
};

const FILL: u32 = 40;
const PAIRS: u32 = 13;
const QUEUE: u32 = 4;
const NODES: u32 = 4;

/// Numbered le first, so that reading it numbers it anew.
fn tree() -> Vec<Record> {
    vec![
        Record::split(23, -3, 2, 1).with_cost(2.5),
        Record::leaf(4, 1).at_depth(1),
        Record {
            val: 9,
            ..Record::leaf(13, 0).at_depth(1)
        },
    ]
}

fn symbols() -> Vec<Symbol> {
    const SYMBOLS: [(u32, u32); 12] = [
        (1, 24),
        (0, 5),
        (1, 0),
        (2, 13),
        (3, 0),
        (4, 0),
        (5, 0),
        (1, 0),
        (2, 4),
        (3, 2),
        (4, 0),
        (5, 0),
    ];
    let symbol = |(context, value)| Symbol { context, value };
    SYMBOLS.map(symbol).to_vec()
}

/// One pair and one node more than the tree has.
fn writing() -> WriteSymbolsJob {
    let nodes = NodeList {
        entries: NODES,
        given: tree(),
    };
    WriteSymbolsJob {
        count: 3,
        nodes,
        fill: FILL,
        pair_entries: PAIRS,
        queue_entries: QUEUE,
    }
}

fn written() -> SymbolsWritten {
    let mut list = Symbol::list(PAIRS, FILL);
    list[..12].copy_from_slice(&symbols());
    SymbolsWritten {
        number: 0,
        place: 0,
        pair_count: 12,
        symbols: list,
        queue: Runs::of(0, QUEUE),
    }
}

fn not_written(job: &WriteSymbolsJob, number: u32) -> SymbolsWritten {
    SymbolsWritten {
        number,
        place: 0,
        pair_count: 0,
        symbols: Symbol::list(job.pair_entries, FILL),
        queue: Runs::of(FILL, job.queue_entries),
    }
}

fn reading() -> ReadSymbolsJob {
    ReadSymbolsJob {
        symbols: symbols(),
        node_entries: NODES,
        fill: FILL,
    }
}

fn read() -> SymbolsRead {
    let mut nodes = reading().lent();
    nodes[0] = Record::split(23, -3, 1, 2).with_cost(f32::INFINITY);
    nodes[1] = Record::leaf(13, 0).at_depth(1);
    nodes[2] = Record::leaf(4, 1).at_depth(1);
    SymbolsRead {
        number: 0,
        place: 0,
        node_count: 3,
        nodes,
    }
}

fn not_read(job: &ReadSymbolsJob, number: u32) -> SymbolsRead {
    SymbolsRead {
        number,
        place: 0,
        node_count: 0,
        nodes: job.lent(),
    }
}

/// How an answer is broken, and what must be said of it.
type Break<T> = (fn(&mut T), &'static str);
/// How a job is spoilt, and the number that is due.
type Spoilt<T> = (fn(&mut T), u32);

#[test]
fn broken_symbols_are_refused() {
    const BROKEN: &[Break<SymbolsWritten>] = &[
        (|a| a.number = 7, "number 7, and not 0"),
        (|a| a.place = 1, "a place is named"),
        (|a| a.pair_count = 13, "not as many pairs"),
        (|a| a.symbols[0].context = 0, "pair 0 is another"),
        (|a| a.symbols[0].value = 23, "pair 0 is another"),
        (|a| a.symbols[1].value = 6, "pair 1 is another"),
        (|a| a.symbols.swap(3, 8), "pair 3 is another"),
        (|a| a.symbols[11].value = 1, "pair 11 is another"),
        (|a| a.symbols[12].value = 0, "pair entry 12 changed"),
        (|a| _ = a.symbols.pop(), "the pair list has another length"),
        (
            |a| a.queue = Runs(vec![(0, 3), (FILL, 1)]),
            "the queue does not hold 0",
        ),
    ];
    let jobs = [Job::WriteSymbols(writing())];
    passes(&jobs, &[Answer::SymbolsWritten(written())]);
    for (breaks, why) in BROKEN {
        let mut answer = written();
        breaks(&mut answer);
        refuses(&jobs, &[Answer::SymbolsWritten(answer)], why);
    }
}

/// An acceptance, another number, and a refusal that says more are broken.
#[test]
fn writing_is_refused_where_due() {
    const SPOILT: &[Spoilt<WriteSymbolsJob>] = &[
        (|job| job.pair_entries = 11, 7),
        (|job| job.queue_entries = 2, 7),
        (|job| job.count = 0, 8),
        (|job| job.count = 5, 8),
        (|job| job.nodes.given[0].prop = 24, 8),
        (|job| job.nodes.given[0].gt = 1, 8),
        (|job| job.nodes.given[2].pred = 14, 8),
        (|job| job.nodes.given[0].depth = 1, 8),
        (|job| job.nodes.given[1].depth = 0, 8),
        (|job| job.nodes.given[2].depth = u32::MAX, 8),
        (|job| (job.count, job.pair_entries) = (2, 0), 8),
        (|job| give(job, left_chain(4_096)), 8),
    ];
    for (spoil, number) in SPOILT {
        let mut job = writing();
        spoil(&mut job);
        let right = not_written(&job, *number);
        let jobs = [Job::WriteSymbols(job)];
        passes(&jobs, &[Answer::SymbolsWritten(right.clone())]);
        let why = format!("number 0, and not {number}");
        refuses(&jobs, &[Answer::SymbolsWritten(written())], &why);
        let mut other = right.clone();
        other.number = 15 - number;
        let why = format!("and not {number}");
        refuses(&jobs, &[Answer::SymbolsWritten(other)], &why);
        let mut more = right;
        more.pair_count = 1;
        refuses(&jobs, &[Answer::SymbolsWritten(more)], "not as many pairs");
    }
}

fn give(job: &mut WriteSymbolsJob, given: Vec<Record>) {
    job.count = given.len() as u32;
    job.nodes = NodeList {
        entries: job.count,
        given,
    };
}

/// So many splits, each on the le side of the one before.
fn left_chain(splits: u32) -> Vec<Record> {
    let nodes = (0..splits).flat_map(|above| {
        let gt = 2 * above + 1;
        let split = Record::split(0, 0, gt, gt + 1).at_depth(above);
        [split, Record::leaf(0, 0).at_depth(above + 1)]
    });
    let last = Record::leaf(0, 0).at_depth(splits);
    nodes.chain([last]).collect()
}

#[test]
fn a_refusal_to_write_leaves_the_lists() {
    const CHANGES: &[Break<SymbolsWritten>] = &[
        (|a| a.place = 2, "a place is named"),
        (|a| a.symbols[0].context = 1, "pair entry 0 changed"),
        (|a| _ = a.symbols.pop(), "the pair list has another length"),
        (|a| a.queue = Runs::of(0, 4), "the queue does not hold 40"),
    ];
    let mut job = writing();
    job.pair_entries = 11;
    for (changes, why) in CHANGES {
        let mut answer = not_written(&job, 7);
        changes(&mut answer);
        let jobs = [Job::WriteSymbols(job.clone())];
        refuses(&jobs, &[Answer::SymbolsWritten(answer)], why);
    }
    let mut job = writing();
    job.nodes.given[2].pred = 14;
    let answer = SymbolsWritten {
        place: 2,
        ..not_written(&job, 8)
    };
    passes(&[Job::WriteSymbols(job)], &[Answer::SymbolsWritten(answer)]);
}

#[test]
fn broken_trees_are_refused() {
    const BROKEN: &[Break<SymbolsRead>] = &[
        (|a| a.number = 11, "number 11, and not 0"),
        (|a| a.place = 1, "a place is named"),
        (|a| a.node_count = 4, "not as many nodes"),
        (|a| a.nodes[0].cost = 0, "node 0 is another"),
        (|a| a.nodes[0].prop = 24, "node 0 is another"),
        (|a| a.nodes[0].val = 2, "node 0 is another"),
        (|a| a.nodes[0].pred = 1, "node 0 is another"),
        (
            |a| (a.nodes[0].gt, a.nodes[0].le) = (2, 1),
            "node 0 is another",
        ),
        (|a| a.nodes.swap(1, 2), "node 1 is another"),
        (|a| a.nodes[2].kind = 2, "node 2 is another"),
        (|a| a.nodes[0].depth = 1, "node 0 is another"),
        (|a| a.nodes[1].depth = 0, "node 1 is another"),
        (|a| a.nodes[2].depth = 2, "node 2 is another"),
        (|a| a.nodes[3].depth = 0, "node entry 3 changed"),
        (|a| a.nodes[3].pred += 1, "node entry 3 changed"),
        (|a| _ = a.nodes.pop(), "the node list has another length"),
    ];
    let jobs = [Job::ReadSymbols(reading())];
    passes(&jobs, &[Answer::SymbolsRead(read())]);
    for (breaks, why) in BROKEN {
        let mut answer = read();
        breaks(&mut answer);
        refuses(&jobs, &[Answer::SymbolsRead(answer)], why);
    }
}

/// An acceptance, another number, and a refusal that says more are broken.
#[test]
fn reading_is_refused_where_due() {
    const SPOILT: &[Spoilt<ReadSymbolsJob>] = &[
        (|job| job.node_entries = 2, 7),
        (|job| job.symbols.clear(), 11),
        (|job| _ = job.symbols.pop(), 11),
        (|job| job.symbols.truncate(7), 11),
        (|job| job.symbols.extend_from_within(2..7), 11),
        (|job| job.symbols[0].value = 25, 11),
        (|job| job.symbols[1].context = 1, 11),
        (|job| job.symbols[3].value = 14, 11),
        (|job| job.symbols[5].value = 1, 11),
        (|job| job.symbols[6].value = 1, 11),
        (|job| job.symbols.swap(8, 9), 11),
        (
            |job| (job.node_entries, job.symbols[11].context) = (0, 4),
            11,
        ),
    ];
    for (spoil, number) in SPOILT {
        let mut job = reading();
        spoil(&mut job);
        let right = not_read(&job, *number);
        let jobs = [Job::ReadSymbols(job)];
        passes(&jobs, &[Answer::SymbolsRead(right.clone())]);
        let why = format!("number 0, and not {number}");
        refuses(&jobs, &[Answer::SymbolsRead(read())], &why);
        let mut other = right.clone();
        other.number = 18 - number;
        let why = format!("and not {number}");
        refuses(&jobs, &[Answer::SymbolsRead(other)], &why);
        let mut more = right;
        more.node_count = 1;
        refuses(&jobs, &[Answer::SymbolsRead(more)], "not as many nodes");
    }
}

#[test]
fn a_refusal_to_read_leaves_the_list() {
    const CHANGES: &[Break<SymbolsRead>] = &[
        (|a| a.place = 2, "a place is named"),
        (|a| a.nodes[0].val += 1, "node entry 0 changed"),
        (|a| _ = a.nodes.pop(), "the node list has another length"),
    ];
    let mut job = reading();
    job.node_entries = 2;
    for (changes, why) in CHANGES {
        let mut answer = not_read(&job, 7);
        changes(&mut answer);
        let jobs = [Job::ReadSymbols(job.clone())];
        refuses(&jobs, &[Answer::SymbolsRead(answer)], why);
    }
}

/// The largest tree, and one that is a split larger.
#[test]
fn a_tree_has_at_most_8191_nodes() {
    let largest = left_chain(4_095);
    let symbols = symbols_of(&largest);
    assert_eq!(symbols.len(), 2 * 4_095 + 5 * 4_096);
    let read = tree_of(&symbols).expect("a tree");
    let is_alike = |(old, new): (&Record, &Record)| old.with_cost(0.0) == new.with_cost(0.0);
    assert_eq!(largest.len(), read.len());
    assert!(largest.iter().zip(&read).all(is_alike));
    assert_eq!(tree_of(&symbols_of(&left_chain(4_096))), None);
}
