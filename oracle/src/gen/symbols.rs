//! Families of trees to be written as symbols, and of symbols to be read. All go turn by turn through what they have,
//! so that few jobs show it; where several things turn, no two of their numbers have a divisor in common.

use crate::draft::{any_fill, any_slack};
use crate::kinds::any_kind;
use crate::parts::any_word;
use crate::rng::Rng;
use crate::rows;
use crate::seeds::{Fault, faults, to_be_spoilt};
use crate::trees::{Shape, Tests, learned, preordered, renumbered, tree, with_junk};
use crate::{At, alone_then_two};
use stream::{Job, NodeList, ReadSymbolsJob, Record, Symbol, WriteSymbolsJob};

/// Seven sorts of trees, numbered as growth, as pruning and in any order, with eight sorts of room: all together among
/// the first 168 jobs.
pub fn symbols(at: At) -> Job {
    let mut rng = at.rng();
    let turn = at.index as usize;
    let grown = TREES[turn % TREES.len()](&mut rng);
    let mut nodes = match turn % 3 {
        0 => grown,
        1 => preordered(&grown),
        _ => renumbered(&mut rng, &grown),
    };
    if rng.one_in(2) {
        with_junk(&mut rng, &mut nodes);
    }
    if rng.one_in(4) {
        for leaf in nodes.iter_mut().filter(|node| !node.is_split()) {
            leaf.kind = any_kind(&mut rng);
        }
    }
    let room = ROOMS[turn % ROOMS.len()];
    Job::WriteSymbols(writing(&mut rng, nodes, room))
}

const TREES: [fn(&mut Rng) -> Vec<Record>; 7] = [
    |rng| any_tree(rng, 1, Shape::Any),
    |rng| any_tree(rng, 2, Shape::Any),
    // Fewer leaves might as well be of another shape.
    |rng| some_tree(rng, 8, Shape::Any),
    |rng| some_tree(rng, 5, Shape::GtChain),
    |rng| some_tree(rng, 5, Shape::LeChain),
    |rng| some_tree(rng, 5, Shape::Level),
    |rng| {
        let drawn = rows::structured(rng, 90, 16);
        let leaves = 3 + rng.below(40);
        learned(rng, leaves, &drawn)
    },
];

fn some_tree(rng: &mut Rng, fewest: usize, shape: Shape) -> Vec<Record> {
    let leaves = fewest + rng.below(40);
    any_tree(rng, leaves, shape)
}

/// Values and offsets are any words, the ends of 32 bits among them.
fn any_tree(rng: &mut Rng, leaves: usize, shape: Shape) -> Vec<Record> {
    let mut nodes = tree(rng, leaves, shape, &Tests { rows: None });
    for node in &mut nodes {
        let word = any_word(rng) as i32;
        if node.is_split() {
            node.val = word;
        } else {
            node.offset = word;
        }
    }
    nodes
}

/// By how many pairs and by how many queue entries a writer's room differs from what is needed.
type Room = (i64, i64);

const NONE: i64 = i64::MIN;
const EXACT: Room = (0, 0);
const ROOMS: [Room; 8] = [
    EXACT,
    (1, 0),
    (0, 2),
    (9, 5),
    (-1, 0),
    (0, -1),
    (-1, -1),
    (NONE, NONE),
];

fn sized(needed: usize, by: i64) -> u32 {
    (needed as i64).saturating_add(by).max(0) as u32
}

/// The tree of these nodes is to be written.
fn writing(rng: &mut Rng, given: Vec<Record>, room: Room) -> WriteSymbolsJob {
    let count = given.len() as u32;
    WriteSymbolsJob {
        count,
        pair_entries: sized(pairs_of(&given), room.0),
        queue_entries: sized(given.len(), room.1),
        nodes: NodeList {
            entries: count + any_slack(rng),
            given,
        },
        fill: any_fill(rng),
    }
}

fn pairs_of(nodes: &[Record]) -> usize {
    let pairs = |node: &Record| if node.is_split() { 2 } else { 5 };
    nodes.iter().map(pairs).sum()
}

/// What a spoilt seed may do wrong in its count: no node, one fewer, entries that the job does not give, more than the
/// list has, and more than a tree may have.
const COUNTS: [fn(&mut WriteSymbolsJob); 7] = [
    |job| job.count = 0,
    |job| job.count = job.count.saturating_sub(1),
    |job| count_beyond_given(job, 1),
    |job| count_beyond_given(job, 2),
    |job| job.count = job.nodes.entries + 1,
    |job| job.count = u32::MAX,
    |job| (job.count, job.nodes.entries) = (8_192, 8_192 + job.nodes.entries % 3),
];

fn count_beyond_given(job: &mut WriteSymbolsJob, more: u32) {
    job.count = job.nodes.given.len() as u32 + more;
    job.nodes.entries = job.nodes.entries.max(job.count);
}

/// Rooms of trees at fault, of which three are too little: 8 comes before 7.
const FAULTY_ROOMS: [Room; 5] = [EXACT, (NONE, NONE), (9, 3), (-1, 0), (0, -1)];

/// Each fault of a seed and each wrong count alone among the first 40 jobs, then each two at once, all among the first
/// 1,640, with five sorts of room.
pub fn symbol_faults(at: At) -> Job {
    let mut rng = at.rng();
    let turn = at.index as usize;
    let faults = faults();
    let mut chosen = alone_then_two(at.index, faults.len() + COUNTS.len());
    chosen.sort_unstable();
    let (struck, counts): (Vec<_>, Vec<_>) = chosen.into_iter().partition(|&n| n < faults.len());
    let nodes = spoilt(&mut rng, struck.into_iter().map(|n| faults[n]));
    let room = FAULTY_ROOMS[turn % FAULTY_ROOMS.len()];
    let mut job = writing(&mut rng, nodes, room);
    for count in counts {
        COUNTS[count - faults.len()](&mut job);
    }
    Job::WriteSymbols(job)
}

/// A tree with these faults.
fn spoilt(rng: &mut Rng, faults: impl Iterator<Item = Fault>) -> Vec<Record> {
    let mut nodes = to_be_spoilt(rng);
    for fault in faults {
        fault(rng, &mut nodes);
    }
    nodes
}

/// Seven sorts of trees with five sorts of room: all together among the first 35 jobs.
pub fn symbol_reads(at: At) -> Job {
    let mut rng = at.rng();
    let turn = at.index as usize;
    let nodes = TREES[turn % TREES.len()](&mut rng);
    let room = READING_ROOMS[turn % READING_ROOMS.len()];
    let entries = sized(nodes.len(), room);
    Job::ReadSymbols(reading(&mut rng, symbols_of(&nodes), entries))
}

/// By how many nodes a reader's room differs from what is needed.
const READING_ROOMS: [i64; 5] = [0, 1, 7, -1, NONE];

fn reading(rng: &mut Rng, symbols: Vec<Symbol>, node_entries: u32) -> ReadSymbolsJob {
    ReadSymbolsJob {
        symbols,
        node_entries,
        fill: any_fill(rng),
    }
}

/// A tree's symbols, node after node in the order in which their parents come.
fn symbols_of(nodes: &[Record]) -> Vec<Symbol> {
    let mut order = vec![0];
    let mut visited = 0;
    while visited < order.len() {
        let node = &nodes[order[visited]];
        if node.is_split() {
            order.extend([node.gt as usize, node.le as usize]);
        }
        visited += 1;
    }
    let symbols = order.into_iter().map(|node| node_symbols(&nodes[node]));
    symbols.collect::<Vec<_>>().concat()
}

fn node_symbols(node: &Record) -> Vec<Symbol> {
    if node.is_split() {
        split_symbols(node.prop + 1, packed(node.val)).to_vec()
    } else {
        leaf_symbols(node.pred, packed(node.offset)).to_vec()
    }
}

fn split_symbols(property: u32, value: u32) -> [Symbol; 2] {
    [(1, property), (0, value)].map(symbol)
}

fn leaf_symbols(predictor: u32, offset: u32) -> [Symbol; 5] {
    [(1, 0), (2, predictor), (3, offset), (4, 0), (5, 0)].map(symbol)
}

fn symbol((context, value): (u32, u32)) -> Symbol {
    Symbol { context, value }
}

/// Doubled, and turned over below 0.
fn packed(value: i32) -> u32 {
    ((value << 1) ^ (value >> 31)) as u32
}

/// Every way to be no tree, alone: all among the first 89 jobs, and with three sorts of room among the first 267, of
/// which one is none: 11 comes before 7.
pub fn unreadable(at: At) -> Job {
    let mut rng = at.rng();
    let turn = at.index as usize;
    let leaves = 2 + rng.below(12);
    let nodes = any_tree(&mut rng, leaves, Shape::Any);
    let mut symbols = symbols_of(&nodes);
    spoil(&mut rng, &mut symbols, turn % WAYS);
    let entries = sized(nodes.len(), [0, NONE, 3][turn % 3]);
    Job::ReadSymbols(reading(&mut rng, symbols, entries))
}

const WAYS: usize = PLACES * WRONG + VALUES.len() + LISTS.len();

/// A split's property and value, then a leaf's 0, predictor, offset, logarithm and bits.
const PLACES: usize = 7;
const SPLIT: usize = 0;
const LEAF: usize = 2;
const PREDICTOR: usize = 3;
const LOG: usize = 5;
const BITS: usize = 6;

fn place_of(symbol: &Symbol) -> usize {
    match symbol {
        Symbol {
            context: 1,
            value: 0,
        } => LEAF,
        Symbol { context: 1, .. } => SPLIT,
        Symbol { context: 0, .. } => SPLIT + 1,
        Symbol { context, .. } => LEAF - 1 + *context as usize,
    }
}

/// Wrong contexts: the five others, the first that is none, one with the right one in its low byte, and the last.
const WRONG: usize = 8;

fn wrong_context(right: u32, which: usize) -> u32 {
    match which {
        0..5 => (right + 1 + which as u32) % 6,
        5 => 6,
        6 => right + 256,
        _ => u32::MAX,
    }
}

/// Values that may not stand in a place.
#[rustfmt::skip]
const VALUES: [(usize, u32); 18] = [
    (SPLIT, 25), (SPLIT, 26), (SPLIT, 255), (SPLIT, 256), (SPLIT, 257), (SPLIT, u32::MAX), (SPLIT, 0), (LEAF, 1),
    (PREDICTOR, 14), (PREDICTOR, 15), (PREDICTOR, 256), (PREDICTOR, u32::MAX),
    (LOG, 1), (LOG, 256), (LOG, u32::MAX), (BITS, 1), (BITS, 256), (BITS, u32::MAX),
];

/// Lists that are too short, too long, or both.
const LISTS: [fn(&mut Rng, &mut Vec<Symbol>); 15] = [
    |_, list| list.clear(),
    |_, list| list.truncate(1),
    |_, list| list.truncate(list.len() - 1),
    |rng, list| list.truncate(rng.below(list.len())),
    // Before a node.
    |rng, list| list.truncate(any_node(rng, list)),
    |rng, list| _ = list.remove(rng.below(list.len() - 1)),
    |_, list| list.push(symbol((1, 0))),
    |_, list| list.push(symbol((0, 0))),
    |rng, list| list.push(rng.pick(list)),
    |rng, list| {
        let at = rng.below(list.len() - 1);
        list.insert(at, list[at]);
    },
    |_, list| list.extend(leaf_symbols(5, 0)),
    |_, list| list.extend(split_symbols(1, 0)),
    |_, list| list.extend_from_within(..),
    |rng, list| {
        let at = rng.below(list.len() - 1);
        list.swap(at, at + 1);
    },
    // A leaf becomes a split, whose two nodes are then due.
    |rng, list| {
        let at = any_at(rng, list, LEAF);
        list.splice(at..at + 5, split_symbols(24, 0));
    },
];

/// Spoils a tree's symbols in one of the ways.
fn spoil(rng: &mut Rng, list: &mut Vec<Symbol>, way: usize) {
    if way < PLACES * WRONG {
        let at = any_at(rng, list, way % PLACES);
        list[at].context = wrong_context(list[at].context, way / PLACES);
    } else if let Some(&(place, value)) = VALUES.get(way - PLACES * WRONG) {
        let at = any_at(rng, list, place);
        list[at].value = value;
    } else {
        LISTS[way - PLACES * WRONG - VALUES.len()](rng, list);
    }
}

/// One of the symbols that stand in this place of their node.
fn any_at(rng: &mut Rng, list: &[Symbol], place: usize) -> usize {
    let there: Vec<usize> = (0..list.len())
        .filter(|&at| place_of(&list[at]) == place)
        .collect();
    rng.pick(&there)
}

/// Where a node but the first begins.
fn any_node(rng: &mut Rng, list: &[Symbol]) -> usize {
    let begins = |&at: &usize| list[at].context == 1;
    let nodes: Vec<usize> = (1..list.len()).filter(begins).collect();
    rng.pick(&nodes)
}

/// Trees of 8,191 nodes and of 8,193, written and read, with just enough room and one entry less, and lists of 4,095
/// and 4,096 splits and nothing else: nine sorts of jobs in four shapes, all together among the first 36.
pub fn symbols_large(at: At) -> Job {
    let mut rng = at.rng();
    let turn = at.index as usize;
    let shape = [Shape::Level, Shape::GtChain, Shape::LeChain, Shape::Any][turn % 4];
    match turn % 9 {
        0 => large_writing(&mut rng, shape, 4_096, EXACT),
        1 => large_writing(&mut rng, shape, 4_096, (-1, 0)),
        2 => large_writing(&mut rng, shape, 4_096, (0, -1)),
        3 => large_writing(&mut rng, shape, 4_097, EXACT),
        4 => large_reading(&mut rng, shape, 4_096, 0),
        5 => large_reading(&mut rng, shape, 4_096, -1),
        6 => large_reading(&mut rng, shape, 4_097, 0),
        7 => splits_alone(&mut rng, 4_095),
        _ => splits_alone(&mut rng, 4_096),
    }
}

fn large_writing(rng: &mut Rng, shape: Shape, leaves: usize, room: Room) -> Job {
    let grown = any_tree(rng, leaves, shape);
    let nodes = match rng.below(3) {
        0 => grown,
        1 => preordered(&grown),
        _ => renumbered(rng, &grown),
    };
    Job::WriteSymbols(writing(rng, nodes, room))
}

fn large_reading(rng: &mut Rng, shape: Shape, leaves: usize, room: i64) -> Job {
    let nodes = any_tree(rng, leaves, shape);
    let entries = sized(nodes.len(), room);
    Job::ReadSymbols(reading(rng, symbols_of(&nodes), entries))
}

fn splits_alone(rng: &mut Rng, splits: usize) -> Job {
    let split = |rng: &mut Rng| split_symbols(1 + rng.below(24) as u32, any_word(rng));
    let list = (0..splits).flat_map(|_| split(rng)).collect();
    Job::ReadSymbols(reading(rng, list, 8_193))
}

#[cfg(test)]
mod tests;
