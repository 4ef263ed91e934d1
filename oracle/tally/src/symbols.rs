//! A tree written as symbols and read from them. Both answers are known whole, so each is held to a writer and a
//! reader that are written down here once more and plainly; only which node a refusal names is left open.

use crate::rules;
use crate::{Checked, ensure};
use std::collections::VecDeque;
use stream::{ReadSymbolsJob, Record, Runs, Symbol, SymbolsRead, SymbolsWritten, WriteSymbolsJob};

const MOST_NODES: usize = 8_191;

pub fn written(job: &WriteSymbolsJob, answer: &SymbolsWritten) -> Checked {
    let nodes = job.nodes.whole(job.fill);
    let tree = nodes.get(..job.count as usize);
    let tree = tree.filter(|tree| tree.len() <= MOST_NODES && rules::is_sound(tree));
    let symbols = tree.map(symbols_of);
    let number = match &symbols {
        None => 8,
        Some(symbols) if symbols.len() > job.pair_entries as usize => 7,
        Some(_) if job.queue_entries < job.count => 7,
        Some(_) => 0,
    };
    numbered(answer.number, number)?;
    let written = symbols.filter(|_| number == 0);
    let queue = if written.is_some() { 0 } else { job.fill };
    let written = written.unwrap_or_default();
    ensure(number == 8 || answer.place == 0, "a place is named")?;
    ensure(
        answer.pair_count as usize == written.len(),
        "not as many pairs as the tree has",
    )?;
    let lent = Symbol::list(job.pair_entries, job.fill);
    laid_over(&lent, &written, &answer.symbols, "pair")?;
    ensure(
        answer.queue == Runs::of(queue, job.queue_entries),
        format!("the queue does not hold {queue}"),
    )
}

pub fn read(job: &ReadSymbolsJob, answer: &SymbolsRead) -> Checked {
    let tree = tree_of(&job.symbols);
    let number = match &tree {
        None => 11,
        Some(tree) if tree.len() > job.node_entries as usize => 7,
        Some(_) => 0,
    };
    numbered(answer.number, number)?;
    let read = tree.filter(|_| number == 0).unwrap_or_default();
    ensure(answer.place == 0, "a place is named")?;
    ensure(
        answer.node_count as usize == read.len(),
        "not as many nodes as the list has",
    )?;
    laid_over(&job.lent(), &read, &answer.nodes, "node")
}

fn numbered(given: u32, due: u32) -> Checked {
    ensure(given == due, format!("number {given}, and not {due}"))
}

/// The list has what was written at its front, and behind it what it had.
fn laid_over<T: Copy + PartialEq>(lent: &[T], front: &[T], list: &[T], what: &str) -> Checked {
    let length = list.len() == lent.len();
    ensure(length, format!("the {what} list has another length"))?;
    let stays = lent.get(front.len()..).unwrap_or_default();
    let expected = front.iter().chain(stays);
    match expected.zip(list).position(|(due, given)| due != given) {
        Some(at) if at < front.len() => Err(format!("{what} {at} is another")),
        Some(at) => Err(format!("{what} entry {at} changed")),
        None => Ok(()),
    }
}

/// A sound tree's symbols, level by level.
pub fn symbols_of(tree: &[Record]) -> Vec<Symbol> {
    let mut symbols = Vec::new();
    let mut level = vec![0];
    while !level.is_empty() {
        let nodes: Vec<&Record> = level.iter().map(|&node| &tree[node]).collect();
        symbols.extend(nodes.iter().flat_map(|node| node_symbols(node)));
        let splits = nodes.into_iter().filter(|node| node.is_split());
        level = splits
            .flat_map(|s| [s.gt as usize, s.le as usize])
            .collect();
    }
    symbols
}

fn node_symbols(node: &Record) -> Vec<Symbol> {
    let packed = |value: i32| rules::packed(value.into()) as u32;
    let pairs = match node.is_split() {
        true => vec![(1, node.prop + 1), (0, packed(node.val))],
        false => vec![
            (1, 0),
            (2, node.pred),
            (3, packed(node.offset)),
            (4, 0),
            (5, 0),
        ],
    };
    let symbol = |(context, value)| Symbol { context, value };
    pairs.into_iter().map(symbol).collect()
}

/// The tree that the symbols are, if they are one and nothing more. Each node takes the place that is due longest.
pub fn tree_of(symbols: &[Symbol]) -> Option<Vec<Record>> {
    let pairs: Vec<_> = symbols.iter().map(|s| (s.context, s.value)).collect();
    let mut left = &pairs[..];
    let mut tree: Vec<Record> = Vec::new();
    let mut due = VecDeque::from([None::<(usize, bool)>]);
    while let Some(place) = due.pop_front() {
        let number = tree.len();
        if number == MOST_NODES {
            return None;
        }
        match place {
            Some((parent, true)) => tree[parent].gt = number as u32,
            Some((parent, false)) => tree[parent].le = number as u32,
            None => {}
        }
        let depth = place.map_or(0, |(parent, _)| tree[parent].depth + 1);
        let (node, behind) = first_node(left)?;
        let node = node.at_depth(depth);
        if node.is_split() {
            due.extend([Some((number, true)), Some((number, false))]);
        }
        tree.push(node);
        left = behind;
    }
    left.is_empty().then_some(tree)
}

/// A node as a seed without rows leaves it, its children not known yet, and the pairs behind it.
fn first_node(pairs: &[(u32, u32)]) -> Option<(Record, &[(u32, u32)])> {
    match *pairs {
        [(1, property @ 1..=24), (0, value), ref behind @ ..] => {
            let split = Record::split(property - 1, rules::unpacked(value), 0, 0);
            Some((split.with_cost(f32::INFINITY), behind))
        }
        [
            (1, 0),
            (2, predictor @ 0..=13),
            (3, offset),
            (4, 0),
            (5, 0),
            ref behind @ ..,
        ] => Some((Record::leaf(predictor, rules::unpacked(offset)), behind)),
        _ => None,
    }
}
