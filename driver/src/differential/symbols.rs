//! The edits of symbols to be written and to be read. Where it is too little room that differs, an edit that makes a
//! tree smaller takes room away with it.

use crate::Result;
use crate::shrink::Shrinker;
use crate::trees;
use stream::{ReadSymbolsJob, Symbol, WriteSymbolsJob};

/// A tree to be written: fewer nodes, with as much room as they leave or as is taken with them, and less of it.
pub fn write(s: &mut Shrinker<'_, WriteSymbolsJob>) -> Result<()> {
    trees::tree(s)?;
    trees::smaller(s, with_room)?;
    s.lower(|job| &mut job.fill)?;
    s.lower(|job| &mut job.count)?;
    s.lower(|job| &mut job.nodes.entries)?;
    s.lower(|job| &mut job.pair_entries)?;
    s.lower(|job| &mut job.queue_entries)
}

/// Takes away the room of what an edit takes out.
fn with_room(job: &mut WriteSymbolsJob, edit: &dyn Fn(&mut WriteSymbolsJob)) {
    let (pairs, count) = (pairs(job), job.count);
    edit(job);
    job.pair_entries = (job.pair_entries + self::pairs(job)).saturating_sub(pairs);
    job.queue_entries = (job.queue_entries + job.count).saturating_sub(count);
}

/// How many pairs the nodes make that the job gives.
fn pairs(job: &WriteSymbolsJob) -> u32 {
    let nodes = job.nodes.given.iter();
    nodes.map(|node| if node.is_split() { 2 } else { 5 }).sum()
}

/// A list to be read: fewer nodes, with room or without, then fewer pairs, nearer to 0.
pub fn read(s: &mut Shrinker<'_, ReadSymbolsJob>) -> Result<()> {
    folds(s)?;
    parts(s)?;
    s.pieces(
        |job| job.symbols.len(),
        |job, piece| drop(job.symbols.drain(piece)),
    )?;
    numbers(s)?;
    s.lower(|job| &mut job.node_entries)?;
    s.lower(|job| &mut job.fill)
}

/// A leaf for a node and all below it.
fn folds(s: &mut Shrinker<'_, ReadSymbolsJob>) -> Result<()> {
    let mut at = 0;
    while at < nodes_of(&s.job.symbols).len() {
        if !s.attempt(|job| job.symbols = folded(&job.symbols, at))? {
            s.attempt(|job| with_entries(job, |symbols| folded(symbols, at)))?;
        }
        at += 1;
    }
    Ok(())
}

/// A node and all below it alone.
fn parts(s: &mut Shrinker<'_, ReadSymbolsJob>) -> Result<()> {
    let mut at = 1;
    while at < nodes_of(&s.job.symbols).len() {
        let kept = s.attempt(|job| job.symbols = from(&job.symbols, at))?
            || s.attempt(|job| with_entries(job, |symbols| from(symbols, at)))?;
        at = if kept { 1 } else { at + 1 };
    }
    Ok(())
}

/// Each pair's numbers nearer to 0.
fn numbers(s: &mut Shrinker<'_, ReadSymbolsJob>) -> Result<()> {
    for at in 0..s.job.symbols.len() {
        s.lower(|job| &mut job.symbols[at].context)?;
        s.lower(|job| &mut job.symbols[at].value)?;
    }
    Ok(())
}

/// Takes away the room of the nodes that an edit takes out.
fn with_entries(job: &mut ReadSymbolsJob, edit: impl FnOnce(&[Symbol]) -> Vec<Symbol>) {
    let nodes = nodes_of(&job.symbols).len();
    job.symbols = edit(&job.symbols);
    let gone = nodes.saturating_sub(nodes_of(&job.symbols).len());
    job.node_entries = job.node_entries.saturating_sub(gone as u32);
}

/// A node begins with a symbol in context 1.
fn nodes_of(symbols: &[Symbol]) -> Vec<&[Symbol]> {
    symbols.chunk_by(|_, next| next.context != 1).collect()
}

/// With a leaf for this node and all below it, where that is shorter.
fn folded(symbols: &[Symbol], at: usize) -> Vec<Symbol> {
    let nodes = nodes_of(symbols);
    let reached = reached_from(&nodes, at);
    let leaf = [1, 2, 3, 4, 5].map(|context| Symbol { context, value: 0 });
    let left = nodes.iter().enumerate().map(|(node, &symbols)| match node {
        node if node == at => &leaf[..],
        node if reached[node] => &[],
        _ => symbols,
    });
    let folded = left.collect::<Vec<_>>().concat();
    match folded.len() < symbols.len() {
        true => folded,
        false => symbols.to_vec(),
    }
}

/// This node and all below it alone.
fn from(symbols: &[Symbol], root: usize) -> Vec<Symbol> {
    let nodes = nodes_of(symbols);
    let reached = reached_from(&nodes, root);
    let left = nodes.iter().zip(reached).filter(|&(_, reached)| reached);
    left.flat_map(|(node, _)| node.to_vec()).collect()
}

/// Which nodes are below this one, or it: the children of split j of all are nodes 2j + 1 and 2j + 2.
fn reached_from(nodes: &[&[Symbol]], root: usize) -> Vec<bool> {
    let is_split = |&node: &usize| nodes[node][0].value != 0;
    let splits: Vec<usize> = (0..nodes.len()).filter(is_split).collect();
    let mut reached = vec![false; nodes.len()];
    reached[root] = true;
    for node in root + 1..nodes.len() {
        let parent = splits.get((node - 1) / 2);
        reached[node] = parent.is_some_and(|&split| split < node && reached[split]);
    }
    reached
}
