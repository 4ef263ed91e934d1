//! The tree that was learnt from a sheet, written as JPEG XL transmits it, and the contexts of its leaves: the original
//! gives both at once, the port by two operations, each of which sees first that the tree is sound.

use crate::lookups::learnt;
use crate::lossless::emitted;
use crate::ma_tree::{LearnedTree, hooks};
use crate::sheet::Sheet;
use crate::timing::{Run, row_of_items, timed};
use ostrovuc::{MaNode, Symbol, leaf_contexts, symbols_length, write_symbols};
use stream::Settings;

pub fn symbols(sheet: &Sheet, settings: &Settings) {
    let nodes = learnt(sheet, settings);
    let tree = hooks::tree_of(&jobs::records(&nodes));
    let name = format!("symbols and contexts of {} nodes", nodes.len());
    let mut lists = Lists::of(nodes.len());
    row_of_items(
        &name,
        nodes.len(),
        || of_rust(&tree),
        || of_port(&nodes, &mut lists),
    );
}

/// What a caller of the port lends, again and again.
struct Lists {
    symbols: Vec<Symbol>,
    contexts: Vec<u32>,
    queue: Vec<u32>,
}

impl Lists {
    fn of(nodes: usize) -> Self {
        Self {
            symbols: vec![Symbol::default(); symbols_length(nodes as u32)],
            contexts: vec![0; nodes],
            queue: vec![0; nodes],
        }
    }
}

/// Context and value of each symbol, and the context of each node.
type Emitted = (Vec<(u32, u32)>, Vec<u32>);

fn of_rust(tree: &LearnedTree) -> Run<Emitted> {
    let (time, (), (tokens, contexts, _)) = timed((), |()| emitted(tree));
    let symbols = tokens.iter().map(|token| (token.context, token.value));
    (time, (symbols.collect(), contexts))
}

fn of_port(nodes: &[MaNode], lists: &mut Lists) -> Run<Emitted> {
    let count = nodes.len() as u32;
    let (time, lists, ()) = timed(lists, |lists| {
        write_symbols(nodes, count, &mut lists.symbols, &mut lists.queue).expect("accepted");
        leaf_contexts(nodes, count, &mut lists.contexts, &mut lists.queue).expect("accepted");
    });
    let symbols = lists.symbols.iter();
    let symbols = symbols.map(|symbol| (symbol.context, symbol.value));
    (time, (symbols.collect(), lists.contexts.clone()))
}
