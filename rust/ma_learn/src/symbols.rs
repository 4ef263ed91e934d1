//! A tree's symbols as text, one a line: context, value and the context's name, as in `1 10 property`.

use crate::pgm;
use crate::tree::Tree;
use ostrovuc::{
    MaNode, Refusal, Symbol, SymbolContext, read_nodes_length, read_symbols, symbols_length,
    write_symbols,
};
use std::fmt;

/// The symbols of a tree, as text.
pub fn of(tree: &Tree<'_>) -> Result<String, Refusal> {
    let count = tree.nodes.len() as u32;
    let mut symbols = vec![Symbol::default(); symbols_length(count)];
    let mut queue = vec![0; tree.nodes.len()];
    write_symbols(tree.nodes, count, &mut symbols, &mut queue)?;
    Ok(symbols.iter().map(line).collect())
}

fn line(symbol: &Symbol) -> String {
    let context = SymbolContext::of(symbol.context).expect("a tree has no other contexts");
    format!("{} {} {}\n", symbol.context, symbol.value, context.name())
}

/// The nodes of the tree that has these symbols.
pub fn nodes(symbols: &[Symbol]) -> Result<Vec<MaNode>, Refusal> {
    let mut nodes = vec![MaNode::default(); read_nodes_length(symbols.len())];
    let count = read_symbols(symbols, &mut nodes)?;
    nodes.truncate(count as usize);
    Ok(nodes)
}

/// Why a text is no list of symbols; whether symbols are a tree is another question.
#[derive(Debug, Eq, PartialEq)]
pub enum NoList {
    Picture,
    Job,
    NoPair {
        line: usize,
    },
    /// The name is not this context's.
    OtherName {
        line: usize,
        context: u32,
    },
}

impl fmt::Display for NoList {
    fn fmt(&self, f: &mut fmt::Formatter<'_>) -> fmt::Result {
        match *self {
            Self::Picture => write!(f, "a PGM picture and not a list of symbols"),
            Self::Job => write!(
                f,
                "a stream of jobs and not a list of symbols; without --from-symbols a job of learning is read"
            ),
            Self::NoPair { line } => write!(
                f,
                "line {line} is no pair: a context and a value of 32 bits are due, as in '1 10 property'"
            ),
            Self::OtherName { line, context } => match SymbolContext::of(context) {
                Some(known) => write!(
                    f,
                    "line {line}: context {context} is named {}",
                    known.name()
                ),
                None => write!(f, "line {line}: context {context} has no name"),
            },
        }
    }
}

impl std::error::Error for NoList {}

/// Whether these bytes begin as a list of symbols does, with a pair in the first line, whatever follows.
pub fn begins_list(bytes: &[u8]) -> bool {
    let first = bytes.split(|&byte| byte == b'\n').next();
    let no_pair = Err(NoList::NoPair { line: 1 });
    first.is_some_and(|text| symbol(text, 1) != no_pair)
}

/// Reads symbols from a text. Names may be left out.
pub fn read(text: &[u8]) -> Result<Vec<Symbol>, NoList> {
    if pgm::begins_picture(text) {
        return Err(NoList::Picture);
    }
    if begins_stream(text) {
        return Err(NoList::Job);
    }
    let lines = text.split_inclusive(|&byte| byte == b'\n').zip(1..);
    lines.map(|(text, line)| symbol(text, line)).collect()
}

/// A stream begins with the number of a kind, of which all are below 256: so its second byte is 0, which no text has.
fn begins_stream(bytes: &[u8]) -> bool {
    matches!(bytes, [kind, 0, 0, 0, ..] if *kind != 0)
}

fn symbol(text: &[u8], line: usize) -> Result<Symbol, NoList> {
    let no_pair = NoList::NoPair { line };
    let Ok(text) = str::from_utf8(text) else {
        return Err(no_pair);
    };
    let words: Vec<&str> = text.split_ascii_whitespace().collect();
    let (context, value, name) = match words[..] {
        [context, value] => (context, value, None),
        [context, value, name] => (context, value, Some(name)),
        _ => return Err(no_pair),
    };
    let (Ok(context), Ok(value)) = (context.parse(), value.parse()) else {
        return Err(no_pair);
    };
    match name {
        Some(name) if SymbolContext::of(context).map(SymbolContext::name) != Some(name) => {
            Err(NoList::OtherName { line, context })
        }
        _ => Ok(Symbol { context, value }),
    }
}
