//! Which symbol makes a list no tree's. The library says only that it is none; who wrote the list wants the line.

use SymbolContext::{MultiplierBits, MultiplierLog, Offset, Predictor, Property, SplitVal};
use ostrovuc::{Symbol, SymbolContext};
use std::fmt;

/// Nodes of a tree, at most.
const MOST_NODES: usize = 8_191;

/// The first symbol that no tree has there, by its line: each symbol has one.
#[derive(Debug, Eq, PartialEq)]
pub enum Fault {
    /// The list ends where a symbol of this context is due.
    CutShort { line: usize, due: SymbolContext },
    Context {
        line: usize,
        context: u32,
        due: SymbolContext,
    },
    Value {
        line: usize,
        context: SymbolContext,
        value: u32,
    },
    /// With this split there are more nodes than a tree may have.
    Nodes { line: usize },
    /// The tree has all its symbols before this one.
    LeftOver { line: usize },
}

impl fmt::Display for Fault {
    fn fmt(&self, f: &mut fmt::Formatter<'_>) -> fmt::Result {
        match *self {
            Self::CutShort { line, due } => {
                write!(f, "line {line}: {} is missing", in_words(due.number()))
            }
            Self::Context { line, context, due } => {
                let (found, due) = (in_words(context), in_words(due.number()));
                write!(f, "line {line}: {found}, where {due} is due")
            }
            Self::Value {
                line,
                context,
                value,
            } => {
                let (name, most) = (context.name(), most(context));
                write!(
                    f,
                    "line {line}: {name} symbol {value}, where at most {most} is due"
                )
            }
            Self::Nodes { line } => {
                write!(
                    f,
                    "line {line}: with this split there are more than {MOST_NODES} nodes"
                )
            }
            Self::LeftOver { line } => write!(f, "line {line}: left over, the tree is whole"),
        }
    }
}

fn in_words(context: u32) -> String {
    match SymbolContext::of(context) {
        Some(known) => format!("context {context} ({})", known.name()),
        None => format!("context {context}"),
    }
}

/// The greatest value of a symbol; any packed number may be a split's value and an offset.
fn most(context: SymbolContext) -> u32 {
    match context {
        Property => 24,
        Predictor => 13,
        MultiplierLog | MultiplierBits => 0,
        SplitVal | Offset => u32::MAX,
    }
}

/// The fault of a list that is no tree's.
pub fn of(symbols: &[Symbol]) -> Option<Fault> {
    whole_tree(symbols).err()
}

fn whole_tree(symbols: &[Symbol]) -> Result<(), Fault> {
    let mut rest = Rest { symbols, at: 0 };
    let (mut read, mut nodes) = (0, 1);
    while read < nodes {
        read += 1;
        if rest.node()? {
            nodes += 2;
            if nodes > MOST_NODES {
                // The split has two symbols, its property first.
                return Err(Fault::Nodes { line: rest.at - 1 });
            }
        }
    }
    match symbols.len() > rest.at {
        true => Err(Fault::LeftOver { line: rest.at + 1 }),
        false => Ok(()),
    }
}

/// What is left of a list.
struct Rest<'a> {
    symbols: &'a [Symbol],
    /// How many symbols were taken.
    at: usize,
}

impl Rest<'_> {
    /// Takes a node's symbols, and tells whether it is a split.
    fn node(&mut self) -> Result<bool, Fault> {
        let is_split = self.take(Property)? != 0;
        let due: &[SymbolContext] = if is_split {
            &[SplitVal]
        } else {
            &[Predictor, Offset, MultiplierLog, MultiplierBits]
        };
        due.iter().try_for_each(|&due| self.take(due).map(drop))?;
        Ok(is_split)
    }

    fn take(&mut self, due: SymbolContext) -> Result<u32, Fault> {
        let line = self.at + 1;
        let value = value(self.symbols.get(self.at), line, due)?;
        self.at = line;
        Ok(value)
    }
}

/// The value of the symbol that is due.
fn value(found: Option<&Symbol>, line: usize, due: SymbolContext) -> Result<u32, Fault> {
    let Some(&Symbol { context, value }) = found else {
        return Err(Fault::CutShort { line, due });
    };
    if context != due.number() {
        Err(Fault::Context { line, context, due })
    } else if value > most(due) {
        Err(Fault::Value {
            line,
            context: due,
            value,
        })
    } else {
        Ok(value)
    }
}
