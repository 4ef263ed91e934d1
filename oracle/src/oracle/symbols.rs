//! A tree as JPEG XL symbols (request c of document 02). The writer is the original's. The original has no reader, so
//! this one is written after libjxl's `DecodeTree` (lib/jxl/modular/encoding/dec_ma.cc of 0.7.0), with the request's
//! bounds for its own, and nothing of its `ValidateTree`.

use crate::depths;
use crate::entropy::Token;
use crate::lossless::tree_symbols;
use crate::ma_tree::hooks;
use crate::refusals::{self, MOST_NODES, Refusal};
use stream::{
    PREDICTORS, PROPERTIES, ReadSymbolsJob, Record, Runs, Symbol, SymbolsRead, SymbolsWritten,
    WriteSymbolsJob,
};

pub(crate) fn write(job: &WriteSymbolsJob) -> SymbolsWritten {
    let nodes = job.nodes.whole(job.fill);
    let mut symbols = Symbol::list(job.pair_entries, job.fill);
    if let Err(Refusal { number, place }) = refusals::write_symbols(job, &nodes) {
        return SymbolsWritten {
            number,
            place,
            pair_count: 0,
            symbols,
            queue: Runs::of(job.fill, job.queue_entries),
        };
    }
    let written = tree_symbols(&hooks::tree_of(&nodes[..job.count as usize]));
    let written: Vec<Symbol> = written.into_iter().map(symbol_of).collect();
    symbols[..written.len()].copy_from_slice(&written);
    SymbolsWritten {
        number: 0,
        place: 0,
        pair_count: written.len() as u32,
        symbols,
        queue: Runs::of(0, job.queue_entries),
    }
}

fn symbol_of(Token { context, value }: Token) -> Symbol {
    Symbol { context, value }
}

pub(crate) fn read(job: &ReadSymbolsJob) -> SymbolsRead {
    let mut nodes = job.lent();
    let decoded = decode_tree(&job.symbols);
    if let Err(Refusal { number, place }) = refusals::read_symbols(decoded.as_deref(), nodes.len())
    {
        return SymbolsRead {
            number,
            place,
            node_count: 0,
            nodes,
        };
    }
    let tree = decoded.expect("refused with 11");
    nodes[..tree.len()].copy_from_slice(&tree);
    SymbolsRead {
        number: 0,
        place: 0,
        node_count: tree.len() as u32,
        nodes,
    }
}

// libjxl's kSplitValContext and so on (lib/jxl/modular/encoding/ma_common.h).
const SPLIT_VAL_CONTEXT: u32 = 0;
const PROPERTY_CONTEXT: u32 = 1;
const PREDICTOR_CONTEXT: u32 = 2;
const OFFSET_CONTEXT: u32 = 3;
const MULTIPLIER_LOG_CONTEXT: u32 = 4;
const MULTIPLIER_BITS_CONTEXT: u32 = 5;

/// The tree that these symbols are; `None` if they are none, or more than one.
fn decode_tree(symbols: &[Symbol]) -> Option<Vec<Record>> {
    let mut source = Source(symbols);
    let mut tree = Vec::new();
    // Nodes that are still due.
    let mut to_decode = 1;
    while to_decode > 0 {
        if tree.len() == MOST_NODES {
            return None;
        }
        to_decode -= 1;
        let symbol = source.read(PROPERTY_CONTEXT)?;
        if symbol == 0 {
            tree.push(source.leaf()?);
            continue;
        }
        let property = below(PROPERTIES, symbol - 1)?;
        let value = unpack_signed(source.read(SPLIT_VAL_CONTEXT)?);
        // The split is not in the tree yet, and those that are due come before its children.
        let gt = (tree.len() + to_decode + 1) as u32;
        let le = (tree.len() + to_decode + 2) as u32;
        tree.push(Record::split(property, value, gt, le).with_cost(f32::INFINITY));
        to_decode += 2;
    }
    depths::store(&mut tree);
    source.0.is_empty().then_some(tree)
}

/// The symbols that are left.
struct Source<'a>(&'a [Symbol]);

impl Source<'_> {
    /// The next value. In libjxl the context picks the code of what comes next; here it stands beside the value, and
    /// must be that one.
    fn read(&mut self, context: u32) -> Option<u32> {
        let (next, left) = self.0.split_first()?;
        self.0 = left;
        (next.context == context).then_some(next.value)
    }

    /// What follows the 0 of a leaf. The multiplier is (bits + 1) << log, and must be 1.
    fn leaf(&mut self) -> Option<Record> {
        let predictor = below(PREDICTORS, self.read(PREDICTOR_CONTEXT)?)?;
        let offset = unpack_signed(self.read(OFFSET_CONTEXT)?);
        let log = self.read(MULTIPLIER_LOG_CONTEXT)?;
        let bits = self.read(MULTIPLIER_BITS_CONTEXT)?;
        ((log, bits) == (0, 0)).then_some(Record::leaf(predictor, offset))
    }
}

fn below(bound: usize, value: u32) -> Option<u32> {
    ((value as usize) < bound).then_some(value)
}

/// libjxl's `UnpackSigned`: the sign is in the lowest bit.
fn unpack_signed(value: u32) -> i32 {
    ((value >> 1) ^ (value & 1).wrapping_neg()) as i32
}

#[cfg(test)]
mod tests;
