//! A tree written as symbols, and read from them.

use crate::records::{nodes, records};
use crate::{queue_of_words, told};
use ostrovuc::Symbol;
use stream::{ReadSymbolsJob, SymbolsRead, SymbolsWritten, WriteSymbolsJob};

pub fn write_symbols(job: &WriteSymbolsJob) -> SymbolsWritten {
    let nodes = nodes(&job.nodes.whole(job.fill));
    let mut symbols = lent(&stream::Symbol::list(job.pair_entries, job.fill));
    let mut queue = vec![job.fill; job.queue_entries as usize];
    let written = ostrovuc::write_symbols(&nodes, job.count, &mut symbols, &mut queue);
    let (number, place, pair_count) = told(written);
    SymbolsWritten {
        number,
        place,
        pair_count,
        symbols: printed(&symbols),
        queue: queue_of_words(&queue, job.fill),
    }
}

pub fn read_symbols(job: &ReadSymbolsJob) -> SymbolsRead {
    let mut nodes = nodes(&job.lent());
    let read = ostrovuc::read_symbols(&lent(&job.symbols), &mut nodes);
    let (number, place, node_count) = told(read);
    SymbolsRead {
        number,
        place,
        node_count,
        nodes: records(&nodes),
    }
}

/// The port's symbols.
fn lent(symbols: &[stream::Symbol]) -> Vec<Symbol> {
    let symbol = |&stream::Symbol { context, value }: &stream::Symbol| Symbol { context, value };
    symbols.iter().map(symbol).collect()
}

/// The stream's symbols.
fn printed(symbols: &[Symbol]) -> Vec<stream::Symbol> {
    let symbol = |&Symbol { context, value }: &Symbol| stream::Symbol { context, value };
    symbols.iter().map(symbol).collect()
}

#[cfg(test)]
mod tests {
    use super::*;
    use stream::{NodeList, Record, Runs};

    fn symbols<const N: usize>(pairs: [(u32, u32); N]) -> Vec<stream::Symbol> {
        let symbol = |(context, value)| stream::Symbol { context, value };
        pairs.map(symbol).to_vec()
    }

    /// A leaf with predictor 5 and offset -1 among two entries, with room for one symbol and one entry of the queue
    /// more than is due.
    fn leaf() -> WriteSymbolsJob {
        WriteSymbolsJob {
            count: 1,
            nodes: NodeList {
                entries: 2,
                given: vec![Record::leaf(5, -1)],
            },
            fill: 9,
            pair_entries: 6,
            queue_entries: 2,
        }
    }

    #[test]
    fn a_leaf_is_written() {
        let expected = SymbolsWritten {
            number: 0,
            place: 0,
            pair_count: 5,
            symbols: symbols([(1, 0), (2, 5), (3, 1), (4, 0), (5, 0), (14, 15)]),
            queue: Runs::of(0, 2),
        };
        assert_eq!(write_symbols(&leaf()), expected);
    }

    /// Entry 1 has kind 0, so that it is a leaf, and no split's child.
    #[test]
    fn what_is_not_written_is_answered_with_its_lists_as_they_were() {
        let job = WriteSymbolsJob { count: 2, ..leaf() };
        let expected = SymbolsWritten {
            number: 8,
            place: 1,
            pair_count: 0,
            symbols: stream::Symbol::list(6, 9),
            queue: Runs::of(9, 2),
        };
        assert_eq!(write_symbols(&job), expected);
    }

    #[test]
    fn a_leaf_is_read() {
        let mut job = ReadSymbolsJob {
            symbols: symbols([(1, 0), (2, 5), (3, 1), (4, 0), (5, 0)]),
            node_entries: 2,
            fill: 9,
        };
        let lent = job.lent();
        let expected = SymbolsRead {
            number: 0,
            place: 0,
            node_count: 1,
            nodes: vec![Record::leaf(5, -1), lent[1]],
        };
        assert_eq!(read_symbols(&job), expected);
        job.symbols.pop();
        let refused = SymbolsRead {
            number: 11,
            place: 0,
            node_count: 0,
            nodes: lent,
        };
        assert_eq!(read_symbols(&job), refused);
    }
}
