//! A tree as the symbols that JPEG XL transmits: the jobs of their writer and of their reader, and the answers.

use crate::answer::Runs;
use crate::record::{NodeList, Record};
use crate::wire::wire_struct;

/// A value, and the context that it is coded in.
#[derive(Clone, Copy, Debug, Eq, PartialEq)]
pub struct Symbol {
    pub context: u32,
    pub value: u32,
}

wire_struct!(Symbol { context, value });

impl Symbol {
    /// The lent list as it stands beforehand.
    pub fn list(entries: u32, fill: u32) -> Vec<Self> {
        let pattern = |i| {
            let v = fill.wrapping_add(i);
            Self {
                context: v,
                value: v.wrapping_add(1),
            }
        };
        (0..entries).map(pattern).collect()
    }
}

/// The tree of the first `count` nodes is to be written.
#[derive(Clone, Debug, PartialEq)]
pub struct WriteSymbolsJob {
    pub count: u32,
    pub nodes: NodeList,
    pub fill: u32,
    pub pair_entries: u32,
    pub queue_entries: u32,
}

wire_struct!(WriteSymbolsJob {
    count,
    nodes,
    fill,
    pair_entries,
    queue_entries
});

/// A tree is to be read from these symbols.
#[derive(Clone, Debug, PartialEq)]
pub struct ReadSymbolsJob {
    pub symbols: Vec<Symbol>,
    pub node_entries: u32,
    pub fill: u32,
}

wire_struct!(ReadSymbolsJob {
    symbols,
    node_entries,
    fill
});

impl ReadSymbolsJob {
    /// The lent node list as it stands beforehand: the job gives nothing of it.
    pub fn lent(&self) -> Vec<Record> {
        let nodes = NodeList {
            entries: self.node_entries,
            given: Vec::new(),
        };
        nodes.whole(self.fill)
    }
}

#[derive(Clone, Debug, Eq, PartialEq)]
pub struct SymbolsWritten {
    pub number: u32,
    pub place: u32,
    pub pair_count: u32,
    pub symbols: Vec<Symbol>,
    pub queue: Runs,
}

wire_struct!(SymbolsWritten {
    number,
    place,
    pair_count,
    symbols,
    queue
});

#[derive(Clone, Debug, Eq, PartialEq)]
pub struct SymbolsRead {
    pub number: u32,
    pub place: u32,
    pub node_count: u32,
    pub nodes: Vec<Record>,
}

wire_struct!(SymbolsRead {
    number,
    place,
    node_count,
    nodes
});

#[cfg(test)]
mod tests {
    use super::*;
    use crate::{Answer, Job, Message};

    fn bytes(words: &[u32]) -> Vec<u8> {
        words.iter().flat_map(|word| word.to_le_bytes()).collect()
    }

    /// The message is of this kind with these words, and reads back.
    #[track_caller]
    fn travels(message: &Message, kind: u32, words: &[u32]) {
        assert_eq!((message.kind, &message.body), (kind, &bytes(words)));
    }

    fn symbols(pairs: &[(u32, u32)]) -> Vec<Symbol> {
        let symbol = |&(context, value): &(u32, u32)| Symbol { context, value };
        pairs.iter().map(symbol).collect()
    }

    /// A leaf with predictor 5 and offset -1, read into one entry.
    #[test]
    fn a_leaf_is_read() {
        let job = Job::ReadSymbols(ReadSymbolsJob {
            symbols: symbols(&[(1, 0), (2, 5), (3, 1), (4, 0), (5, 0)]),
            node_entries: 1,
            fill: 9,
        });
        let message = job.message();
        travels(&message, 33, &[5, 1, 0, 2, 5, 3, 1, 4, 0, 5, 0, 1, 9]);
        assert_eq!(Job::read(&message).expect("a sound job"), job);
        let answer = Answer::SymbolsRead(SymbolsRead {
            number: 0,
            place: 0,
            node_count: 1,
            nodes: vec![Record::leaf(5, -1)],
        });
        let message = answer.message();
        let record = [0, 0, 0, 0, 0, 0, 5, u32::MAX, 0];
        travels(&message, 33, &[&[0, 0, 1, 1][..], &record].concat());
        assert_eq!(Answer::read(&message).expect("a sound answer"), answer);
    }

    /// The same leaf, written into six entries of which the last stays.
    #[test]
    fn a_leaf_is_written() {
        let job = Job::WriteSymbols(WriteSymbolsJob {
            count: 1,
            nodes: NodeList {
                entries: 2,
                given: vec![Record::leaf(5, -1)],
            },
            fill: 9,
            pair_entries: 6,
            queue_entries: 3,
        });
        let message = job.message();
        let record = [0, 0, 0, 0, 0, 0, 5, u32::MAX, 0];
        travels(
            &message,
            32,
            &[&[1, 2, 1][..], &record, &[9, 6, 3]].concat(),
        );
        assert_eq!(Job::read(&message).expect("a sound job"), job);
        let answer = Answer::SymbolsWritten(SymbolsWritten {
            number: 0,
            place: 0,
            pair_count: 5,
            symbols: symbols(&[(1, 0), (2, 5), (3, 1), (4, 0), (5, 0), (14, 15)]),
            queue: Runs::of(0, 3),
        });
        let message = answer.message();
        let pairs = [6, 1, 0, 2, 5, 3, 1, 4, 0, 5, 0, 14, 15];
        travels(
            &message,
            32,
            &[&[0, 0, 5][..], &pairs, &[3, 1, 0, 3]].concat(),
        );
        assert_eq!(Answer::read(&message).expect("a sound answer"), answer);
    }

    #[test]
    fn lent_lists_hold_their_patterns() {
        let pattern = [(u32::MAX, 0), (0, 1), (1, 2)];
        assert_eq!(Symbol::list(3, u32::MAX), symbols(&pattern));
        let job = ReadSymbolsJob {
            symbols: Vec::new(),
            node_entries: 2,
            fill: 25,
        };
        let [first, second] = job.lent()[..] else {
            panic!("not two entries");
        };
        assert_eq!((first.kind, first.prop, first.pred), (1, 1, 11));
        assert_eq!((second.kind, second.prop, second.val), (0, 2, 26));
        assert_eq!((first.depth, second.depth), (25, 26));
    }
}
