//! Jobs.

use crate::MOST_MARK_WORDS;
use crate::record::{NodeList, Record, Span};
use crate::score::ScoreJob;
use crate::symbol::{ReadSymbolsJob, WriteSymbolsJob};
use crate::wire::{Message, Reader, Result, Wire, damaged, wire_struct};

#[derive(Clone, Debug, PartialEq)]
pub struct Settings {
    pub alphabet: u32,
    pub limit: u32,
    pub split_cost: f32,
    pub price: f32,
    pub smallest_node: u32,
    pub side_predictors: u32,
    pub candidates: u32,
    pub weighted: bool,
    pub allowed: u16,
    pub modal_offsets: bool,
    pub settling: bool,
}

wire_struct!(Settings {
    alphabet,
    limit,
    split_cost,
    price,
    smallest_node,
    side_predictors,
    candidates,
    weighted,
    allowed,
    modal_offsets,
    settling,
});

/// Learning and deepening: settings, rows, logarithms and every lent list.
#[derive(Clone, Debug, PartialEq)]
pub struct Learning {
    pub settings: Settings,
    pub properties: Vec<i32>,
    pub tokens: Vec<u8>,
    pub residuals: Vec<i32>,
    pub logarithms: Vec<f32>,
    pub seed_count: u32,
    pub nodes: NodeList,
    pub span_entries: u32,
    pub queue_entries: u32,
    pub count_entries: u32,
    pub fill: u32,
}

wire_struct!(Learning {
    settings,
    properties,
    tokens,
    residuals,
    logarithms,
    seed_count,
    nodes,
    span_entries,
    queue_entries,
    count_entries,
    fill,
});

#[derive(Clone, Debug, PartialEq)]
pub struct LookupJob {
    pub count: u32,
    pub nodes: NodeList,
    pub fill: u32,
    pub properties: Vec<i32>,
}

wire_struct!(LookupJob {
    count,
    nodes,
    fill,
    properties
});

#[derive(Clone, Debug, PartialEq)]
pub struct ContextsJob {
    pub count: u32,
    pub nodes: NodeList,
    pub fill: u32,
    pub context_entries: u32,
    pub queue_entries: u32,
}

wire_struct!(ContextsJob {
    count,
    nodes,
    fill,
    context_entries,
    queue_entries
});

#[derive(Clone, Debug, PartialEq)]
pub struct SampleJob {
    pub rows: u64,
    pub target: u64,
    pub output_entries: u32,
    pub fill: u32,
}

wire_struct!(SampleJob {
    rows,
    target,
    output_entries,
    fill
});

#[derive(Clone, Debug, PartialEq)]
pub struct PruneJob {
    pub price: f32,
    pub nodes: Vec<Record>,
    pub spans: Vec<Span>,
}

wire_struct!(PruneJob {
    price,
    nodes,
    spans
});

#[derive(Clone, Debug, PartialEq)]
pub enum Job {
    Learn(Learning),
    Deepen(Learning),
    Lookup(LookupJob),
    Contexts(ContextsJob),
    Sample(SampleJob),
    Pack(Vec<i32>),
    Token(Vec<u32>),
    Value(Vec<(u32, u32)>),
    Mode(Vec<i32>),
    /// A column and the limit of candidates.
    Candidates(Vec<i32>, u32),
    /// A column and the threshold.
    Partition(Vec<i32>, i32),
    Prune(PruneJob),
    WriteSymbols(WriteSymbolsJob),
    ReadSymbols(ReadSymbolsJob),
    Score(ScoreJob),
    /// Words of 64 marks each, the lowest bit first.
    Marks(Vec<u64>),
}

impl Job {
    pub fn read(message: &Message) -> Result<Self> {
        let mut body = Reader::new(&message.body);
        let job = match message.kind {
            1 => Self::Learn(body.get()?),
            2 => Self::Deepen(body.get()?),
            3 => Self::Lookup(body.get()?),
            4 => Self::Contexts(body.get()?),
            5 => Self::Sample(body.get()?),
            6 => Self::Pack(body.get()?),
            7 => Self::Token(body.get()?),
            8 => Self::Value(body.get()?),
            16 => Self::Mode(body.get()?),
            17 => Self::Candidates(body.get()?, body.get()?),
            18 => Self::Partition(body.get()?, body.get()?),
            19 => Self::Prune(body.get()?),
            32 => Self::WriteSymbols(body.get()?),
            33 => Self::ReadSymbols(body.get()?),
            48 => Self::Score(body.get()?),
            49 => Self::Marks(body.get()?),
            other => return damaged(format!("no job has kind {other}")),
        };
        body.done()?;
        job.shaped()
    }

    /// Four things that fields alone cannot say.
    fn shaped(self) -> Result<Self> {
        match &self {
            Self::Learn(job) if job.seed_count != 0 => damaged("learning takes no seed"),
            Self::Prune(job) if job.nodes.len() != job.spans.len() => {
                damaged("pruning wants a span for each node")
            }
            Self::Score(job) if !job.is_sound() => damaged("scoring of what no learner has"),
            Self::Marks(words) if words.len() > MOST_MARK_WORDS => {
                damaged("marks whose places pass 32 bits")
            }
            _ => Ok(self),
        }
    }

    pub fn kind(&self) -> u32 {
        match self {
            Self::Learn(_) => 1,
            Self::Deepen(_) => 2,
            Self::Lookup(_) => 3,
            Self::Contexts(_) => 4,
            Self::Sample(_) => 5,
            Self::Pack(_) => 6,
            Self::Token(_) => 7,
            Self::Value(_) => 8,
            Self::Mode(_) => 16,
            Self::Candidates(..) => 17,
            Self::Partition(..) => 18,
            Self::Prune(_) => 19,
            Self::WriteSymbols(_) => 32,
            Self::ReadSymbols(_) => 33,
            Self::Score(_) => 48,
            Self::Marks(_) => 49,
        }
    }

    pub fn message(&self) -> Message {
        let mut body = Vec::new();
        match self {
            Self::Learn(job) | Self::Deepen(job) => job.write(&mut body),
            Self::Lookup(job) => job.write(&mut body),
            Self::Contexts(job) => job.write(&mut body),
            Self::Sample(job) => job.write(&mut body),
            Self::Pack(list) | Self::Mode(list) => list.write(&mut body),
            Self::Token(list) => list.write(&mut body),
            Self::Value(list) => list.write(&mut body),
            Self::Candidates(column, limit) => {
                column.write(&mut body);
                limit.write(&mut body);
            }
            Self::Partition(column, threshold) => {
                column.write(&mut body);
                threshold.write(&mut body);
            }
            Self::Prune(job) => job.write(&mut body),
            Self::WriteSymbols(job) => job.write(&mut body),
            Self::ReadSymbols(job) => job.write(&mut body),
            Self::Score(job) => job.write(&mut body),
            Self::Marks(words) => words.write(&mut body),
        }
        Message {
            kind: self.kind(),
            body,
        }
    }
}

#[cfg(test)]
mod tests {
    use super::*;

    #[test]
    fn marks_travel_low_word_first() {
        let job = Job::Marks(vec![1, 1 << 63]);
        let words = [2u32, 1, 0, 0, 1 << 31];
        let message = job.message();
        assert_eq!(message.kind, 49);
        assert_eq!(message.body, words.map(u32::to_le_bytes).as_flattened());
        assert_eq!(Job::read(&message).expect("a sound job"), job);
    }

    #[test]
    fn places_have_32_bits() {
        let job = |words| Job::Marks(vec![0; words]);
        assert!(job(MOST_MARK_WORDS).shaped().is_ok());
        assert!(job(MOST_MARK_WORDS + 1).shaped().is_err());
    }
}
