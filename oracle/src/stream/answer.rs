//! Answers.

use crate::record::{Record, Span};
use crate::score::Scored;
use crate::symbol::{SymbolsRead, SymbolsWritten};
use crate::wire::{Message, Reader, Result, Wire, damaged, wire_struct};

/// A list as runs of equal entries: (value, length) each.
#[derive(Clone, Debug, Eq, PartialEq)]
pub struct Runs(pub Vec<(u32, u32)>);

impl Runs {
    /// A list of `entries` equal entries.
    pub fn of(value: u32, entries: u32) -> Self {
        Self(if entries == 0 {
            Vec::new()
        } else {
            vec![(value, entries)]
        })
    }

    fn entries(&self) -> u64 {
        self.0.iter().map(|&(_, length)| u64::from(length)).sum()
    }

    /// Each run is as long as it can be.
    fn is_sound(&self) -> bool {
        self.0.iter().all(|&(_, length)| length != 0)
            && self.0.windows(2).all(|pair| pair[0].0 != pair[1].0)
    }
}

impl FromIterator<u32> for Runs {
    fn from_iter<T: IntoIterator<Item = u32>>(list: T) -> Self {
        let mut runs: Vec<(u32, u32)> = Vec::new();
        for entry in list {
            match runs.last_mut() {
                Some((value, length)) if *value == entry => *length += 1,
                _ => runs.push((entry, 1)),
            }
        }
        Self(runs)
    }
}

impl Wire for Runs {
    const SIZE: usize = 8;

    fn read(from: &mut Reader<'_>) -> Result<Self> {
        let entries = from.word()?;
        let runs = Self(from.get()?);
        if runs.entries() != u64::from(entries) || !runs.is_sound() {
            return damaged("runs that do not make up their list");
        }
        Ok(runs)
    }

    fn write(&self, to: &mut Vec<u8>) {
        (self.entries() as u32).write(to);
        self.0.write(to);
    }
}

/// Learning and deepening: the answer, and each lent list whole.
#[derive(Clone, Debug, PartialEq)]
pub struct Learned {
    pub number: u32,
    pub place: u32,
    pub node_count: u32,
    pub leaf_count: u32,
    pub estimated_bits: f64,
    pub flat_bits: f64,
    pub nodes: Vec<Record>,
    pub spans: Vec<Span>,
    pub properties: Vec<i32>,
    pub tokens: Vec<u8>,
    pub residuals: Vec<i32>,
    pub queue: Runs,
    pub counts: Runs,
}

wire_struct!(Learned {
    number,
    place,
    node_count,
    leaf_count,
    estimated_bits,
    flat_bits,
    nodes,
    spans,
    properties,
    tokens,
    residuals,
    queue,
    counts,
});

/// Lookup.
#[derive(Clone, Debug, Default, Eq, PartialEq)]
pub struct Found {
    pub number: u32,
    pub place: u32,
    pub leaf: u32,
    pub pred: u32,
}

wire_struct!(Found {
    number,
    place,
    leaf,
    pred
});

#[derive(Clone, Debug, Eq, PartialEq)]
pub struct Contexts {
    pub number: u32,
    pub place: u32,
    pub context_count: u32,
    pub contexts: Vec<u32>,
    pub queue: Runs,
}

wire_struct!(Contexts {
    number,
    place,
    context_count,
    contexts,
    queue
});

/// Even sampling.
#[derive(Clone, Debug, Eq, PartialEq)]
pub struct Sampled {
    pub number: u32,
    pub place: u32,
    pub picked: u32,
    pub output: Vec<u32>,
}

wire_struct!(Sampled {
    number,
    place,
    picked,
    output
});

#[derive(Clone, Debug, Eq, PartialEq)]
pub struct TokenOf {
    pub token: u32,
    pub extra_count: u32,
    pub extra_bits: u32,
}

wire_struct!(TokenOf {
    token,
    extra_count,
    extra_bits
});

#[derive(Clone, Debug, Default, Eq, PartialEq)]
pub struct ValueOf {
    pub number: u32,
    pub place: u32,
    pub value: u32,
}

wire_struct!(ValueOf {
    number,
    place,
    value
});

#[derive(Clone, Debug, PartialEq)]
pub struct Pruned {
    pub estimated_bits: f64,
    pub node_count: u32,
    pub nodes: Vec<Record>,
    pub spans: Vec<Span>,
}

wire_struct!(Pruned {
    estimated_bits,
    node_count,
    nodes,
    spans
});

#[derive(Clone, Debug, PartialEq)]
pub enum Answer {
    Learned(Learned),
    Deepened(Learned),
    Found(Found),
    Contexts(Contexts),
    Sampled(Sampled),
    Packed(Vec<u32>),
    Tokens(Vec<TokenOf>),
    Values(Vec<ValueOf>),
    /// The mode and the zero-predictor tokens.
    Mode(i32, Vec<u8>),
    Candidates(Vec<i32>),
    /// Rows above, and the column.
    Partitioned(u32, Vec<i32>),
    Pruned(Pruned),
    SymbolsWritten(SymbolsWritten),
    SymbolsRead(SymbolsRead),
    Scored(Scored),
    /// The place of each set mark, ascending.
    Places(Vec<u32>),
}

impl Answer {
    pub fn read(message: &Message) -> Result<Self> {
        let mut body = Reader::new(&message.body);
        let answer = match message.kind {
            1 => Self::Learned(body.get()?),
            2 => Self::Deepened(body.get()?),
            3 => Self::Found(body.get()?),
            4 => Self::Contexts(body.get()?),
            5 => Self::Sampled(body.get()?),
            6 => Self::Packed(body.get()?),
            7 => Self::Tokens(body.get()?),
            8 => Self::Values(body.get()?),
            16 => Self::Mode(body.get()?, body.get()?),
            17 => Self::Candidates(body.get()?),
            18 => Self::Partitioned(body.get()?, body.get()?),
            19 => Self::Pruned(body.get()?),
            32 => Self::SymbolsWritten(body.get()?),
            33 => Self::SymbolsRead(body.get()?),
            48 => Self::Scored(body.get()?),
            49 => Self::Places(body.get()?),
            other => return damaged(format!("no answer has kind {other}")),
        };
        body.done()?;
        Ok(answer)
    }

    fn kind(&self) -> u32 {
        match self {
            Self::Learned(_) => 1,
            Self::Deepened(_) => 2,
            Self::Found(_) => 3,
            Self::Contexts(_) => 4,
            Self::Sampled(_) => 5,
            Self::Packed(_) => 6,
            Self::Tokens(_) => 7,
            Self::Values(_) => 8,
            Self::Mode(..) => 16,
            Self::Candidates(_) => 17,
            Self::Partitioned(..) => 18,
            Self::Pruned(_) => 19,
            Self::SymbolsWritten(_) => 32,
            Self::SymbolsRead(_) => 33,
            Self::Scored(_) => 48,
            Self::Places(_) => 49,
        }
    }

    pub fn message(&self) -> Message {
        let mut body = Vec::new();
        match self {
            Self::Learned(answer) | Self::Deepened(answer) => answer.write(&mut body),
            Self::Found(answer) => answer.write(&mut body),
            Self::Contexts(answer) => answer.write(&mut body),
            Self::Sampled(answer) => answer.write(&mut body),
            Self::Packed(list) => list.write(&mut body),
            Self::Tokens(list) => list.write(&mut body),
            Self::Values(list) => list.write(&mut body),
            Self::Mode(mode, tokens) => {
                mode.write(&mut body);
                tokens.write(&mut body);
            }
            Self::Candidates(list) => list.write(&mut body),
            Self::Partitioned(above, column) => {
                above.write(&mut body);
                column.write(&mut body);
            }
            Self::Pruned(answer) => answer.write(&mut body),
            Self::SymbolsWritten(answer) => answer.write(&mut body),
            Self::SymbolsRead(answer) => answer.write(&mut body),
            Self::Scored(answer) => answer.write(&mut body),
            Self::Places(list) => list.write(&mut body),
        }
        Message {
            kind: self.kind(),
            body,
        }
    }
}
