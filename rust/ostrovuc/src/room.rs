//! Owned lists of the lengths that document 01 asks for, to be lent to learning and deepening.

use crate::operations::Lists;
use crate::records::{MaNode, Settings, Span};

/// Numbers of a waiting leaf in `queue_words`; `queue_values` and `queue_gains` have one more each.
const QUEUE_WORDS: usize = 4;

/// Everything that is lent besides the rows.
#[derive(Clone, Debug, Default, PartialEq)]
pub struct Room {
    pub nodes: Vec<MaNode>,
    pub spans: Vec<Span>,
    pub queue_words: Vec<u32>,
    pub queue_values: Vec<i32>,
    pub queue_gains: Vec<f32>,
    pub counts: Vec<u32>,
}

/// How many nodes, spans, waiting leaves and counts a room has, whatever numbers make one up.
#[derive(Clone, Copy, Debug, Eq, PartialEq)]
pub struct Entries {
    pub nodes: usize,
    pub spans: usize,
    pub queue: usize,
    pub counts: usize,
}

impl Room {
    /// Room for learning from so many rows, and for deepening what was learned by as many.
    pub fn for_learning(settings: &Settings, rows: usize) -> Self {
        Self::of(settings, rows, grown(settings))
    }

    /// Room for deepening a seed, which stands at the front of its nodes.
    pub fn for_deepening(settings: &Settings, rows: usize, seed: &[MaNode]) -> Self {
        let mut room = Self::of(settings, rows, grown(settings).max(seed.len()));
        room.nodes[..seed.len()].copy_from_slice(seed);
        room
    }

    fn of(settings: &Settings, rows: usize, nodes: usize) -> Self {
        Self::of_entries(Entries {
            nodes,
            spans: nodes,
            queue: leaves(settings),
            counts: counts(settings).max(rows.saturating_add(2 * nodes)),
        })
    }

    /// Room of any size, enough or not.
    pub fn of_entries(entries: Entries) -> Self {
        Self {
            nodes: vec![MaNode::default(); entries.nodes],
            spans: vec![Span::default(); entries.spans],
            queue_words: vec![0; QUEUE_WORDS * entries.queue],
            queue_values: vec![0; entries.queue],
            queue_gains: vec![0.0; entries.queue],
            counts: vec![0; entries.counts],
        }
    }

    /// How many entries it has; of the queue's lists the first tells.
    pub fn entries(&self) -> Entries {
        Entries {
            nodes: self.nodes.len(),
            spans: self.spans.len(),
            queue: self.queue_words.len() / QUEUE_WORDS,
            counts: self.counts.len(),
        }
    }

    /// Each entry of the queue as the bits of all its numbers.
    pub fn queue_bits(&self) -> impl Iterator<Item = [u32; QUEUE_WORDS + 2]> {
        let words = self.queue_words.as_chunks::<QUEUE_WORDS>().0.iter();
        let rest = self.queue_values.iter().zip(&self.queue_gains);
        words
            .zip(rest)
            .map(|(&[a, b, c, d], (&value, gain))| [a, b, c, d, value as u32, gain.to_bits()])
    }

    /// The lists with the rows of a job.
    pub fn lend<'a>(
        &'a mut self,
        props: &'a mut [i32],
        tok: &'a mut [u8],
        res: &'a mut [i32],
    ) -> Lists<'a> {
        Lists {
            nodes: &mut self.nodes,
            spans: &mut self.spans,
            props,
            tok,
            res,
            queue_words: &mut self.queue_words,
            queue_values: &mut self.queue_values,
            queue_gains: &mut self.queue_gains,
            counts: &mut self.counts,
        }
    }
}

// Settings outside their ranges are refused whatever the room, so they are held to them here.

fn leaves(settings: &Settings) -> usize {
    settings.max_leaves.clamp(1, 4_096) as usize
}

/// Nodes of a tree with as many leaves as are allowed.
fn grown(settings: &Settings) -> usize {
    2 * leaves(settings) - 1
}

/// Count space: 4,096 numbers, and what flat bits or the scoring of a property take.
fn counts(settings: &Settings) -> usize {
    let alphabet = settings.alphabet.clamp(1, 256) as usize;
    let sides = settings.side_preds.clamp(1, 14) as usize;
    let candidates = settings.max_candidates.min(32) as usize;
    4_096 + (56 * alphabet).max(14 * alphabet + sides * alphabet * (candidates + 2))
}

/// The logarithms that learning from so many rows asks for: entry c is log2 of c, entry 0 is 0.
pub fn logarithms(rows: usize) -> Vec<f32> {
    let log2 = |count: usize| (count as f64).log2() as f32;
    std::iter::once(0.0).chain((1..=rows).map(log2)).collect()
}
