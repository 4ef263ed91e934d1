//! What was seen.

use crate::Run;
use crate::pairs::Pair;
use crate::runs::{is_unpruned, uses_modes};
use std::collections::BTreeMap;
use std::fmt::{self, Write};
use stream::Answer;

/// How many answers were acceptances, how many refusals of each number, and what demand 3 was due of.
#[derive(Default)]
pub struct Tally {
    jobs: u64,
    accepted: u64,
    refused: BTreeMap<u32, u64>,
    learning: Due,
    deepening: Due,
}

/// What demand 3 was due of, in learning or in deepening.
#[derive(Default)]
struct Due {
    /// Pairs both of which are accepted.
    alike: u64,
    split: u64,
    /// Pairs one of which is refused: nothing is due.
    half: u64,
    /// Accepted runs of which spans and tokens are due: unpruned, and pruned with settling.
    unpruned: u64,
    settled: u64,
    /// Those of them whose tokens are worked afresh: with residuals and modal offsets.
    fresh: u64,
    /// Pruned without settling: no token is due.
    free: u64,
    refused: u64,
}

impl Tally {
    pub(crate) fn jobs(&self) -> u64 {
        self.jobs
    }

    pub(crate) fn count(&mut self, answer: &Answer) {
        self.jobs += 1;
        match answer {
            Answer::Values(values) => values.iter().for_each(|value| self.verdict(value.number)),
            Answer::Learned(answer) | Answer::Deepened(answer) => self.verdict(answer.number),
            Answer::Found(answer) => self.verdict(answer.number),
            Answer::Contexts(answer) => self.verdict(answer.number),
            Answer::Sampled(answer) => self.verdict(answer.number),
            Answer::SymbolsWritten(answer) => self.verdict(answer.number),
            Answer::SymbolsRead(answer) => self.verdict(answer.number),
            _ => self.verdict(0),
        }
    }

    fn verdict(&mut self, number: u32) {
        match number {
            0 => self.accepted += 1,
            number => *self.refused.entry(number).or_default() += 1,
        }
    }

    pub(crate) fn count_run(&mut self, run: &Run) {
        let due = self.due(run.deepens);
        if run.answer.number != 0 {
            due.refused += 1;
            return;
        }
        if is_unpruned(&run.job) {
            due.unpruned += 1;
        } else if run.job.settings.settling {
            due.settled += 1;
        } else {
            due.free += 1;
            return;
        }
        due.fresh += u64::from(uses_modes(&run.job));
    }

    pub(crate) fn count_pair(&mut self, deepens: bool, pair: Pair) {
        let due = self.due(deepens);
        match pair {
            Pair::Alike => due.alike += 1,
            Pair::Split => due.split += 1,
            Pair::Half => due.half += 1,
        }
    }

    fn due(&mut self, deepens: bool) -> &mut Due {
        if deepens {
            &mut self.deepening
        } else {
            &mut self.learning
        }
    }

    /// A line for learning and one for deepening, as far as there were any.
    pub fn demand3(&self) -> String {
        let mut lines = String::new();
        for (kind, due) in [
            ("learning: ", &self.learning),
            ("deepening:", &self.deepening),
        ] {
            if due.runs() + due.free + due.refused > 0 {
                writeln!(lines, "{kind} {due}").expect("text has room");
            }
        }
        lines
    }
}

impl fmt::Display for Tally {
    fn fmt(&self, f: &mut fmt::Formatter<'_>) -> fmt::Result {
        write!(f, "{} jobs, {} accepted", self.jobs, self.accepted)?;
        for (number, count) in &self.refused {
            write!(f, ", {count} x {number}")?;
        }
        let pairs = self.learning.pairs() + self.deepening.pairs();
        if pairs != 0 {
            write!(f, ", {pairs} pairs")?;
        }
        Ok(())
    }
}

impl Due {
    fn pairs(&self) -> u64 {
        self.alike + self.split
    }

    fn runs(&self) -> u64 {
        self.unpruned + self.settled
    }
}

impl fmt::Display for Due {
    fn fmt(&self, f: &mut fmt::Formatter<'_>) -> fmt::Result {
        let Self {
            alike,
            split,
            half,
            unpruned,
            settled,
            fresh,
            free,
            refused,
        } = self;
        write!(
            f,
            "{} pairs ({alike} alike, {split} by one split), {} runs ({unpruned} unpruned, {settled} settled; \
             {fresh} with fresh tokens), {free} free, {refused} refused, {half} halves",
            self.pairs(),
            self.runs(),
        )
    }
}
