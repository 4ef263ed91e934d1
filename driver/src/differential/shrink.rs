//! Makes a job that differs smaller, greedily: an edit is kept if the edited job still differs, and rounds of edits go on
//! until one of them keeps nothing.

use crate::Result;
use crate::{edits, symbols};
use std::ops::Range;
use std::time::{Duration, Instant};
use stream::{Job, Message};

/// Enough of both for any job that does not take seconds to answer.
const TRIES: u32 = 20_000;
const TIME: Duration = Duration::from_secs(300);

/// Whether oracle and driver answer a job differently.
pub type Differs<'a> = &'a mut dyn FnMut(&Message) -> Result<bool>;

/// The smallest job found, and how many were tried.
pub struct Shrunk {
    pub job: Message,
    pub tries: u32,
}

pub fn smallest(job: &Message, differs: Differs<'_>) -> Result<Shrunk> {
    match Job::read(job)? {
        Job::Learn(job) => rounds(job, Job::Learn, differs, edits::learning),
        Job::Deepen(job) => rounds(job, Job::Deepen, differs, edits::learning),
        Job::Lookup(job) => rounds(job, Job::Lookup, differs, edits::lookup),
        Job::Contexts(job) => rounds(job, Job::Contexts, differs, edits::contexts),
        Job::Sample(job) => rounds(job, Job::Sample, differs, edits::sample),
        Job::Pack(list) => rounds(list, Job::Pack, differs, edits::list),
        Job::Token(list) => rounds(list, Job::Token, differs, edits::list),
        Job::Value(list) => rounds(list, Job::Value, differs, edits::pairs),
        Job::Mode(list) => rounds(list, Job::Mode, differs, edits::list),
        Job::Candidates(column, limit) => {
            let wrap = |(column, limit)| Job::Candidates(column, limit);
            rounds((column, limit), wrap, differs, edits::column)
        }
        Job::Partition(column, threshold) => {
            let wrap = |(column, threshold)| Job::Partition(column, threshold);
            rounds((column, threshold), wrap, differs, edits::column)
        }
        Job::Prune(job) => rounds(job, Job::Prune, differs, edits::prune),
        Job::WriteSymbols(job) => rounds(job, Job::WriteSymbols, differs, symbols::write),
        Job::ReadSymbols(job) => rounds(job, Job::ReadSymbols, differs, symbols::read),
        Job::Score(job) => rounds(job, Job::Score, differs, edits::score),
        Job::Marks(words) => rounds(words, Job::Marks, differs, edits::marks),
    }
}

/// Round after round of a kind's edits.
fn rounds<J: Clone>(
    job: J,
    wrap: fn(J) -> Job,
    differs: Differs<'_>,
    round: fn(&mut Shrinker<'_, J>) -> Result<()>,
) -> Result<Shrunk> {
    let message = wrap(job.clone()).message();
    let start = Instant::now();
    let mut shrinker = Shrinker {
        job,
        message,
        wrap,
        differs,
        tries: 0,
        start,
    };
    loop {
        let before = shrinker.message.body.clone();
        round(&mut shrinker)?;
        if shrinker.message.body == before {
            let Shrinker { message, tries, .. } = shrinker;
            return Ok(Shrunk {
                job: message,
                tries,
            });
        }
    }
}

/// The smallest job so far, and how it travels.
pub struct Shrinker<'a, J> {
    pub job: J,
    message: Message,
    wrap: fn(J) -> Job,
    differs: Differs<'a>,
    tries: u32,
    start: Instant,
}

impl<J: Clone> Shrinker<'_, J> {
    fn is_spent(&self) -> bool {
        self.tries >= TRIES || self.start.elapsed() >= TIME
    }

    /// Keeps an edit if it changes the job, and the edited one differs too.
    pub fn attempt(&mut self, edit: impl FnOnce(&mut J)) -> Result<bool> {
        if self.is_spent() {
            return Ok(false);
        }
        let mut edited = self.job.clone();
        edit(&mut edited);
        let message = (self.wrap)(edited.clone()).message();
        if message.body == self.message.body {
            return Ok(false);
        }
        self.tries += 1;
        let keeps = (self.differs)(&message)?;
        if keeps {
            (self.job, self.message) = (edited, message);
        }
        Ok(keeps)
    }

    /// Brings a number as near to 0 as it goes, by steps that halve.
    pub fn lower<N: Number>(&mut self, field: impl Fn(&mut J) -> &mut N) -> Result<()> {
        let mut step = field(&mut self.job).size();
        while step > 0 {
            let fits = field(&mut self.job).size() >= step;
            let kept = fits
                && self.attempt(|job| {
                    let number = field(job);
                    *number = number.nearer(step);
                })?;
            if !kept {
                step /= 2;
            }
        }
        Ok(())
    }

    /// Makes a single 0, 1 or whole, the first that goes.
    pub fn plain(&mut self, field: impl Fn(&mut J) -> &mut f32) -> Result<()> {
        let now = *field(&mut self.job);
        for plainer in [0.0f32, 1.0, now.trunc()] {
            let is_there = plainer.to_bits() == now.to_bits();
            if is_there || self.attempt(|job| *field(job) = plainer)? {
                break;
            }
        }
        Ok(())
    }

    /// Cuts a list's end off, as much of it as goes.
    pub fn shorten<T>(&mut self, list: impl Fn(&mut J) -> &mut Vec<T>) -> Result<()> {
        let mut step = list(&mut self.job).len();
        while step > 0 {
            let length = list(&mut self.job).len();
            let kept = length >= step && self.attempt(|job| list(job).truncate(length - step))?;
            if !kept {
                step /= 2;
            }
        }
        Ok(())
    }

    /// Tries an edit on pieces of a list, from its end: on the whole, on halves, and so on down to single entries.
    pub fn pieces(
        &mut self,
        length: impl Fn(&mut J) -> usize,
        edit: impl Fn(&mut J, Range<usize>),
    ) -> Result<()> {
        let mut size = length(&mut self.job);
        while size > 0 && !self.is_spent() {
            let mut end = length(&mut self.job);
            while end > 0 {
                let start = end.saturating_sub(size);
                self.attempt(|job| edit(job, start..end))?;
                end = start;
            }
            size /= 2;
        }
        Ok(())
    }

    /// Brings the numbers of a list to 0 by pieces, then each as near to 0 as it goes.
    pub fn numbers<N: Number>(&mut self, list: impl Fn(&mut J) -> &mut Vec<N>) -> Result<()> {
        self.pieces(
            |job| list(job).len(),
            |job, piece| list(job)[piece].fill(N::default()),
        )?;
        for at in 0..list(&mut self.job).len() {
            self.lower(|job| &mut list(job)[at])?;
        }
        Ok(())
    }
}

/// A whole number of some width.
pub trait Number: Copy + Default {
    /// How far it is from 0.
    fn size(&self) -> u64;
    /// The number that is `step` nearer to 0, for a step up to its size.
    fn nearer(&self, step: u64) -> Self;
}

macro_rules! unsigned {
    ($($number:ty),*) => {$(
        impl Number for $number {
            fn size(&self) -> u64 {
                (*self).into()
            }

            fn nearer(&self, step: u64) -> Self {
                self - step as Self
            }
        }
    )*};
}

unsigned!(u8, u32, u64);

impl Number for i32 {
    fn size(&self) -> u64 {
        self.unsigned_abs().into()
    }

    fn nearer(&self, step: u64) -> Self {
        let step = if *self < 0 {
            -(step as i64)
        } else {
            step as i64
        };
        (i64::from(*self) - step) as i32
    }
}

#[cfg(test)]
mod tests;
