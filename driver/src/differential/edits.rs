//! The edits of each kind of job, the ones that take most away first.

use crate::Result;
use crate::shrink::{Number, Shrinker};
use crate::trees;
use std::ops::Range;
use stream::{
    ContextsJob, Learning, LookupJob, MARKS, PREDICTORS, PROPERTIES, PruneJob, SampleJob, ScoreJob,
};

/// Learning and deepening: rows, settings, the seed, room, then what the rows hold.
pub fn learning(s: &mut Shrinker<'_, Learning>) -> Result<()> {
    s.pieces(|job| job.properties.len() / PROPERTIES, drop_rows)?;
    s.attempt(|job| job.residuals.clear())?;
    settings(s)?;
    trees::tree(s)?;
    room(s)?;
    columns(s)?;
    s.numbers(|job| &mut job.properties)?;
    s.numbers(|job| &mut job.tokens)?;
    s.numbers(|job| &mut job.residuals)?;
    lengths(s)?;
    s.attempt(|job| job.logarithms = logarithms(job.logarithms.len()))?;
    Ok(())
}

/// Takes rows with so many entries each out of a list, as far as it goes.
fn cut<T>(list: &mut Vec<T>, rows: &Range<usize>, each: usize) {
    let end = list.len().min(rows.end * each);
    list.drain(end.min(rows.start * each)..end);
}

/// Takes rows out of every list.
fn drop_rows(job: &mut Learning, rows: Range<usize>) {
    cut(&mut job.properties, &rows, PROPERTIES);
    cut(&mut job.tokens, &rows, PREDICTORS);
    cut(&mut job.residuals, &rows, 1);
}

fn settings(s: &mut Shrinker<'_, Learning>) -> Result<()> {
    s.lower(|job| &mut job.settings.limit)?;
    s.plain(|job| &mut job.settings.price)?;
    s.plain(|job| &mut job.settings.split_cost)?;
    s.lower(|job| &mut job.settings.smallest_node)?;
    s.lower(|job| &mut job.settings.side_predictors)?;
    s.lower(|job| &mut job.settings.candidates)?;
    s.attempt(|job| job.settings.settling = false)?;
    s.attempt(|job| job.settings.modal_offsets = false)?;
    s.attempt(|job| job.settings.weighted = false)?;
    for predictor in (0..u16::BITS).rev() {
        s.attempt(|job| job.settings.allowed &= !(1 << predictor))?;
    }
    s.lower(|job| &mut job.settings.alphabet)
}

/// The lent lists that the job describes by their lengths.
fn room(s: &mut Shrinker<'_, Learning>) -> Result<()> {
    s.lower(|job| &mut job.fill)?;
    s.lower(|job| &mut job.nodes.entries)?;
    s.lower(|job| &mut job.span_entries)?;
    s.lower(|job| &mut job.queue_entries)?;
    s.lower(|job| &mut job.count_entries)
}

/// One property of all rows, one predictor's tokens of all rows.
fn columns(s: &mut Shrinker<'_, Learning>) -> Result<()> {
    for k in 0..PROPERTIES {
        s.attempt(|job| {
            job.properties
                .iter_mut()
                .skip(k)
                .step_by(PROPERTIES)
                .for_each(|v| *v = 0)
        })?;
    }
    for k in 0..PREDICTORS {
        s.attempt(|job| {
            job.tokens
                .iter_mut()
                .skip(k)
                .step_by(PREDICTORS)
                .for_each(|v| *v = 0)
        })?;
    }
    Ok(())
}

/// Each list by itself: rows too many or too few, logarithms past the rows.
fn lengths(s: &mut Shrinker<'_, Learning>) -> Result<()> {
    s.shorten(|job| &mut job.logarithms)?;
    s.shorten(|job| &mut job.properties)?;
    s.shorten(|job| &mut job.tokens)?;
    s.shorten(|job| &mut job.residuals)
}

fn logarithms(entries: usize) -> Vec<f32> {
    (0..entries)
        .map(|count| {
            if count == 0 {
                0.0
            } else {
                (count as f32).log2()
            }
        })
        .collect()
}

pub fn lookup(s: &mut Shrinker<'_, LookupJob>) -> Result<()> {
    trees::tree(s)?;
    s.lower(|job| &mut job.fill)?;
    s.lower(|job| &mut job.count)?;
    s.lower(|job| &mut job.nodes.entries)?;
    s.numbers(|job| &mut job.properties)?;
    s.shorten(|job| &mut job.properties)
}

pub fn contexts(s: &mut Shrinker<'_, ContextsJob>) -> Result<()> {
    trees::tree(s)?;
    s.lower(|job| &mut job.fill)?;
    s.lower(|job| &mut job.count)?;
    s.lower(|job| &mut job.nodes.entries)?;
    s.lower(|job| &mut job.context_entries)?;
    s.lower(|job| &mut job.queue_entries)
}

pub fn sample(s: &mut Shrinker<'_, SampleJob>) -> Result<()> {
    s.lower(|job| &mut job.rows)?;
    s.lower(|job| &mut job.target)?;
    s.lower(|job| &mut job.output_entries)?;
    s.lower(|job| &mut job.fill)
}

pub fn prune(s: &mut Shrinker<'_, PruneJob>) -> Result<()> {
    trees::tree(s)?;
    s.plain(|job| &mut job.price)?;
    for at in 0..s.job.spans.len() {
        s.lower(|job| &mut job.spans[at].first)?;
        s.lower(|job| &mut job.spans[at].end)?;
    }
    Ok(())
}

/// Scoring: rows, candidates, side predictors, then what they hold. An edit that makes it a job of no learner's is not
/// kept, since the oracle does not take that.
pub fn score(s: &mut Shrinker<'_, ScoreJob>) -> Result<()> {
    s.pieces(|job| job.column.len(), drop_scored_rows)?;
    s.pieces(
        |job| job.candidates.len(),
        |job, piece| drop(job.candidates.drain(piece)),
    )?;
    s.pieces(
        |job| job.side_predictors.len(),
        |job, piece| drop(job.side_predictors.drain(piece)),
    )?;
    s.numbers(|job| &mut job.column)?;
    s.numbers(|job| &mut job.candidates)?;
    s.numbers(|job| &mut job.tokens)?;
    s.numbers(|job| &mut job.side_predictors)?;
    s.lower(|job| &mut job.alphabet)?;
    s.shorten(|job| &mut job.logarithms)?;
    s.attempt(|job| job.logarithms = logarithms(job.logarithms.len()))?;
    Ok(())
}

/// There is a logarithm for every count of the rows that are left.
fn drop_scored_rows(job: &mut ScoreJob, rows: Range<usize>) {
    cut(&mut job.column, &rows, 1);
    cut(&mut job.tokens, &rows, PREDICTORS);
    job.logarithms.truncate(job.column.len() + 1);
}

/// Marks: fewer words of them, then fewer that are set.
pub fn marks(s: &mut Shrinker<'_, Vec<u64>>) -> Result<()> {
    s.pieces(|words| words.len(), |words, piece| drop(words.drain(piece)))?;
    s.pieces(
        |words| MARKS * words.len(),
        |words, piece| clear_marks(words, piece),
    )
}

fn clear_marks(words: &mut [u64], places: Range<usize>) {
    for place in places {
        words[place / MARKS] &= !(1 << (place % MARKS));
    }
}

/// A list of numbers: fewer of them, then nearer to 0.
pub fn list<N: Number>(s: &mut Shrinker<'_, Vec<N>>) -> Result<()> {
    s.pieces(|list| list.len(), |list, piece| drop(list.drain(piece)))?;
    s.numbers(|list| list)
}

pub fn pairs<N: Number>(s: &mut Shrinker<'_, Vec<(N, N)>>) -> Result<()> {
    s.pieces(|list| list.len(), |list, piece| drop(list.drain(piece)))?;
    for at in 0..s.job.len() {
        s.lower(|list| &mut list[at].0)?;
        s.lower(|list| &mut list[at].1)?;
    }
    Ok(())
}

/// A column and a limit or threshold.
pub fn column<N: Number>(s: &mut Shrinker<'_, (Vec<i32>, N)>) -> Result<()> {
    s.pieces(|job| job.0.len(), |job, piece| drop(job.0.drain(piece)))?;
    s.lower(|job| &mut job.1)?;
    s.numbers(|job| &mut job.0)
}
