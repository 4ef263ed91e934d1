//! Scoring alone: a column and its tokens laid out as rows, counted, and scored.

use crate::operations::mark;
use driver::port::{self, Windows};
use std::ops::Range;
use stream::{PREDICTORS, PROPERTIES, ScoreJob, Scored};

pub fn score(job: &ScoreJob) -> Scored {
    assert!(job.is_sound(), "nothing to score");
    let scored = best_of(job);
    assert!(scored.found <= 1, "{} for found", scored.found);
    Scored {
        found: scored.found == 1,
        threshold: scored.threshold,
        cost: scored.cost,
        below: scored.below,
    }
}

/// What the port says of a sound job. The column stands as one property of many, by turns, between two rows that are
/// not of the span.
fn best_of(job: &ScoreJob) -> port::Scored {
    let span = span_of(job.column.len());
    let prop = job.column.len() % PROPERTIES;
    let (props, tok) = (properties(job, &span, prop), tokens(job, &span));
    let (alphabet, preds) = (job.alphabet as usize, &job.side_predictors);
    let mut node = vec![0; PREDICTORS * alphabet];
    let mut room = vec![0; preds.len() * alphabet * (job.candidates.len() + 2)];
    let Range { start, end } = span;
    // SAFETY: the job is sound, which is all that is asked of candidates, predictors, logarithms and the span's tokens;
    // the lists have the lengths that are asked for, and node and room are zeros where zeros are.
    let scored = unsafe {
        port::count_tokens(&tok, start, end, alphabet, &mut node);
        let windows = Windows::of(&node, preds, alphabet);
        port::score_property(
            &props,
            &tok,
            start,
            end,
            prop,
            &job.candidates,
            &windows,
            alphabet,
            &node,
            &job.logarithms,
            &mut room,
        )
    };
    assert!(room.iter().all(|&number| number == 0), "room is not zeros");
    scored
}

/// One row stands before the span, but where it is as long as spans get: none ends further on.
fn span_of(rows: usize) -> Range<usize> {
    let first = usize::from(rows < port::ROWS);
    first..first + rows
}

/// The span's rows have the column, every other property is -1.
fn properties(job: &ScoreJob, span: &Range<usize>, prop: usize) -> Vec<i32> {
    let mut props = vec![-1; (span.end + 1) * PROPERTIES];
    for (row, &value) in span.clone().zip(&job.column) {
        props[row * PROPERTIES + prop] = value;
    }
    props
}

/// The rows that are not of the span have marks, whatever the alphabet is.
fn tokens(job: &ScoreJob, span: &Range<usize>) -> Vec<u8> {
    let marks = |row| (0..PREDICTORS).map(move |column| mark(row, column));
    let before = (0..span.start).flat_map(marks);
    let own = job.tokens.iter().copied();
    before.chain(own).chain(marks(span.end)).collect()
}
