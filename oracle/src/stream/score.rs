//! Scoring one property: the job, what every such job has, and the answer.

use crate::wire::wire_struct;
use crate::{MOST_CANDIDATES, MOST_ROWS, PREDICTORS};

/// A node's rows by one property and all tokens, and what their thresholds are scored by.
#[derive(Clone, Debug, PartialEq)]
pub struct ScoreJob {
    pub alphabet: u32,
    /// The property's value of each row.
    pub column: Vec<i32>,
    pub tokens: Vec<u8>,
    pub side_predictors: Vec<u32>,
    pub candidates: Vec<i32>,
    pub logarithms: Vec<f32>,
}

wire_struct!(ScoreJob {
    alphabet,
    column,
    tokens,
    side_predictors,
    candidates,
    logarithms,
});

impl ScoreJob {
    /// What every job of scoring has: a learner scores nothing else, and neither the original nor the port looks.
    pub fn is_sound(&self) -> bool {
        let rows = self.column.len();
        (1..=MOST_ROWS).contains(&rows)
            && self.has_tokens_for(rows)
            && self.has_side_predictors()
            && (1..=MOST_CANDIDATES).contains(&self.candidates.len())
            && self.candidates.is_sorted_by(|a, b| a < b)
            && self.has_logarithms_for(rows)
    }

    fn has_tokens_for(&self, rows: usize) -> bool {
        let below = |&token: &u8| u32::from(token) < self.alphabet;
        self.alphabet <= 256
            && self.tokens.len() == PREDICTORS * rows
            && self.tokens.iter().all(below)
    }

    /// At least one, each of the fourteen and none twice; so there are no more than fourteen.
    fn has_side_predictors(&self) -> bool {
        let preds = &self.side_predictors;
        let is_new = |(at, &pred): (usize, &u32)| {
            (pred as usize) < PREDICTORS && !preds[..at].contains(&pred)
        };
        !preds.is_empty() && preds.iter().enumerate().all(is_new)
    }

    /// Entry 0 and those past the rows are not looked at; -0.0 is not below 0.
    fn has_logarithms_for(&self, rows: usize) -> bool {
        let entries = self.logarithms.get(1..=rows);
        entries.is_some_and(|entries| entries.iter().all(|entry| (0.0..=32.0).contains(entry)))
    }
}

/// The winning threshold, its cost, and how many rows are at or under it; all 0 if nothing is found.
#[derive(Clone, Debug, Default, PartialEq)]
pub struct Scored {
    pub found: bool,
    pub threshold: i32,
    pub cost: f32,
    pub below: u32,
}

wire_struct!(Scored {
    found,
    threshold,
    cost,
    below
});

#[cfg(test)]
mod tests {
    use super::*;

    /// Two rows, the plainest that there are.
    fn plain() -> ScoreJob {
        ScoreJob {
            alphabet: 2,
            column: vec![0, 1],
            tokens: vec![1; 2 * PREDICTORS],
            side_predictors: vec![13, 0],
            candidates: vec![i32::MIN, 0, i32::MAX],
            logarithms: vec![f32::NAN, -0.0, 32.0],
        }
    }

    #[test]
    fn what_a_learner_has_is_sound() {
        type Edit = fn(&mut ScoreJob);
        const SOUND: &[Edit] = &[
            |_| {},
            |job| job.alphabet = 256,
            |job| job.side_predictors = (0..14).rev().collect(),
            |job| job.candidates = (-16..16).collect(),
            |job| job.logarithms.push(f32::NAN),
        ];
        for edit in SOUND {
            let mut job = plain();
            edit(&mut job);
            assert!(job.is_sound(), "{job:?}");
        }
    }

    #[test]
    fn what_no_learner_has_is_not() {
        type Edit = fn(&mut ScoreJob);
        const BROKEN: &[Edit] = &[
            |job| job.alphabet = 1,
            |job| job.alphabet = 257,
            |job| {
                job.column.clear();
                job.tokens.clear();
            },
            |job| _ = job.column.pop(),
            |job| _ = job.tokens.pop(),
            |job| job.tokens[27] = 2,
            |job| job.side_predictors.clear(),
            |job| job.side_predictors[0] = 14,
            |job| job.side_predictors[0] = 0,
            |job| job.candidates.clear(),
            |job| job.candidates[1] = i32::MIN,
            |job| job.candidates.swap(0, 1),
            |job| job.candidates = (-16..17).collect(),
            |job| _ = job.logarithms.pop(),
            |job| job.logarithms[1] = f32::NAN,
            |job| job.logarithms[2] = 32.5,
            |job| job.logarithms[2] = -0.5,
            |job| {
                job.column = vec![0; MOST_ROWS + 1];
                job.tokens = vec![0; PREDICTORS * (MOST_ROWS + 1)];
                job.logarithms = vec![0.0; MOST_ROWS + 2];
            },
        ];
        for (at, edit) in BROKEN.iter().enumerate() {
            let mut job = plain();
            edit(&mut job);
            assert!(!job.is_sound(), "edit {at}");
        }
    }
}
