//! Families of scoring one property. Side predictors stand in any order: a learner's are sorted, and no answer hangs
//! on it.

use crate::At;
use crate::logs;
use crate::rng::Rng;
use crate::rows::{Column, EXTREMES, Rows, tie_tokens};
use std::collections::BTreeSet;
use stream::{Job, MOST_CANDIDATES, MOST_ROWS, PREDICTORS, PROPERTIES, ScoreJob};

/// The property that the rows' column is.
const PROPERTY: usize = 2;

/// One row, two, and up to 40.
pub fn score(at: At) -> Job {
    let mut rng = at.rng();
    let count = match rng.below(8) {
        0 => 1,
        1 => 2,
        _ => 1 + rng.below(40),
    };
    let alphabet = rng.pick(&[1, 2, 3, 5, 16, 17, 40, 128, 255, 256]);
    let column = rng.pick(&[
        Column::Constant,
        Column::Small(2),
        Column::Small(9),
        Column::Within(400),
        Column::Within(1 << 30),
        Column::Extremes,
        Column::Extremes,
        Column::RowNumber,
    ]);
    let rows = rows(&mut rng, count, column, alphabet);
    Job::Score(scoring(&mut rng, rows, alphabet))
}

/// Groups of rows alike in everything but the value, or in all tokens: many thresholds cost the same, and the first of
/// the lowest wins.
pub fn ties(at: At) -> Job {
    let mut rng = at.rng();
    let groups = 2 + rng.below(8);
    let size = rng.pick(&[1, 1, 2, 3]);
    let step = rng.pick(&[1, 2, 1_000]);
    let mut rows = Rows::zeros(groups * size);
    rows.set_column(PROPERTY, |row| step * (row / size) as i32 - 3);
    match rng.below(3) {
        // The same from both ends.
        0 => rows.set_tokens(|row| (row / size).min(groups - 1 - row / size) as u8),
        // A token a group: wherever the cut is, as many are on a side as groups.
        1 => rows.set_tokens(|row| (row / size) as u8),
        _ => rows.set_tokens(|_| 5),
    }
    let count = rows.len();
    let mut job = scoring(&mut rng, rows, 16);
    job.logarithms = match rng.below(4) {
        0 => logs::zero(count),
        1 => logs::rounded(count, 1),
        2 => vec![5.5; count + 1],
        _ => logs::true_logs(count),
    };
    if !rng.one_in(3) {
        job.candidates = every_value(&job.column);
    }
    Job::Score(job)
}

/// Lengths about every change of the probe's stride, and anywhere up to 20,000.
pub fn long(at: At) -> Job {
    const EDGES: [usize; 7] = [1_023, 1_024, 2_047, 2_048, 3_072, 4_096, 5_000];
    let mut rng = at.rng();
    let count = match rng.below(3) {
        0 => 1_023 + rng.below(18_978),
        _ => rng.pick(&EDGES) + rng.below(3),
    };
    long_job(&mut rng, count)
}

pub fn longest(at: At) -> Job {
    let mut rng = at.rng();
    let count = MOST_ROWS - at.index as usize % 2;
    long_job(&mut rng, count)
}

fn long_job(rng: &mut Rng, count: usize) -> Job {
    let alphabet = rng.pick(&[2, 24, 128, 256]);
    let column = rng.pick(&[
        Column::Small(40),
        Column::Exactly(4_096),
        Column::Exactly(4_097),
        Column::Within(1 << 30),
        Column::Extremes,
        Column::RowNumber,
    ]);
    let rows = rows(rng, count, column, alphabet);
    Job::Score(scoring(rng, rows, alphabet))
}

/// Rows whose tokens hang on the column, wholly, partly or not at all.
fn rows(rng: &mut Rng, count: usize, column: Column, alphabet: u32) -> Rows {
    let mut rows = Rows::zeros(count);
    for property in [PROPERTY, 9] {
        column.fill(rng, &mut rows, property);
    }
    match rng.below(4) {
        0 => tie_tokens(rng, &mut rows, alphabet),
        1 => rows.set_tokens(|_| rng.below(alphabet as usize) as u8),
        _ => cut_tokens(rng, &mut rows, alphabet),
    }
    rows
}

/// Above and below one of the values each predictor has its usual token, now and then another.
fn cut_tokens(rng: &mut Rng, rows: &mut Rows, alphabet: u32) {
    let any = |rng: &mut Rng| rng.below(alphabet as usize) as u8;
    let cut = rows.properties[rng.below(rows.len())][PROPERTY];
    let usual: [[u8; PREDICTORS]; 2] = [(); 2].map(|()| [(); PREDICTORS].map(|()| any(rng)));
    let noise = rng.below(3);
    for (properties, tokens) in rows.properties.iter().zip(&mut rows.tokens) {
        *tokens = usual[usize::from(properties[PROPERTY] > cut)];
        for token in tokens.iter_mut() {
            if rng.below(6) < noise {
                *token = any(rng);
            }
        }
    }
}

fn scoring(rng: &mut Rng, rows: Rows, alphabet: u32) -> ScoreJob {
    let of_row = |properties: &[i32; PROPERTIES]| properties[PROPERTY];
    let column: Vec<i32> = rows.properties.iter().map(of_row).collect();
    let mut side_predictors: Vec<u32> = (0..PREDICTORS as u32).collect();
    rng.shuffle(&mut side_predictors);
    side_predictors.truncate(rng.pick(&[1, 1, 2, 3, 4, 4, 7, 13, 14]));
    let mut logarithms = match rng.below(8) {
        0 => vec![rng.pick(&[-0.0, 32.0, 1e-45]); rows.len() + 1],
        _ => logs::any(rng, rows.len()),
    };
    logarithms[0] = rng.pick(&[0.0, f32::NAN, f32::NEG_INFINITY, -1.0, 99.0]);
    ScoreJob {
        alphabet,
        candidates: any_candidates(rng, &column),
        column,
        tokens: rows.tokens.into_flattened(),
        side_predictors,
        logarithms,
    }
}

/// Every value of the column, as far as they are few: the last leaves no row above it.
fn every_value(column: &[i32]) -> Vec<i32> {
    let values: BTreeSet<i32> = column.iter().copied().collect();
    values.into_iter().take(MOST_CANDIDATES).collect()
}

/// Values of the column and others, runs of numbers; some have a side that is empty, or all do.
fn any_candidates(rng: &mut Rng, column: &[i32]) -> Vec<i32> {
    let low = *column.iter().min().expect("there are rows");
    let high = *column.iter().max().expect("there are rows");
    let most = rng.pick(&[1, 1, 2, 3, 5, 8, 16, 31, 32]);
    let kind = rng.below(10);
    let start = rng.pick(column).saturating_sub(rng.below(20) as i32);
    let candidate = |at: usize| match kind {
        0..=2 => rng.pick(column),
        3 | 4 => rng.pick(column).saturating_add(rng.within(-2..=2)),
        5 | 6 => start.saturating_add(at as i32),
        7 => low.saturating_sub(1 + rng.below(40) as i32),
        8 => high.saturating_add(rng.below(40) as i32),
        _ => match at % 4 {
            0 => rng.pick(&EXTREMES),
            1 => low.saturating_sub(1),
            2 => high,
            _ => rng.pick(column),
        },
    };
    let candidates: BTreeSet<i32> = (0..most).map(candidate).collect();
    candidates.into_iter().collect()
}
