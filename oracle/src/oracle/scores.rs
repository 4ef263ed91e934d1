//! Scoring one property: answers worked out by hand. A side whose tokens are alike costs its extra bits.

use crate::coder_scratch::CoderScratch;
use crate::operations;
use stream::*;

/// Rows by value and token, the same under every predictor, and one side predictor.
fn job(rows: &[(i32, u8)], candidates: &[i32]) -> ScoreJob {
    ScoreJob {
        alphabet: 32,
        column: rows.iter().map(|&(value, _)| value).collect(),
        tokens: rows
            .iter()
            .flat_map(|&(_, token)| [token; PREDICTORS])
            .collect(),
        side_predictors: vec![5],
        candidates: candidates.to_vec(),
        logarithms: (0..=rows.len()).map(|n| (n as f32).log2()).collect(),
    }
}

fn scored(job: ScoreJob) -> Scored {
    let job = Job::read(&Job::Score(job).message()).expect("a sound job");
    match operations::answer(job, &mut CoderScratch::default()).expect("a sound job") {
        Answer::Scored(answer) => answer,
        other => panic!("{other:?}"),
    }
}

fn found(threshold: i32, cost: f32, below: u32) -> Scored {
    Scored {
        found: true,
        threshold,
        cost,
        below,
    }
}

/// One row below 3, two at it, one above: an equal value is on the le side.
const FOUR: [(i32, u8); 4] = [(3, 1), (9, 2), (-7, 1), (3, 1)];

#[test]
fn equal_values_are_counted() {
    assert_eq!(scored(job(&FOUR, &[3])), found(3, 0.0, 3));
    assert_eq!(scored(job(&FOUR, &[8])), found(8, 0.0, 3));
    let answer = scored(job(&FOUR, &[2]));
    assert_eq!((answer.threshold, answer.below), (2, 1));
}

#[test]
fn the_first_of_the_lowest_wins() {
    let answer = scored(job(&FOUR, &[-7, 3, 4, 8]));
    assert_eq!(answer, found(3, 0.0, 3));
    let mut free = job(&FOUR, &[-7, 3, 4, 8]);
    free.logarithms.fill(0.0);
    assert_eq!(scored(free), found(-7, 0.0, 1));
}

#[test]
fn a_threshold_with_an_empty_side_is_none() {
    for candidates in [&[i32::MIN, -8][..], &[9, 10, i32::MAX], &[-8, 9]] {
        assert_eq!(scored(job(&FOUR, candidates)), Scored::default());
    }
    let answer = scored(job(&FOUR, &[i32::MIN, -8, 3, 9, i32::MAX]));
    assert_eq!(answer, found(3, 0.0, 3));
    assert_eq!(scored(job(&FOUR[..1], &[3])), Scored::default());
}

/// Tokens 16 and 31 have 2 and 5 extra bits; each side takes the side predictor that costs it least.
#[test]
fn sides_take_their_own_predictors() {
    let mut two = job(&[(0, 16), (1, 31)], &[0]);
    assert_eq!(scored(two.clone()), found(0, 7.0, 1));
    two.side_predictors = vec![6, 13, 5];
    two.tokens[6] = 0;
    two.tokens[PREDICTORS + 13] = 20;
    assert_eq!(scored(two), found(0, 3.0, 1));
}

/// Counts from 4,096 on have their logarithms from the lent list too.
#[test]
fn many_rows() {
    let rows: Vec<(i32, u8)> = (0..6_000).map(|row| (row, u8::from(row > 4_998))).collect();
    assert_eq!(
        scored(job(&rows, &[17, 4_998, 4_999])),
        found(4_998, 0.0, 4_999)
    );
}
