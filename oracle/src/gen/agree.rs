//! Tiny jobs, small enough for a proof checker to compute: at most nine rows,
//! each there for one thing that it shows.

mod choices;
mod depths;
mod refused;
mod ties;

use crate::At;
use crate::draft::{Draft, plain_settings};
use crate::logs;
use crate::rows::Rows;
use crate::trees::{Shape, Tests, tree, with_depths};
use stream::{Job, Record};

const JOBS: &[fn() -> Job] = &[
    equal_gains,
    equal_gains_in_a_seed,
    folded_on_a_tie,
    kept_by_a_hair,
    settled,
    unsettled,
    wide_residuals,
    rowless_leaf,
    large_tokens,
    two_bad_rows,
    bad_row_before_bad_log,
    at_depth_26,
    at_depth_25,
    no_rows,
];

/// The fourteen, then those of choices.rs, of refused.rs, of depths.rs and of ties.rs, again and again.
pub fn agree(at: At) -> Job {
    let all = [JOBS, choices::JOBS, refused::JOBS, depths::JOBS, ties::JOBS].concat();
    all[at.index as usize % all.len()]()
}

/// Rows by columns: properties 2 and 9, one token for all predictors.
fn rows_of(rows: &[(i32, i32, u8)]) -> Rows {
    let mut made = Rows::zeros(rows.len());
    made.set_column(2, |row| rows[row].0);
    made.set_column(9, |row| rows[row].1);
    made.set_tokens(|row| rows[row].2);
    made
}

fn draft(alphabet: u32, limit: u32, rows: Rows) -> Draft {
    let mut settings = plain_settings(alphabet, limit);
    settings.candidates = 2;
    settings.allowed = 0b11;
    let mut draft = Draft::new(settings, rows);
    draft.logs = logs::rounded(draft.rows.len(), 4);
    draft
}

/// Entries past those written are there to stay as they were.
fn learn(draft: Draft) -> Job {
    let mut job = draft.fitted();
    job.nodes.entries += 1;
    job.span_entries += 1;
    Job::Learn(job)
}

/// Four pairs, each apart from the others by property 2.
fn pairs() -> Rows {
    let row = |k: i32| (k / 2, k % 2, k as u8);
    rows_of(&[
        row(5),
        row(0),
        row(3),
        row(6),
        row(1),
        row(4),
        row(7),
        row(2),
    ])
}

/// Both halves offer the same; the second split is node 1's.
fn equal_gains() -> Job {
    learn(draft(8, 3, pairs()))
}

/// Two seed leaves offer the same and one may be split.
fn equal_gains_in_a_seed() -> Job {
    let mut draft = draft(8, 3, pairs());
    draft.seed = with_depths(vec![
        Record::split(2, 1, 1, 2),
        Record::leaf(1, 5),
        Record::leaf(0, 0),
    ]);
    Job::Deepen(draft.fitted())
}

/// Two rows that cost 2 bits together and nothing apart, at a price of 2.
fn folded_on_a_tie() -> Job {
    let mut draft = draft(4, 2, rows_of(&[(0, 0, 1), (1, 0, 2)]));
    draft.settings.price = 2.0;
    learn(draft)
}

fn kept_by_a_hair() -> Job {
    let mut draft = draft(4, 2, rows_of(&[(0, 0, 1), (1, 0, 2)]));
    draft.settings.price = 1.75;
    learn(draft)
}

/// Two groups of residuals, about 3 and about 40, that pruning puts together.
fn modal(price: f32) -> Draft {
    let low = |row: usize| row.is_multiple_of(2);
    let mut rows = Rows::zeros(6);
    rows.set_column(3, |row| i32::from(!low(row)));
    rows.set_tokens(|_| 9);
    rows.set_residuals(|row| {
        if low(row) {
            3
        } else {
            40 + i32::from(row == 5)
        }
    });
    let mut draft = draft(128, 3, rows);
    draft.settings.modal_offsets = true;
    draft.settings.allowed = 1;
    draft.settings.price = price;
    draft
}

fn settled() -> Job {
    let mut draft = modal(1_000.0);
    draft.settings.settling = true;
    learn(draft)
}

fn unsettled() -> Job {
    learn(modal(1_000.0))
}

/// A root too wide for a mode, its parts narrow enough.
fn wide_residuals() -> Job {
    let mut draft = modal(0.0);
    draft
        .rows
        .set_residuals(|row| if row.is_multiple_of(2) { -7 } else { 4_090 });
    learn(draft)
}

/// The gt leaf gets no row, keeps predictor and offset, and loses its junk.
fn rowless_leaf() -> Job {
    let mut draft = draft(8, 4, rows_of(&[(0, 0, 1), (1, 0, 2), (1, 1, 3)]));
    let junk = Record {
        prop: 200,
        val: -1,
        gt: 9,
        le: 9,
        cost: 77,
        ..Record::leaf(12, -5)
    };
    draft.seed = with_depths(vec![Record::split(2, 5, 1, 2), junk, Record::leaf(3, 3)]);
    Job::Deepen(draft.fitted())
}

/// Tokens with up to 61 extra bits.
fn large_tokens() -> Job {
    learn(draft(
        256,
        2,
        rows_of(&[(0, 0, 255), (0, 0, 254), (1, 0, 128), (1, 1, 3)]),
    ))
}

fn two_bad_rows() -> Job {
    let mut draft = draft(4, 2, rows_of(&[(0, 0, 1), (0, 0, 3), (1, 0, 0), (1, 1, 2)]));
    draft.rows.tokens[3][0] = 4;
    draft.rows.tokens[2][13] = 7;
    learn(draft)
}

fn bad_row_before_bad_log() -> Job {
    let mut draft = draft(4, 2, rows_of(&[(0, 0, 1), (0, 0, 4)]));
    draft.logs[1] = f32::NAN;
    learn(draft)
}

/// A chain of so many splits, all rows in its deepest leaf.
fn chain(splits: usize) -> Job {
    let mut draft = draft(4, 1, rows_of(&[(0, 0, 1), (0, 1, 2)]));
    let mut rng = crate::rng::Rng::new("chain", 0, 0);
    draft.seed = tree(&mut rng, splits + 1, Shape::LeChain, &Tests { rows: None });
    for node in draft.seed.iter_mut().filter(|node| node.is_split()) {
        (node.prop, node.val) = (2, 0);
    }
    draft.settings.limit = splits as u32 + 2;
    Job::Deepen(draft.fitted())
}

fn at_depth_26() -> Job {
    chain(26)
}

fn at_depth_25() -> Job {
    chain(25)
}

fn no_rows() -> Job {
    let mut draft = draft(1, 1, Rows::zeros(0));
    draft.settings.allowed = 1 << 5;
    learn(draft)
}
