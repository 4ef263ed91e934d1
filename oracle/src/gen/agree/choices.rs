//! Jobs on which a wrong rule of the learner gives another tree or other bits.

use super::{draft, learn};
use crate::draft::Draft;
use crate::rows::Rows;
use crate::trees::with_depths;
use stream::{Job, Record};

pub const JOBS: &[fn() -> Job] = &[
    properties_in_order,
    weighted_off,
    rows_at_the_smallest_node,
    cost_at_the_split_cost,
    gain_of_nothing,
    gain_by_a_rounding,
    two_side_predictors,
    no_side_predictor,
    mode_beside_another_predictor,
    tokens_as_first_given,
    groups_of_flat_bits,
    new_leaves_at_depth_26,
];

/// Rows in a line: property 2 and every token are the row's number.
fn line(rows: usize) -> Rows {
    let mut made = Rows::zeros(rows);
    made.set_column(2, |row| row as i32);
    made.set_tokens(|row| row as u8);
    made
}

/// A token and room for a leaf for each row; one predictor.
fn a_leaf_each(rows: Rows) -> Draft {
    let mut draft = draft(rows.len() as u32, rows.len() as u32, rows);
    draft.settings.allowed = 1;
    draft
}

/// Each of five properties sets one row apart, at the same cost, and so they are
/// taken in their order.
fn properties_in_order() -> Job {
    let mut rows = Rows::zeros(6);
    for (alone, property) in [0, 14, 16, 23, 15].into_iter().enumerate() {
        rows.set_column(property, |row| i32::from(row == alone));
    }
    rows.set_tokens(|row| row as u8);
    learn(a_leaf_each(rows))
}

/// Predictor 6 would cost nothing, and property 15 would part the rows.
fn weighted_off() -> Job {
    let mut rows = Rows::zeros(2);
    rows.set_column(15, |row| row as i32);
    rows.tokens[1][0] = 1;
    let mut draft = a_leaf_each(rows);
    draft.settings.weighted = false;
    draft.settings.allowed = 1 | 1 << 6;
    learn(draft)
}

/// Three rows are scored and two are not. Of the two thresholds, which cost the
/// same, the first is taken.
fn rows_at_the_smallest_node() -> Job {
    let mut draft = a_leaf_each(line(3));
    draft.settings.smallest_node = 3;
    learn(draft)
}

/// By logarithms that fall, three rows cost 2 bits together and -2 apart.
fn cost_at_the_split_cost() -> Job {
    let mut rows = Rows::zeros(3);
    rows.set_column(2, |row| i32::from(row == 2));
    rows.set_tokens(|row| u8::from(row == 1));
    let mut draft = a_leaf_each(rows);
    draft.logs = vec![0.0, 1.0, 0.0, 1.0];
    draft.settings.split_cost = 2.0;
    learn(draft)
}

/// Three rows cost 4.5 bits together and 2 apart.
fn gain_of_nothing() -> Job {
    let mut draft = a_leaf_each(line(3));
    draft.settings.split_cost = 2.5;
    learn(draft)
}

/// Two rows of 2 extra bits each cost the least above 4 bits together and 4
/// apart. The split cost is less than this difference, but 4 and the split cost
/// add up to the cost; and neither row's own bits are seen if added to 4 alone.
fn gain_by_a_rounding() -> Job {
    let mut rows = line(2);
    rows.set_tokens(|row| 16 + row as u8);
    let mut draft = a_leaf_each(rows);
    let half = 1.0 / (1 << 22) as f32;
    draft.settings.alphabet = 18;
    draft.settings.split_cost = 1.5 * half;
    draft.logs = vec![0.0, 0.0, half];
    learn(draft)
}

/// Three predictors cost the same, and each has a property that tells its
/// tokens: 10 for predictor 0, 9 for 1 and 2 for 2.
fn side_predictors(count: u32) -> Job {
    let told = |property: usize, row: usize| match property {
        2 => row / 2,
        9 => row % 2,
        _ => (row / 2 + row) % 2,
    };
    let mut rows = Rows::zeros(4);
    for (predictor, property) in [10, 9, 2].into_iter().enumerate() {
        rows.set_column(property, |row| told(property, row) as i32);
        for (row, tokens) in rows.tokens.iter_mut().enumerate() {
            tokens[predictor] = told(property, row) as u8;
        }
    }
    let mut draft = draft(2, 2, rows);
    draft.settings.allowed = 0b111;
    draft.settings.side_predictors = count;
    learn(draft)
}

fn two_side_predictors() -> Job {
    side_predictors(2)
}

/// Which counts as one.
fn no_side_predictor() -> Job {
    side_predictors(0)
}

/// One row with a residual of 3 and tokens of 23 extra bits.
fn one_modal_row(predictor: u32) -> Draft {
    let mut rows = Rows::zeros(1);
    rows.set_tokens(|_| 100);
    rows.set_residuals(|_| 3);
    let mut draft = a_leaf_each(rows);
    draft.settings.alphabet = 128;
    draft.settings.modal_offsets = true;
    draft.settings.allowed = 1 << predictor;
    draft
}

/// The mode is 3, the offset 0.
fn mode_beside_another_predictor() -> Job {
    learn(one_modal_row(1))
}

/// Flat bits are 23 in deepening too, though the mode step leaves none.
fn tokens_as_first_given() -> Job {
    let mut draft = one_modal_row(0);
    draft.seed = vec![Record::leaf(0, 0)];
    Job::Deepen(draft.fitted())
}

/// Property 0 below 0 and above 3.
fn groups_of_flat_bits() -> Job {
    let mut rows = Rows::zeros(3);
    rows.set_column(0, |row| 4 * row as i32 - 1);
    rows.set_tokens(|row| row as u8 % 2);
    let mut draft = a_leaf_each(rows);
    draft.settings.limit = 1;
    learn(draft)
}

/// A chain of splits that leads all rows to gt and to le by turns.
fn zigzag(splits: u32) -> Vec<Record> {
    let mut nodes = vec![Record::leaf(0, 0)];
    let mut last = 0;
    for turn in 0..splits {
        let gt = nodes.len();
        let to_le = turn % 2;
        nodes[last] = Record::split(9, to_le as i32 - 1, gt as u32, gt as u32 + 1);
        nodes.extend([Record::leaf(0, 0); 2]);
        last = gt + to_le as usize;
    }
    with_depths(nodes)
}

/// The leaf at depth 25 is split. Both parts would offer a split themselves.
fn new_leaves_at_depth_26() -> Job {
    let mut draft = a_leaf_each(line(4));
    draft.seed = zigzag(25);
    draft.settings.limit = 28;
    Job::Deepen(draft.fitted())
}
