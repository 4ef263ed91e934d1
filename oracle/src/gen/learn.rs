//! Families of learning jobs (some of them also deepen), all but a few accepted.

use crate::At;
use crate::draft::{Draft, any_settings, plain_settings};
use crate::logs;
use crate::rng::Rng;
use crate::rows::{self, Column, EXTREMES, Rows};
use crate::sheet::sheet;
use crate::tokens::token;
use crate::trees::{Shape, Tests, tree};
use stream::{Job, PROPERTIES, Settings};

/// An alphabet for rows whose tokens are drawn from it.
fn any_alphabet(rng: &mut Rng) -> u32 {
    rng.pick(&[1, 2, 3, 5, 16, 17, 40, 127, 128, 128, 200, 256, 256])
}

/// All rows of up to three, with two binary properties and a binary token,
/// under each of 48 settings: 28,080 jobs before the walk comes round. What is
/// not walked through (which properties, how many candidates) is drawn.
pub fn tiny(at: At) -> Job {
    const ROWS: u64 = 1 + 8 + 64 + 512;
    let mut place = at.index * 17_389 % (ROWS * 48);
    let mut digit = |radix: u64| {
        let digit = place % radix;
        place /= radix;
        digit
    };
    let content = digit(ROWS);
    let (limit, price, split_cost, use_of_residuals) = (digit(3), digit(2), digit(2), digit(4));
    let mut rng = at.rng();
    let mut settings = plain_settings(128, 1 + limit as u32);
    settings.price = price as f32;
    settings.split_cost = split_cost as f32 / 2.0;
    settings.smallest_node = rng.pick(&[0, 0, 0, 2, 3]);
    settings.side_predictors = rng.pick(&[0, 1, 2, 14]);
    settings.candidates = rng.pick(&[1, 2, 32]);
    settings.modal_offsets = use_of_residuals >= 2;
    settings.settling = use_of_residuals == 3;
    let mut draft = Draft::new(settings, tiny_rows(&mut rng, content));
    if use_of_residuals == 0 {
        draft.rows.residuals.clear();
    }
    draft.learn(&mut rng)
}

/// The rows of a number below 1 + 8 + 64 + 512: three bits a row.
fn tiny_rows(rng: &mut Rng, mut content: u64) -> Rows {
    let mut count = 0;
    while content >= 1 << (3 * count) {
        content -= 1 << (3 * count);
        count += 1;
    }
    let bit = |row: usize, k: usize| (content >> (3 * row + k) & 1) as i32;
    let (p, q) = rng.pick(&[(0, 1), (2, 9), (4, 6), (14, 15), (15, 23), (22, 23)]);
    let mut made = Rows::zeros(count);
    made.set_column(p, |row| bit(row, 0));
    made.set_column(q, |row| bit(row, 1));
    made.set_tokens(|row| bit(row, 2) as u8);
    made.set_residuals(|row| 3 * bit(row, 2) - bit(row, 1));
    // One predictor sees the rows the other way round.
    for tokens in &mut made.tokens {
        tokens[3] = 1 - tokens[3];
    }
    made
}

pub fn small(at: At) -> Job {
    let mut rng = at.rng();
    let count = rng.below(41);
    let alphabet = any_alphabet(&mut rng);
    let mut made = rows::structured(&mut rng, count, alphabet);
    if rng.one_in(3) {
        made.residuals.clear();
    }
    let mut draft = Draft::new(any_settings(&mut rng, alphabet), made);
    draft.logs = logs::any(&mut rng, count);
    draft.learn(&mut rng)
}

/// Properties with ranges about and above 4,096, over and under 32 values.
pub fn wide(at: At) -> Job {
    let mut rng = at.rng();
    let count = rng.pick(&[20, 31, 32, 33, 64, 200, 500, 2_048]) + rng.below(9);
    let mut made = Rows::zeros(count);
    for property in 0..PROPERTIES {
        let column = match rng.below(6) {
            0 => Column::Exactly(4_095),
            1 => Column::Exactly(4_096),
            2 => Column::Exactly(4_097),
            3 => Column::Within(20_000),
            4 => Column::Within(i32::MAX),
            _ => Column::Small(5),
        };
        column.fill(&mut rng, &mut made, property);
    }
    rows::twin(&mut rng, &mut made);
    rows::tie_tokens(&mut rng, &mut made, 20);
    let mut settings = any_settings(&mut rng, 20);
    settings.limit = settings.limit.min(8);
    Draft::new(settings, made).learn(&mut rng)
}

/// The ends of 32 bits in properties and residuals.
pub fn extremes(at: At) -> Job {
    let mut rng = at.rng();
    let count = 2 + rng.below(70);
    let mut made = Rows::zeros(count);
    for property in 0..PROPERTIES {
        let column = rng.pick(&[Column::Extremes, Column::Extremes, Column::Small(2)]);
        column.fill(&mut rng, &mut made, property);
    }
    rows::tie_tokens(&mut rng, &mut made, 256);
    made.set_residuals(|_| rng.pick(&EXTREMES));
    if rng.one_in(2) {
        // A part narrow enough for a mode, at one end.
        let end = rng.pick(&[i32::MIN, i32::MAX - 3]);
        made.residuals.fill_with(|| end + rng.within(0..=3));
    }
    let mut settings = any_settings(&mut rng, 256);
    settings.modal_offsets = !rng.one_in(4);
    Draft::new(settings, made).learn(&mut rng)
}

/// Residual ranges of exactly 4,095 to 4,098, split so that parts get narrower.
pub fn spans(at: At) -> Job {
    let mut rng = at.rng();
    let count = 2 + rng.below(40);
    let width = rng.pick(&[4_095, 4_096, 4_096, 4_097, 4_097, 4_098]);
    let low = rng.pick(&[
        0,
        -7,
        -2_048,
        -4_096,
        1_000_000,
        i32::MIN,
        i32::MAX - width + 1,
    ]);
    let inner: Vec<i32> = (0..3).map(|_| rng.within(0..=width - 1)).collect();
    let mut made = rows::structured(&mut rng, count, 128);
    made.set_residuals(|row| match row {
        0 => low,
        1 => low + (width - 1),
        _ => low + rng.pick(&inner),
    });
    // A property that tells low residuals from high ones.
    let halfway = low + width / 2;
    let high: Vec<bool> = made.residuals.iter().map(|&r| r > halfway).collect();
    made.set_column(3, |row| i32::from(high[row]));
    made.set_tokens(|row| 5 * u8::from(high[row]));
    let mut settings = any_settings(&mut rng, 128);
    settings.modal_offsets = true;
    settings.allowed |= 1;
    Draft::new(settings, made).learn(&mut rng)
}

/// Digit sheets of 256 to 4,096 rows.
pub fn digits(at: At) -> Job {
    let mut rng = at.rng();
    let size = rng.pick(&[256, 300, 512, 1_000, 1_024, 2_048, 3_000, 4_096]);
    let made = sheet(&mut rng, size);
    let mut settings = any_settings(&mut rng, 128);
    settings.limit = rng.pick(&[4, 8, 16, 32, 64]);
    settings.price *= 8.0;
    settings.split_cost *= 4.0;
    let mut draft = Draft::new(settings, made);
    if rng.one_in(4) {
        draft.rows.residuals.clear();
    }
    draft.learn(&mut rng)
}

/// One sheet at the settings that running times are measured with.
fn measured_sheet(at: At, size: usize, limit: u32) -> Job {
    let mut rng = at.rng();
    let mut settings = plain_settings(128, limit);
    settings.side_predictors = 4;
    settings.modal_offsets = at.index % 2 == 1;
    let made = sheet(&mut rng, size);
    Job::Learn(Draft::new(settings, made).fitted())
}

pub fn digits_4096(at: At) -> Job {
    measured_sheet(at, 4_096, 64)
}

pub fn digits_16384(at: At) -> Job {
    measured_sheet(at, 16_384, 256)
}

pub fn digits_65536(at: At) -> Job {
    measured_sheet(at, 65_536, 4_096)
}

/// The settings that cost most, on rows without any rule.
fn costliest(at: At, size: usize, limit: u32) -> Job {
    let mut rng = at.rng();
    let mut settings = plain_settings(256, limit);
    settings.side_predictors = 14;
    let made = rows::random(&mut rng, size, 256);
    Job::Learn(Draft::new(settings, made).fitted())
}

pub fn worst(at: At) -> Job {
    costliest(at, 4_096, 64)
}

pub fn worst_65536(at: At) -> Job {
    costliest(at, 65_536, 4_096)
}

/// Growth down to depth 26 and no deeper, along gt, along le, and from seeds.
pub fn deep(at: At) -> Job {
    let mut rng = at.rng();
    match at.index % 4 {
        0 => deep_by_gt(&mut rng),
        1 => deep_by_le(&mut rng),
        2 => deep_seed(&mut rng, Shape::GtChain),
        _ => deep_seed(&mut rng, Shape::LeChain),
    }
}

/// With a single candidate, the lowest value, each split sets one value apart.
fn deep_by_gt(rng: &mut Rng) -> Job {
    let values = 26 + rng.below(8);
    let each = 1 + rng.below(3);
    let mut made = Rows::zeros(values * each);
    made.set_column(rng.pick(&[0, 8, 15, 23]), |row| (row / each) as i32);
    made.set_tokens(|row| (row / each) as u8);
    let mut settings = plain_settings(64, 64);
    settings.candidates = 1;
    settings.price = rng.pick(&[0.0, 0.5]);
    Draft::new(settings, made).learn(rng)
}

/// Twenty-three properties each set one group apart, which goes to gt, since
/// it is alone at 1; the last property then takes the few rows left apart.
fn deep_by_le(rng: &mut Rng) -> Job {
    const ALONE: usize = 23;
    let (each, rest) = (64, 4 + rng.below(6));
    let mut made = Rows::zeros(ALONE * each + rest);
    for property in 0..ALONE {
        made.set_column(property, |row| i32::from(row / each == property));
    }
    let left = |row: usize| row as i32 - (ALONE * each) as i32;
    made.set_column(ALONE, |row| left(row).max(0));
    made.set_tokens(|row| match left(row) {
        ..0 => (row / each) as u8,
        left => ALONE as u8 + left as u8,
    });
    let mut settings = plain_settings(64, 64);
    settings.candidates = rng.pick(&[1, 1, 32]);
    Draft::new(settings, made).learn(rng)
}

/// A chain of 22 to 30 splits whose deepest leaves still have rows to split.
fn deep_seed(rng: &mut Rng, shape: Shape) -> Job {
    let splits = 22 + rng.below(9);
    let mut seed = tree(rng, splits + 1, shape, &Tests { rows: None });
    for (depth, node) in (0..).zip(seed.iter_mut().filter(|node| node.is_split())) {
        node.prop = 5;
        node.val = match shape {
            Shape::GtChain => depth,
            _ => -depth,
        };
    }
    let step = if matches!(shape, Shape::GtChain) {
        1
    } else {
        -1
    };
    let depths: Vec<i32> = (0..60)
        .map(|_| rng.within(20..=splits as i32 + 1))
        .collect();
    let mut made = Rows::zeros(depths.len());
    made.set_column(5, |row| step * depths[row]);
    made.set_column(9, |_| rng.within(0..=7));
    let nines: Vec<i32> = made.properties.iter().map(|row| row[9]).collect();
    made.set_tokens(|row| nines[row] as u8);
    let mut settings = plain_settings(64, 100);
    settings.candidates = rng.pick(&[1, 32]);
    let mut draft = Draft::new(settings, made);
    draft.seed = seed;
    draft.deepen(rng)
}

/// Costs that are whole multiples of a quarter of a bit, and prices that are
/// so too: a split's own cost often equals what it is compared with.
pub fn prune_ties(at: At) -> Job {
    let mut rng = at.rng();
    let count = 4 + rng.below(30);
    let alphabet = rng.pick(&[4, 16, 128]);
    let made = rows::structured(&mut rng, count, alphabet);
    let mut settings = any_settings(&mut rng, alphabet);
    settings.limit = rng.pick(&[3, 6, 16, 40]);
    settings.split_cost = 0.0;
    settings.price = rng.pick(&[0.25, 0.5, 1.0, 1.5, 2.0, 3.0, 4.0, 6.0, 8.0, 12.0]);
    let mut draft = Draft::new(settings, made);
    draft.logs = logs::rounded(count, rng.pick(&[1, 2, 4]));
    draft.learn(&mut rng)
}

/// Sizes about every change of the stride, with values that a probe may miss.
pub fn strides(at: At) -> Job {
    const EDGES: [usize; 7] = [1_023, 1_024, 2_047, 2_048, 3_072, 4_096, 5_000];
    let mut rng = at.rng();
    let count = match rng.below(3) {
        0 => 1_023 + rng.below(3_978),
        _ => (rng.pick(&EDGES) + rng.below(3)).clamp(1_024, 5_001) - 1,
    };
    let mut made = Rows::zeros(count);
    for property in 0..6 {
        let column = rng.pick(&[
            Column::RowNumber,
            Column::Within(40_000),
            Column::Small(40),
            Column::Exactly(4_096),
        ]);
        column.fill(&mut rng, &mut made, property);
    }
    let rare = 2 + rng.below(700);
    made.set_column(6, |row| i32::from(row % rare == 1));
    rows::tie_tokens(&mut rng, &mut made, 24);
    let mut settings = any_settings(&mut rng, 24);
    settings.limit = settings.limit.min(6);
    Draft::new(settings, made).learn(&mut rng)
}

/// 65,535, 65,536 and 65,537 rows.
pub fn limits(at: At) -> Job {
    let mut rng = at.rng();
    let count = 65_535 + (at.index % 3) as usize;
    let mut made = Rows::zeros(count);
    made.set_column(0, |row| row as i32 % 5);
    made.set_column(7, |row| row as i32 / 9);
    let seventh: Vec<u8> = (0..count).map(|row| (row / 9 % 3) as u8).collect();
    made.set_tokens(|row| seventh[row] + if row < 30_000 { 0 } else { 3 });
    if at.index % 6 >= 3 {
        made.set_residuals(|row| row as i32 % 17);
    }
    let mut settings = plain_settings(128, 3);
    settings.candidates = 3;
    settings.modal_offsets = true;
    let draft = Draft::new(settings, made);
    draft.learn(&mut rng)
}

/// Strange and borderline logarithms.
pub fn logarithms(at: At) -> Job {
    let mut rng = at.rng();
    let count = 1 + rng.below(40);
    let alphabet = any_alphabet(&mut rng);
    let made = rows::structured(&mut rng, count, alphabet);
    let mut settings = any_settings(&mut rng, alphabet);
    if rng.one_in(2) {
        settings.split_cost = 0.0;
    }
    let mut draft = Draft::new(settings, made);
    draft.logs = match at.index % 8 {
        0 => logs::true_logs(count),
        1 => logs::rounded(count, 4),
        2 => logs::zero(count),
        3 => logs::falling(count),
        4 => logs::random(&mut rng, count),
        5 => vec![32.0; count + 1],
        6 => vec![-0.0; count + 1],
        _ => (0..=count)
            .map(|_| rng.pick(&[-0.0, 0.0, 32.0, 1e-45, 5.5]))
            .collect(),
    };
    draft.logs[0] = rng.pick(&[0.0, f32::NAN, f32::NEG_INFINITY, -1.0, 99.0]);
    for _ in 0..rng.below(3) {
        draft
            .logs
            .push(rng.pick(&[f32::NAN, f32::INFINITY, -1.0, 33.0]));
    }
    draft.learn(&mut rng)
}

/// Pruned trees with each use of settling, residuals and modal offsets.
pub fn settling(at: At) -> Job {
    let mut rng = at.rng();
    let uses = at.index % 8;
    let count = 6 + rng.below(60);
    let mut made = rows::structured(&mut rng, count, 128);
    zero_tokens_from_residuals(&mut made);
    if uses & 4 != 0 {
        made.residuals.clear();
    }
    let mut settings: Settings = any_settings(&mut rng, 128);
    settings.limit = rng.pick(&[4, 8, 16]);
    settings.split_cost = 0.0;
    settings.price = rng.pick(&[0.0, 1.0, 3.0, 6.0, 12.0, 30.0]);
    settings.settling = uses & 1 != 0;
    settings.modal_offsets = uses & 2 == 0;
    settings.allowed |= 1;
    let mut draft = Draft::new(settings, made);
    if rng.one_in(3) {
        let leaves = 2 + rng.below(4);
        let tests = Tests {
            rows: Some(&draft.rows),
        };
        draft.seed = tree(&mut rng, leaves, Shape::Any, &tests);
        return draft.deepen(&mut rng);
    }
    draft.learn(&mut rng)
}

/// Zero predictor's tokens as a caller works them out.
fn zero_tokens_from_residuals(rows: &mut Rows) {
    for (tokens, &residual) in rows.tokens.iter_mut().zip(&rows.residuals) {
        tokens[0] = token(residual);
    }
}

/// Pairs of jobs, one after the other, that differ only in the leaf limit: k,
/// then k + 1; unpruned; learning, then deepening, by turns.
pub fn limits_k(at: At) -> Job {
    let mut rng = at.pair().rng();
    let count = rng.below(60);
    let alphabet = rng.pick(&[4, 16, 128, 256]);
    let made = rows::structured(&mut rng, count, alphabet);
    let mut settings = any_settings(&mut rng, alphabet);
    settings.price = rng.pick(&[0.0, 0.0, -0.0]);
    settings.limit = 2 + rng.below(12) as u32;
    let mut draft = Draft::new(settings, made);
    draft.logs = logs::any(&mut rng, count);
    let deepens = at.pair().index % 2 == 1;
    if deepens {
        let leaves = 1 + rng.below(8);
        let tests = Tests {
            rows: Some(&draft.rows),
        };
        draft.seed = tree(&mut rng, leaves, Shape::Any, &tests);
    }
    let mut job = draft.loose(&mut rng);
    if at.index.is_multiple_of(2) {
        job.settings.limit -= 1;
    }
    if deepens {
        Job::Deepen(job)
    } else {
        Job::Learn(job)
    }
}
