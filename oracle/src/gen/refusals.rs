//! Every refusal of learning and deepening, alone and two at once, with the
//! accepted neighbour of every bound.

use crate::draft::{Draft, any_fill, plain_settings};
use crate::logs;
use crate::rng::Rng;
use crate::rows::{self, Rows};
use crate::trees::{Shape, Tests, tree};
use crate::{At, alone_then_two};
use stream::{Job, Learning, PREDICTORS, Record};

/// A change to a good job: before the lent lists are cut to size, or after.
enum Change {
    Before(fn(&mut Draft)),
    After(fn(&mut Learning)),
}

use Change::{After, Before};

/// The least single above another positive one.
fn above(x: f32) -> f32 {
    f32::from_bits(x.to_bits() + 1)
}

fn shorten<T>(list: &mut Vec<T>) {
    list.pop();
}

const JUST_BELOW_ZERO: f32 = -1e-45;

/// Number 1, and settings at the ends of their ranges.
const SETTINGS: &[Change] = &[
    Before(|d| d.settings.alphabet = 0),
    Before(|d| d.settings.alphabet = 257),
    Before(|d| d.settings.alphabet = u32::MAX),
    Before(|d| d.settings.alphabet = 256),
    Before(|d| {
        d.settings.alphabet = 1;
        d.rows.tokens.fill([0; PREDICTORS]);
        d.rows.residuals.clear();
    }),
    Before(|d| d.settings.limit = 0),
    Before(|d| d.settings.limit = 4_097),
    Before(|d| d.settings.limit = u32::MAX),
    Before(|d| d.settings.limit = 4_096),
    Before(|d| d.settings.limit = 1),
    Before(|d| d.settings.split_cost = JUST_BELOW_ZERO),
    Before(|d| d.settings.split_cost = -1.0),
    Before(|d| d.settings.split_cost = f32::NAN),
    Before(|d| d.settings.split_cost = f32::INFINITY),
    Before(|d| d.settings.split_cost = f32::NEG_INFINITY),
    Before(|d| d.settings.split_cost = above(1_048_576.0)),
    Before(|d| d.settings.split_cost = 1_048_576.0),
    Before(|d| d.settings.split_cost = -0.0),
    Before(|d| d.settings.price = JUST_BELOW_ZERO),
    Before(|d| d.settings.price = f32::NAN),
    Before(|d| d.settings.price = f32::INFINITY),
    Before(|d| d.settings.price = f32::NEG_INFINITY),
    Before(|d| d.settings.price = above(1_048_576.0)),
    Before(|d| d.settings.price = 1_048_576.0),
    Before(|d| d.settings.price = -0.0),
    Before(|d| d.settings.smallest_node = 65_537),
    Before(|d| d.settings.smallest_node = u32::MAX),
    Before(|d| d.settings.smallest_node = 65_536),
    Before(|d| d.settings.side_predictors = 15),
    Before(|d| d.settings.side_predictors = u32::MAX),
    Before(|d| d.settings.side_predictors = 14),
    Before(|d| d.settings.side_predictors = 0),
    Before(|d| d.settings.candidates = 33),
    Before(|d| d.settings.candidates = u32::MAX),
    Before(|d| d.settings.candidates = 32),
    Before(|d| d.settings.candidates = 0),
];

/// Number 2, and sets that leave one predictor.
const PREDICTOR_SETS: &[Change] = &[
    Before(|d| d.settings.allowed = 0),
    Before(|d| d.settings.allowed = 0xc000),
    Before(|d| {
        d.settings.allowed = 0xc040;
        d.settings.weighted = false;
    }),
    Before(|d| {
        d.settings.allowed = 0x40;
        d.settings.weighted = true;
    }),
    Before(|d| d.settings.allowed = 1 << 13),
    Before(|d| d.settings.allowed = 1),
];

/// Number 3, and lists that fit each other.
const LISTS: &[Change] = &[
    After(|j| shorten(&mut j.properties)),
    After(|j| j.properties.push(3)),
    After(|j| j.properties.truncate(24 * 2 + 14)),
    After(|j| j.properties.truncate(24)),
    After(|j| shorten(&mut j.tokens)),
    After(|j| j.tokens.push(0)),
    After(|j| j.tokens.clear()),
    After(|j| j.tokens.extend([0; PREDICTORS])),
    After(|j| shorten(&mut j.residuals)),
    After(|j| j.residuals.push(0)),
    After(|j| j.residuals.truncate(1)),
    After(|j| j.residuals.clear()),
    After(|j| {
        j.properties.clear();
        j.tokens.clear();
    }),
    Before(|d| d.rows = Rows::zeros(0)),
];

/// Number 4: one bad row, two bad rows, a token of a predictor not allowed.
const TOKENS: &[Change] = &[
    After(|j| set_token(j, 3, 13, 0)),
    After(|j| {
        set_token(j, 4, 0, 0);
        set_token(j, 2, 7, 0);
    }),
    After(|j| {
        set_token(j, 0, 0, 60);
        set_token(j, 5, 0, 0);
    }),
    After(|j| {
        j.settings.allowed &= !(1 << 9);
        set_token(j, 1, 9, 0);
    }),
    After(|j| {
        if j.settings.alphabet > 1 && j.tokens.len() > 30 {
            j.tokens[30] = (j.settings.alphabet.min(256) - 1) as u8;
        }
    }),
];

/// Makes a token the alphabet plus `over`, if a byte holds it.
fn set_token(job: &mut Learning, row: usize, predictor: usize, over: u32) {
    let value = job.settings.alphabet.saturating_add(over);
    let at = PREDICTORS * row + predictor;
    if let (Ok(value), Some(token)) = (u8::try_from(value), job.tokens.get_mut(at)) {
        *token = value;
    }
}

/// Number 5, and everything that makes it untrue.
const MODES: &[Change] = &[
    Before(|d| modal(d, 127)),
    Before(|d| modal(d, 128)),
    Before(|d| {
        modal(d, 127);
        d.settings.modal_offsets = false;
    }),
    Before(|d| {
        modal(d, 127);
        d.rows.residuals.clear();
    }),
    Before(|d| {
        modal(d, 127);
        d.rows = Rows::zeros(0);
    }),
    Before(|d| modal(d, 60)),
];

fn modal(draft: &mut Draft, alphabet: u32) {
    draft.settings.modal_offsets = true;
    draft.settings.alphabet = alphabet;
    draft.rows.set_residuals(|row| row as i32 % 3);
}

/// Number 6, and entries that nobody looks at.
const LOGARITHMS: &[Change] = &[
    After(|j| shorten(&mut j.logarithms)),
    After(|j| j.logarithms.clear()),
    After(|j| j.logarithms.truncate(1)),
    After(|j| set_log(j, 1, f32::NAN)),
    After(|j| set_log(j, 1, JUST_BELOW_ZERO)),
    After(|j| set_log(j, 2, f32::INFINITY)),
    After(|j| set_log(j, usize::MAX, above(32.0))),
    After(|j| set_log(j, usize::MAX, f32::NAN)),
    After(|j| set_log(j, 3, f32::NEG_INFINITY)),
    After(|j| set_log(j, usize::MAX, 32.0)),
    After(|j| set_log(j, 1, -0.0)),
    After(|j| set_log(j, 0, f32::NAN)),
    After(|j| j.logarithms.push(f32::NAN)),
];

/// Sets an entry, or the last one if there are not so many.
fn set_log(job: &mut Learning, entry: usize, value: f32) {
    let last = job.logarithms.len().wrapping_sub(1);
    if let Some(log) = job.logarithms.get_mut(entry.min(last)) {
        *log = value;
    }
}

/// Number 7: each list one entry short, or empty.
const ROOMS: &[Change] = &[
    After(|j| set_node_entries(j, 1)),
    After(|j| set_node_entries(j, u32::MAX)),
    After(|j| j.span_entries = j.span_entries.saturating_sub(1)),
    After(|j| j.span_entries = 0),
    After(|j| j.queue_entries = j.queue_entries.saturating_sub(1)),
    After(|j| j.queue_entries = 0),
    After(|j| j.count_entries = j.count_entries.saturating_sub(1)),
    After(|j| j.count_entries = 0),
    // What a bound without the middle term would ask for.
    After(|j| {
        j.count_entries = j
            .count_entries
            .min(4_096 + 56 * j.settings.alphabet.min(256))
    }),
];

fn set_node_entries(job: &mut Learning, fewer: u32) {
    job.nodes.entries = job.nodes.entries.saturating_sub(fewer);
    let kept = job.nodes.given.len().min(job.nodes.entries as usize);
    job.nodes.given.truncate(kept);
}

/// Number 8: counts and nodes. (Which node is named: see seed-faults.)
const SEEDS: &[Change] = &[
    After(|j| j.seed_count = 0),
    After(|j| j.seed_count = j.seed_count.wrapping_add(1)),
    After(|j| j.seed_count = j.nodes.entries + 1),
    After(|j| j.seed_count = 1 << 31),
    After(|j| j.seed_count = u32::MAX),
    Before(|d| d.seed[1].pred = 14),
    Before(|d| d.seed[0].prop = 24),
    Before(|d| d.seed.push(Record::leaf(0, 0))),
    Before(|d| d.seed[0].depth = 1),
    Before(|d| d.seed[1].depth = 0),
    Before(|d| d.seed[2].depth = u32::MAX),
    // A seed that alone decides how long lists must be, and one entry less.
    Before(|d| large_seed(d, 4_000)),
    Before(|d| large_seed(d, 4_096)),
    Before(|d| large_seed(d, 4_097)),
];

fn large_seed(draft: &mut Draft, leaves: usize) {
    let mut rng = Rng::new("large", 0, 0);
    draft.seed = tree(&mut rng, leaves, Shape::Level, &Tests { rows: None });
}

fn changes(deepens: bool) -> Vec<&'static Change> {
    let mut groups = vec![
        SETTINGS,
        PREDICTOR_SETS,
        LISTS,
        TOKENS,
        MODES,
        LOGARITHMS,
        ROOMS,
    ];
    if deepens {
        groups.push(SEEDS);
    }
    groups.into_iter().flatten().collect()
}

/// A good job: residuals given, tokens below 50.
fn good(rng: &mut Rng, deepens: bool) -> Draft {
    let mut made = rows::structured(rng, 6, 50);
    if rng.one_in(2) {
        made.residuals.clear();
    }
    let mut settings = plain_settings(rng.pick(&[50, 60]), 1 + rng.below(6) as u32);
    settings.side_predictors = rng.pick(&[0, 1, 2, 4]);
    settings.candidates = rng.pick(&[0, 1, 8, 32]);
    settings.weighted = rng.one_in(2);
    settings.settling = rng.one_in(2);
    let mut draft = Draft::new(settings, made);
    if deepens {
        draft.seed = tree(rng, 3, Shape::Any, &Tests { rows: None });
    }
    draft
}

/// Learning and deepening by turns: first each change alone, then each two.
pub fn refusals(at: At) -> Job {
    let deepens = at.index % 2 == 1;
    let changes = changes(deepens);
    let chosen = alone_then_two(at.index / 2, changes.len());
    let chosen = chosen.into_iter().map(|kind| changes[kind]);
    let mut rng = at.rng();
    let mut draft = good(&mut rng, deepens);
    for change in chosen.clone() {
        if let Before(change) = change {
            change(&mut draft);
        }
    }
    draft.logs = logs::true_logs(draft.rows.len());
    let mut job = draft.fitted();
    job.fill = any_fill(&mut rng);
    for change in chosen {
        if let After(change) = change {
            change(&mut job);
        }
    }
    if deepens {
        Job::Deepen(job)
    } else {
        Job::Learn(job)
    }
}

/// Deepening's own bound on count space, rows + 2 x node count, which shows only
/// where it is greater than learning's: here with 4,200 and more rows and an
/// alphabet of 1, a count of 0 among others.
pub fn seed_room(at: At) -> Job {
    let mut rng = at.rng();
    let count = 4_152 + rng.below(400);
    let leaves = 1 + rng.below(3);
    let mut draft = Draft::new(plain_settings(1, 2), Rows::zeros(count));
    draft.settings.candidates = 2;
    draft.seed = tree(&mut rng, leaves, Shape::Any, &Tests { rows: None });
    let mut job = draft.loose(&mut rng);
    if rng.one_in(3) {
        job.seed_count = 0;
    }
    let needed = count as u32 + 2 * job.seed_count;
    job.count_entries = needed - rng.pick(&[0, 0, 1, 2]);
    Job::Deepen(job)
}
