//! Jobs at the bounds of what is refused. Where a condition is the first that
//! holds, mostly the next one holds too, so that their order shows.

use crate::draft::{Draft, plain_settings};
use crate::rows::Rows;
use crate::trees::with_depths;
use stream::{ContextsJob, Job, Learning, NodeList, Record, Settings};

pub const JOBS: &[fn() -> Job] = &[
    // No predictor is left: 2, or 1 for a setting outside its range.
    || no_predictor(at_its_end),
    || no_predictor(|s| s.alphabet = 0),
    || no_predictor(|s| s.alphabet = 257),
    || no_predictor(|s| s.limit = 0),
    || no_predictor(|s| s.limit = 4_097),
    || no_predictor(|s| s.split_cost = above(1_048_576.0)),
    || no_predictor(|s| s.split_cost = f32::NAN),
    || no_predictor(|s| s.price = above(1_048_576.0)),
    || no_predictor(|s| s.price = -f32::MIN_POSITIVE),
    || no_predictor(|s| s.smallest_node = 65_537),
    || no_predictor(|s| s.side_predictors = 15),
    || no_predictor(|s| s.candidates = 33),
    // A row that is refused with 5, and otherwise if it is changed: twice with 6,
    // with 4 and three times with 3.
    || alphabet_of_127(|_| {}),
    || alphabet_of_127(|j| j.settings.modal_offsets = false),
    || alphabet_of_127(|j| j.residuals.clear()),
    || alphabet_of_127(|j| j.tokens[13] = 127),
    || alphabet_of_127(|j| j.tokens.insert(0, 127)),
    || alphabet_of_127(|j| j.properties.push(0)),
    || alphabet_of_127(|j| j.residuals.push(0)),
    // No room, 7, or 6 for the logarithm of one row.
    || no_room(|logs| *logs = vec![f32::NAN, 32.0, f32::NAN]),
    || no_room(|logs| logs.truncate(1)),
    || no_room(|logs| logs[1] = above(32.0)),
    || no_room(|logs| logs[1] = -f32::MIN_POSITIVE),
    || no_room(|logs| logs[1] = f32::NAN),
    // Just enough room, or 7 for a list one entry short.
    || just_enough(14, 32, |_| {}),
    || just_enough(14, 32, |j| j.count_entries -= 1),
    || just_enough(1, 0, |j| j.count_entries -= 1),
    || just_enough(1, 0, |j| j.nodes.entries -= 1),
    || just_enough(1, 0, |j| j.span_entries -= 1),
    || just_enough(1, 0, |j| j.queue_entries -= 1),
    // A seed whose last node has no parent, 8, or 7 for a list one entry short.
    || stray_node(4, |_| {}),
    || stray_node(4, |j| j.seed_count = 0),
    || stray_node(4, |j| j.nodes.entries -= 1),
    || stray_node(4, |j| j.span_entries -= 1),
    || stray_node(2_077, |j| j.count_entries -= 1),
    // Contexts: 8 for node 1, or for the count.
    || bad_predictor(8_191),
    || bad_predictor(8_192),
];

/// The least single above another positive one.
fn above(x: f32) -> f32 {
    f32::from_bits(x.to_bits() + 1)
}

fn no_predictor(change: fn(&mut Settings)) -> Job {
    let mut draft = Draft::new(plain_settings(1, 1), Rows::zeros(0));
    draft.settings.weighted = false;
    draft.settings.allowed = 1 << 6 | 1 << 14 | 1 << 15;
    change(&mut draft.settings);
    let mut job = without_room(&draft);
    job.properties.push(0);
    Job::Learn(job)
}

fn at_its_end(settings: &mut Settings) {
    *settings = Settings {
        split_cost: 1_048_576.0,
        price: 1_048_576.0,
        smallest_node: 65_536,
        side_predictors: 14,
        weighted: settings.weighted,
        allowed: settings.allowed,
        ..plain_settings(256, 4_096)
    };
}

/// No entry in any list that is written to.
fn without_room(draft: &Draft) -> Learning {
    Learning {
        nodes: NodeList {
            entries: 0,
            given: Vec::new(),
        },
        span_entries: 0,
        queue_entries: 0,
        count_entries: 0,
        ..draft.fitted()
    }
}

fn alphabet_of_127(change: fn(&mut Learning)) -> Job {
    let mut draft = Draft::new(plain_settings(127, 1), Rows::zeros(1));
    draft.settings.modal_offsets = true;
    draft.rows.set_residuals(|_| 0);
    draft.logs.clear();
    let mut job = without_room(&draft);
    change(&mut job);
    Job::Learn(job)
}

fn no_room(change: fn(&mut Vec<f32>)) -> Job {
    let mut draft = Draft::new(plain_settings(1, 1), Rows::zeros(1));
    change(&mut draft.logs);
    Job::Learn(without_room(&draft))
}

fn just_enough(side_predictors: u32, candidates: u32, change: fn(&mut Learning)) -> Job {
    let mut draft = Draft::new(plain_settings(1, 2), Rows::zeros(0));
    draft.settings.side_predictors = side_predictors;
    draft.settings.candidates = candidates;
    let mut job = draft.fitted();
    change(&mut job);
    Job::Learn(job)
}

/// A sound seed of three nodes, of which `count` are said to be the seed's.
fn stray_node(count: u32, change: fn(&mut Learning)) -> Job {
    let mut draft = Draft::new(plain_settings(1, 1), Rows::zeros(1));
    draft.settings.candidates = 0;
    draft.seed = with_depths(vec![
        Record::split(0, 0, 1, 2),
        Record::leaf(0, 0),
        Record::leaf(0, 0),
    ]);
    let mut job = draft.fitted();
    job.seed_count = count;
    job.nodes.entries = count;
    job.span_entries = count;
    job.count_entries = job.count_entries.max(1 + 2 * count);
    change(&mut job);
    Job::Deepen(job)
}

/// So many nodes, of which 0 is a sound split, and no room.
fn bad_predictor(count: u32) -> Job {
    Job::Contexts(ContextsJob {
        count,
        nodes: NodeList {
            entries: count,
            given: vec![Record::split(0, 0, 1, 2), Record::leaf(14, 0).at_depth(1)],
        },
        fill: 1,
        context_entries: 0,
        queue_entries: 0,
    })
}
