//! A learning job in the making: settings, rows, logarithms and seed, around
//! which the lent lists are then cut to size.

use crate::logs;
use crate::rng::Rng;
use crate::rows::Rows;
use stream::{Job, Learning, NodeList, Record, Settings};

pub struct Draft {
    pub settings: Settings,
    pub rows: Rows,
    pub logs: Vec<f32>,
    pub seed: Vec<Record>,
}

/// Every predictor, no price, everything else at its plainest.
pub fn plain_settings(alphabet: u32, limit: u32) -> Settings {
    Settings {
        alphabet,
        limit,
        split_cost: 0.0,
        price: 0.0,
        smallest_node: 0,
        side_predictors: 1,
        candidates: 32,
        weighted: true,
        allowed: 0xffff,
        modal_offsets: false,
        settling: false,
    }
}

/// Settings within their ranges, mostly such that trees grow.
pub fn any_settings(rng: &mut Rng, alphabet: u32) -> Settings {
    let weighted = rng.one_in(2);
    Settings {
        alphabet,
        limit: rng.pick(&[1, 2, 3, 4, 5, 6, 8, 12, 16, 40]),
        split_cost: any_bits(rng),
        price: any_bits(rng),
        smallest_node: rng.pick(&[0, 0, 0, 1, 2, 3, 8]),
        side_predictors: rng.pick(&[0, 1, 1, 2, 3, 4, 4, 7, 13, 14]),
        candidates: rng.pick(&[0, 1, 2, 3, 4, 5, 6, 16, 31, 32, 32, 32]),
        weighted,
        allowed: any_predictors(rng, weighted),
        modal_offsets: alphabet >= 128 && rng.one_in(2),
        settling: rng.one_in(2),
    }
}

/// A split cost or a price: often 0, else mostly small.
fn any_bits(rng: &mut Rng) -> f32 {
    match rng.below(10) {
        0..=4 => 0.0,
        5 => rng.single(),
        6 => 20.0 * rng.single(),
        7 => -0.0,
        _ => rng.pick(&[0.25, 0.5, 1.0, 2.0, 3.0, 8.0]),
    }
}

/// A set of which at least one predictor can be used.
fn any_predictors(rng: &mut Rng, weighted: bool) -> u16 {
    if rng.one_in(2) {
        return 0xffff;
    }
    let set = rng.word() as u16 & rng.word() as u16;
    let usable = if weighted { 0x3fff } else { 0x3fbf };
    if set & usable == 0 {
        set | 1 << rng.pick(&[0, 0, 1, 5, 13])
    } else {
        set
    }
}

/// A fill pattern; 4,294,967,294 is left to mean "neither" in a queue.
pub fn any_fill(rng: &mut Rng) -> u32 {
    match rng.below(6) {
        0 => 0,
        1 => 1,
        2 => u32::MAX,
        _ => rng.word() | 1,
    }
}

/// How much longer than needed a list is.
pub fn any_slack(rng: &mut Rng) -> u32 {
    rng.pick(&[0, 0, 0, 1, 2, 7])
}

/// The numbers of count space that document 01 asks of learning.
pub fn counts_for(s: &Settings) -> u32 {
    let (a, sides) = (s.alphabet, s.side_predictors.max(1));
    4_096 + u32::max(56 * a, 14 * a + sides * a * (s.candidates + 2))
}

impl Draft {
    pub fn new(settings: Settings, rows: Rows) -> Self {
        Self {
            settings,
            logs: logs::true_logs(rows.len()),
            rows,
            seed: Vec::new(),
        }
    }

    /// With every list exactly as long as needed. Settings outside their
    /// ranges are asked for as if just outside, so that nothing gets too long.
    pub fn fitted(&self) -> Learning {
        let mut held = self.settings.clone();
        held.alphabet = held.alphabet.min(257);
        held.limit = held.limit.clamp(1, 4_097);
        held.side_predictors = held.side_predictors.min(15);
        held.candidates = held.candidates.min(33);
        let seed = self.seed.len() as u32;
        let nodes = (2 * held.limit - 1).max(seed);
        let seed_counts = if seed == 0 {
            0
        } else {
            self.rows.len() as u32 + 2 * seed
        };
        Learning {
            settings: self.settings.clone(),
            properties: self.rows.properties.as_flattened().to_vec(),
            tokens: self.rows.tokens.as_flattened().to_vec(),
            residuals: self.rows.residuals.clone(),
            logarithms: self.logs.clone(),
            seed_count: seed,
            nodes: NodeList {
                entries: nodes,
                given: self.seed.clone(),
            },
            span_entries: nodes,
            queue_entries: held.limit,
            count_entries: counts_for(&held).max(seed_counts),
            fill: 1,
        }
    }

    /// With some room to spare and some fill.
    pub fn loose(&self, rng: &mut Rng) -> Learning {
        let mut job = self.fitted();
        job.nodes.entries += any_slack(rng);
        job.span_entries += any_slack(rng);
        job.queue_entries += any_slack(rng);
        job.count_entries += any_slack(rng);
        job.fill = any_fill(rng);
        job
    }

    pub fn learn(&self, rng: &mut Rng) -> Job {
        Job::Learn(self.loose(rng))
    }

    pub fn deepen(&self, rng: &mut Rng) -> Job {
        Job::Deepen(self.loose(rng))
    }
}
