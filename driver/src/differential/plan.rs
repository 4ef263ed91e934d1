//! Which jobs: the families with their shares, cut into batches.

use crate::{Failure, Result};

/// Every batch is of this seed; its jobs' numbers tell batches of a family apart.
pub const SEED: u64 = 1;

/// Jobs of all shares together, which `tests/differential` asks for by default.
const WHOLE: u64 = 280_000;

#[derive(Debug, Eq, PartialEq)]
pub struct Family {
    pub name: &'static str,
    /// Jobs of it among `WHOLE`.
    share: u64,
    /// What one job takes in all, about, in microseconds.
    micros: u64,
}

const fn family(name: &'static str, share: u64, micros: u64) -> Family {
    Family {
        name,
        share,
        micros,
    }
}

#[rustfmt::skip]
const FAMILIES: &[Family] = &[
    // Learning, and in some of them deepening.
    family("tiny", 28_080, 120), family("small", 16_000, 400), family("ties", 8_000, 160), family("wide", 4_000, 2_500),
    family("extremes", 8_000, 1_300), family("spans", 6_000, 220), family("logs", 8_000, 350), family("settling", 8_000, 850),
    family("prune-ties", 8_000, 400), family("limits-k", 8_000, 480), family("refusals", 9_000, 220),
    family("agree", 93, 120),
    family("deep", 2_000, 4_500), family("strides", 1_000, 7_000), family("limits", 30, 180_000), family("digits", 3_000, 9_500),
    family("digits-4096", 400, 50_000), family("digits-16384", 60, 200_000), family("digits-65536", 20, 1_100_000),
    family("worst", 10, 3_500_000), family("worst-65536", 1, 55_000_000),
    // Deepening.
    family("seeds", 16_000, 420), family("seeds-large", 1_000, 5_500), family("seed-faults", 11_000, 120),
    family("seed-room", 406, 7_000),
    // The small operations.
    family("lookup", 10_000, 90), family("contexts", 8_000, 280), family("sampling", 8_000, 200), family("pack", 6_000, 50),
    family("token", 6_000, 35), family("value", 6_000, 35),
    family("symbols", 6_000, 50), family("symbol-faults", 6_000, 40), family("symbol-reads", 4_700, 60),
    family("unreadable", 4_900, 40), family("symbols-large", 400, 5_000),
    // Deepening and some of these by turns.
    family("kinds", 6_000, 200), family("depths", 6_000, 80),
    // Single parts of the learner.
    family("mode", 7_000, 40), family("candidates", 6_000, 220), family("partition", 6_000, 40), family("columns", 900, 4_000),
    family("prune", 8_000, 60), family("score", 7_000, 90), family("score-ties", 4_000, 60),
    family("score-long", 940, 6_000), family("score-65536", 60, 60_000),
    family("marks", 8_000, 60), family("probes", 8_000, 60),
];

/// A run of a family's jobs.
#[derive(Debug, Eq, PartialEq)]
pub struct Batch {
    pub family: &'static Family,
    pub first: u64,
    pub count: u64,
}

impl Batch {
    /// What the batch takes, about.
    pub fn micros(&self) -> u64 {
        self.count * self.family.micros
    }
}

/// How many jobs of a family there are among so many: of a long one perhaps none.
fn share(family: &Family, jobs: u64) -> u64 {
    let exact = u128::from(family.share) * u128::from(jobs);
    let whole = u128::from(WHOLE);
    let is_long = family.micros > 10_000_000;
    let share = if is_long {
        exact / whole
    } else {
        exact.div_ceil(whole)
    };
    share as u64
}

/// All batches, about a second each, the families side by side.
pub fn batches(jobs: u64) -> Vec<Batch> {
    let mut placed = Vec::new();
    for (place, family) in FAMILIES.iter().enumerate() {
        let share = share(family, jobs);
        let count = (1_000_000 / family.micros).clamp(1, 1_000);
        for first in (0..share).step_by(count as usize) {
            let count = count.min(share - first);
            let progress = first * 1_000_000 / share;
            placed.push((
                (progress, place),
                Batch {
                    family,
                    first,
                    count,
                },
            ));
        }
    }
    placed.sort_by_key(|&(order, _)| order);
    placed.into_iter().map(|(_, batch)| batch).collect()
}

/// The generator has these families and no others.
pub fn check(listed: &[String]) -> Result<()> {
    let known = |name: &String| FAMILIES.iter().any(|family| family.name == name);
    match listed.iter().find(|name| !known(name)) {
        Some(name) => Err(Failure(format!("family {name} has no share"))),
        None if listed.len() != FAMILIES.len() => Err(Failure("gen lacks a family".into())),
        None => Ok(()),
    }
}

#[cfg(test)]
mod tests {
    use super::*;

    /// Together the batches are the shares, each job once.
    #[test]
    fn batches_make_up_the_shares() {
        assert_eq!(
            FAMILIES.iter().map(|family| family.share).sum::<u64>(),
            WHOLE
        );
        for jobs in [1, 1_000, WHOLE, 1_000_000] {
            let batches = batches(jobs);
            assert!(batches.iter().map(|batch| batch.count).sum::<u64>() >= jobs);
            for family in FAMILIES {
                let own = batches.iter().filter(|batch| batch.family == family);
                let next = own.fold(0, |next, batch| {
                    assert_eq!(batch.first, next);
                    next + batch.count
                });
                assert_eq!(next, share(family, jobs));
            }
        }
    }
}
