//! Growth's order: the greatest gain first, at equal gains "the leaf with more rows", "and only then the lower number"
//! (02, e). What a split gained can be told from an answer where its leaves cost what its sides did: where nothing was
//! pruned or rebased, and every predictor that may be used was tried on the sides.

use crate::runs::{is_unpruned, tree, uses_modes};
use crate::{Checked, ensure};
use std::cmp::Reverse;
use stream::{Learned, Learning, Record};

/// Each split of growth goes before those that waited with it and were made later.
pub fn check(job: &Learning, answer: &Learned) -> Checked {
    if !tells_gains(job) {
        return Ok(());
    }
    let mut splits = &splits(job, answer)?[..];
    while let [split, later @ ..] = splits {
        goes_first(split, later)?;
        splits = later;
    }
    Ok(())
}

fn goes_first(split: &Split, later: &[Split]) -> Checked {
    for other in later.iter().filter(|other| other.node < split.gt) {
        ensure(
            split.goes_before(other),
            format_args!("growth made {split:?} before {other:?}"),
        )?;
    }
    Ok(())
}

fn tells_gains(job: &Learning) -> bool {
    let settings = &job.settings;
    let usable = if settings.weighted { 0x3fff } else { 0x3fbf };
    let sides = settings.side_predictors.max(1);
    is_unpruned(job) && !uses_modes(job) && sides >= (settings.allowed & usable).count_ones()
}

#[derive(Debug)]
struct Split {
    node: u32,
    gt: u32,
    gain: f32,
    rows: u32,
}

impl Split {
    fn goes_before(&self, other: &Self) -> bool {
        let order = |split: &Self| (split.rows, Reverse(split.node));
        let gains = self.gain.total_cmp(&other.gain);
        gains.then(order(self).cmp(&order(other))).is_gt()
    }
}

/// Growth's splits in the order in which their leaves were appended to the nodes of the start.
fn splits(job: &Learning, answer: &Learned) -> Checked<Vec<Split>> {
    let tree = tree(answer)?;
    let cost = |node: u32| f32::from_bits(tree[node as usize].cost);
    let made = |(node, &Record { gt, le, .. }): (u32, &Record)| Split {
        node,
        gt,
        gain: cost(node) - (cost(le) + cost(gt)) - job.settings.split_cost,
        rows: answer.spans[node as usize].end - answer.spans[node as usize].first,
    };
    let is_grown = |(_, node): &(u32, &Record)| node.is_split() && node.gt >= job.seed_count.max(1);
    let mut splits: Vec<Split> = (0..).zip(tree).filter(is_grown).map(made).collect();
    splits.sort_by_key(|split| split.gt);
    Ok(splits)
}
