//! A job of learning from a picture.

use crate::picture::Picture;
use crate::rows::{self, Rows};
use ostrovuc::{Refusal, Room, evenly_sampled_indices, logarithms};
use std::fmt;
use stream::{Learning, NodeList, Settings};

/// The most rows that a job has.
pub const MOST_ROWS: u32 = 65_536;

/// Settings for a digit sheet: a small cost of splitting lets the tree grow, the price then folds what does not pay.
pub fn default_settings() -> Settings {
    Settings {
        alphabet: 256,
        limit: 64,
        split_cost: 8.0,
        price: 64.0,
        smallest_node: 8,
        side_predictors: 4,
        candidates: 32,
        weighted: true,
        allowed: 0x3fff,
        modal_offsets: true,
        settling: true,
    }
}

/// Why a picture makes no job.
#[derive(Debug, Eq, PartialEq)]
pub enum NoJob {
    /// A single line has more pixels than the job may have rows.
    WideLine { width: usize, most: u32 },
    /// There are more lines than can be picked from.
    Lines(Refusal),
}

impl fmt::Display for NoJob {
    fn fmt(&self, f: &mut fmt::Formatter<'_>) -> fmt::Result {
        match self {
            Self::WideLine { width, most } => {
                write!(f, "a line of {width} pixels does not fit into {most} rows")
            }
            Self::Lines(refusal) => write!(f, "its lines cannot be picked from: {refusal}"),
        }
    }
}

impl std::error::Error for NoJob {}

/// The lines whose pixels become rows: all, or as many whole ones as fit, evenly spread.
pub fn lines_taken(picture: &Picture, most: u32) -> Result<Vec<u32>, NoJob> {
    let (width, height) = (picture.width(), picture.height());
    let fit = most as usize / width;
    if fit == 0 {
        return Err(NoJob::WideLine { width, most });
    }
    let mut lines = vec![0; height.min(fit)];
    evenly_sampled_indices(height, fit, &mut lines).map_err(NoJob::Lines)?;
    Ok(lines)
}

/// The job of learning from these lines, every list as long as is due.
pub fn of_lines(picture: &Picture, lines: &[u32], settings: Settings) -> Learning {
    let Rows {
        properties,
        tokens,
        residuals,
    } = rows::of_lines(picture, lines);
    let rows = residuals.len();
    let room = Room::for_learning(&jobs::settings(&settings), rows).entries();
    Learning {
        settings,
        properties,
        tokens,
        residuals,
        logarithms: logarithms(rows),
        seed_count: 0,
        nodes: NodeList {
            entries: room.nodes as u32,
            given: Vec::new(),
        },
        span_entries: room.spans as u32,
        queue_entries: room.queue as u32,
        count_entries: room.counts as u32,
        fill: 0,
    }
}
