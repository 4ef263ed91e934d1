//! The learning job that tests start from.

use stream::*;

/// `rows` rows of zeros and true logarithms, predictor 0 alone allowed, no more room for nodes than `limit` leaves
/// take, and count space enough for any settings.
pub fn learning(rows: usize, alphabet: u32, limit: u32) -> Learning {
    Learning {
        settings: Settings {
            alphabet,
            limit,
            split_cost: 0.0,
            price: 0.0,
            smallest_node: 0,
            side_predictors: 1,
            candidates: 32,
            weighted: false,
            allowed: 1,
            modal_offsets: false,
            settling: false,
        },
        properties: vec![0; PROPERTIES * rows],
        tokens: vec![0; PREDICTORS * rows],
        residuals: vec![0; rows],
        logarithms: (0..=rows).map(|n| (n.max(1) as f32).log2()).collect(),
        seed_count: 0,
        nodes: NodeList {
            entries: 2 * limit - 1,
            given: Vec::new(),
        },
        span_entries: 2 * limit - 1,
        queue_entries: limit,
        count_entries: 1 << 17,
        fill: 7,
    }
}
