//! Single parts of the learner, and nothing else of the port: what crate `parts` exports for tests and the benchmark, behind
//! slices. A part that asks something of its caller is either held to it here or unsafe to call. The public operations are
//! crate `ostrovuc`'s.

use ostrovuc::{MaNode, Span};

/// Tokens of a row.
const PREDICTORS: usize = 14;
/// Properties of a row.
const PROPERTIES: usize = 24;
/// Numbers of the count space that the mode step and the candidates use.
const COUNTS: usize = 4_096;
/// Most candidates.
pub const CANDIDATES: usize = 32;
/// Most rows.
pub const ROWS: usize = 65_536;
/// Most words of marks.
const MARK_WORDS: usize = 1 << 26;

/// How many nodes pruning leaves, and their estimated bits.
#[repr(C)]
pub struct PrunedTree {
    pub nodes: usize,
    pub bits: f64,
}

/// The best threshold of a property, its cost, and how many rows are at or under it; found is 0 where there is none.
#[repr(C)]
pub struct Scored {
    pub found: u32,
    pub threshold: i32,
    pub cost: f32,
    pub below: u32,
}

mod c {
    use super::{MaNode, PrunedTree, Scored, Span};

    // Each slice is a pointer and a length.
    unsafe extern "C" {
        pub fn ostrovuc_set_windows(
            node: *const u32,
            node_length: usize,
            preds: *const u32,
            preds_length: usize,
            firsts: *mut u32,
            firsts_length: usize,
            offs: *mut u32,
            offs_length: usize,
            alphabet: usize,
        );
        pub fn ostrovuc_score_property(
            props: *const i32,
            props_length: usize,
            tok: *const u8,
            tok_length: usize,
            cands: *const i32,
            cands_length: usize,
            preds: *const u32,
            preds_length: usize,
            firsts: *const u32,
            firsts_length: usize,
            offs: *const u32,
            offs_length: usize,
            node: *const u32,
            node_length: usize,
            logs: *const f32,
            logs_length: usize,
            room: *mut u32,
            room_length: usize,
            first: usize,
            end: usize,
            prop: usize,
            alphabet: usize,
        ) -> Scored;
        pub fn ostrovuc_prune(
            nodes: *mut MaNode,
            nodes_length: usize,
            spans: *mut Span,
            spans_length: usize,
            count: usize,
            price: f32,
        ) -> PrunedTree;
        pub fn ostrovuc_partition(
            props: *mut i32,
            props_length: usize,
            tok: *mut u8,
            tok_length: usize,
            res: *mut i32,
            res_length: usize,
            first: usize,
            end: usize,
            prop: usize,
            threshold: i32,
        ) -> usize;
        pub fn ostrovuc_mode_step(
            tok: *mut u8,
            tok_length: usize,
            res: *const i32,
            res_length: usize,
            first: usize,
            end: usize,
            counts: *mut u32,
            counts_length: usize,
        ) -> i32;
        pub fn ostrovuc_pick_candidates(
            props: *const i32,
            props_length: usize,
            first: usize,
            end: usize,
            prop: usize,
            max_candidates: usize,
            flags: *mut u32,
            flags_length: usize,
            cands: *mut i32,
            cands_length: usize,
        ) -> usize;
        pub fn ostrovuc_mark_places(
            words: *const u64,
            words_length: usize,
            places: *mut u32,
            places_length: usize,
        ) -> usize;
        pub fn ostrovuc_count_tokens(
            tok: *const u8,
            tok_length: usize,
            first: usize,
            end: usize,
            alphabet: usize,
            hist: *mut u32,
            hist_length: usize,
        );
        pub fn ostrovuc_hist_entropy_bits(
            hist: *const u32,
            hist_length: usize,
            total: u32,
            logs: *const f32,
            logs_length: usize,
        ) -> f32;
    }
}

/// The rows of a job in flat lists.
pub struct Rows {
    pub props: Vec<i32>,
    pub tok: Vec<u8>,
    /// One a row, or none.
    pub res: Vec<i32>,
}

impl Rows {
    pub fn count(&self) -> usize {
        self.props.len() / PROPERTIES
    }

    fn are_shaped(&self) -> bool {
        let rows = self.count();
        self.props.len() == rows * PROPERTIES
            && self.tok.len() == rows * PREDICTORS
            && (self.res.is_empty() || self.res.len() == rows)
    }

    /// Moves the span's rows whose property is above the threshold to its front;
    /// gives where the others begin.
    pub fn partition(&mut self, first: usize, end: usize, prop: usize, threshold: i32) -> usize {
        assert!(self.are_shaped() && first <= end && end <= self.count() && prop < PROPERTIES);
        // SAFETY: the pointers and the lengths are lists', and `Divisible` is asserted.
        unsafe {
            c::ostrovuc_partition(
                self.props.as_mut_ptr(),
                self.props.len(),
                self.tok.as_mut_ptr(),
                self.tok.len(),
                self.res.as_mut_ptr(),
                self.res.len(),
                first,
                end,
                prop,
                threshold,
            )
        }
    }
}

/// Prunes the tree that the lists hold, at a price.
///
/// # Safety
///
/// The nodes are a sound tree and nothing more, with 0 for what a leaf does not have, and as many spans; no cost is NaN, and
/// neither is the price.
pub unsafe fn prune(nodes: &mut [MaNode], spans: &mut [Span], price: f32) -> PrunedTree {
    // SAFETY: the pointers and the lengths are slices'; the caller sees to the rest.
    unsafe {
        c::ostrovuc_prune(
            nodes.as_mut_ptr(),
            nodes.len(),
            spans.as_mut_ptr(),
            spans.len(),
            nodes.len(),
            price,
        )
    }
}

/// Count space whose numbers are 0. The exports give it back as they got it.
pub struct Counts([u32; COUNTS]);

impl Default for Counts {
    fn default() -> Self {
        Self([0; COUNTS])
    }
}

/// The mode of the rows from first to end; their zero-predictor tokens are made anew.
pub fn mode_step(
    tok: &mut [u8],
    res: &[i32],
    first: usize,
    end: usize,
    counts: &mut Counts,
) -> i32 {
    assert!(first <= end && end <= res.len() && res.len() <= ROWS);
    assert!(tok.len() == res.len() * PREDICTORS);
    // SAFETY: the pointers and the lengths are slices'. `Rebasable` is asserted but for
    // the zeros, which `Counts` has.
    unsafe {
        c::ostrovuc_mode_step(
            tok.as_mut_ptr(),
            tok.len(),
            res.as_ptr(),
            res.len(),
            first,
            end,
            counts.0.as_mut_ptr(),
            counts.0.len(),
        )
    }
}

/// The candidate thresholds of a property over the rows from first to end, written to the
/// front of `cands`.
pub fn pick_candidates<'a>(
    props: &[i32],
    first: usize,
    end: usize,
    prop: usize,
    max_candidates: usize,
    counts: &mut Counts,
    cands: &'a mut [i32; CANDIDATES],
) -> &'a [i32] {
    assert!(first <= end && end <= props.len() / PROPERTIES && prop < PROPERTIES);
    // SAFETY: the pointers and the lengths are slices'. `Pickable` is asserted but for
    // the zeros, which `Counts` has.
    let found = unsafe {
        c::ostrovuc_pick_candidates(
            props.as_ptr(),
            props.len(),
            first,
            end,
            prop,
            max_candidates,
            counts.0.as_mut_ptr(),
            counts.0.len(),
            cands.as_mut_ptr(),
            cands.len(),
        )
    };
    &cands[..found]
}

/// How many marks of these words are set.
pub fn count_set(words: &[u64]) -> usize {
    words.iter().map(|word| word.count_ones() as usize).sum()
}

/// The places of the set marks of any words, ascending, written to the front of `places`.
pub fn mark_places<'a>(words: &[u64], places: &'a mut [u32]) -> &'a [u32] {
    assert!(words.len() <= MARK_WORDS && count_set(words) <= places.len());
    // SAFETY: the pointers and the lengths are slices'; that places have 32 bits and there is room for all is asserted.
    let found = unsafe {
        c::ostrovuc_mark_places(
            words.as_ptr(),
            words.len(),
            places.as_mut_ptr(),
            places.len(),
        )
    };
    &places[..found]
}

/// Counts each predictor's tokens in the rows from first to end.
///
/// # Safety
///
/// The rows are there, at most 65,536, their tokens below the alphabet, and `hist` holds
/// 14 zeros for each token of the alphabet.
pub unsafe fn count_tokens(
    tok: &[u8],
    first: usize,
    end: usize,
    alphabet: usize,
    hist: &mut [u32],
) {
    // SAFETY: the pointers and the lengths are slices'; the caller sees to the rest.
    unsafe {
        c::ostrovuc_count_tokens(
            tok.as_ptr(),
            tok.len(),
            first,
            end,
            alphabet,
            hist.as_mut_ptr(),
            hist.len(),
        );
    }
}

/// The entropy of a histogram over the lent logarithms.
///
/// # Safety
///
/// The counts, at most 256 of them, sum to no more than the total, which is at most 65,536
/// and below the length of `logs`.
pub unsafe fn hist_entropy_bits(hist: &[u32], total: u32, logs: &[f32]) -> f32 {
    // SAFETY: the pointers and the lengths are slices'; the caller sees to the rest.
    unsafe {
        c::ostrovuc_hist_entropy_bits(hist.as_ptr(), hist.len(), total, logs.as_ptr(), logs.len())
    }
}

/// A node's side predictors, with their windows in its histograms.
pub struct Windows {
    preds: Vec<u32>,
    firsts: Vec<u32>,
    offs: Vec<u32>,
}

impl Windows {
    /// # Safety
    ///
    /// `node` is 14 histograms of the alphabet, which is at most 256; the predictors, at most
    /// 14, are below 14.
    pub unsafe fn of(node: &[u32], preds: &[u32], alphabet: usize) -> Self {
        let (mut firsts, mut offs) = (vec![0; preds.len()], vec![0; preds.len() + 1]);
        // SAFETY: the pointers and the lengths are lists'; the caller sees to the rest.
        unsafe {
            c::ostrovuc_set_windows(
                node.as_ptr(),
                node.len(),
                preds.as_ptr(),
                preds.len(),
                firsts.as_mut_ptr(),
                firsts.len(),
                offs.as_mut_ptr(),
                offs.len(),
                alphabet,
            );
        }
        let preds = preds.to_vec();
        Self {
            preds,
            firsts,
            offs,
        }
    }
}

/// The best of a property's candidates over the rows from first to end.
///
/// # Safety
///
/// There are 24 properties and 14 tokens a row; the rows are there, and end is at most 65,536; their tokens are
/// below the alphabet, which is 1 to 256, `node` counts them, and the windows are of `node` and at least one; the
/// candidates, at most 32, ascend; the logarithms reach the number of rows, each from 0 to 32; the room is zeros and
/// has as many numbers as predictors × alphabet × (candidates + 2).
#[allow(clippy::too_many_arguments)]
pub unsafe fn score_property(
    props: &[i32],
    tok: &[u8],
    first: usize,
    end: usize,
    prop: usize,
    cands: &[i32],
    windows: &Windows,
    alphabet: usize,
    node: &[u32],
    logs: &[f32],
    room: &mut [u32],
) -> Scored {
    // SAFETY: the pointers and the lengths are slices'; the caller sees to the rest.
    unsafe {
        c::ostrovuc_score_property(
            props.as_ptr(),
            props.len(),
            tok.as_ptr(),
            tok.len(),
            cands.as_ptr(),
            cands.len(),
            windows.preds.as_ptr(),
            windows.preds.len(),
            windows.firsts.as_ptr(),
            windows.firsts.len(),
            windows.offs.as_ptr(),
            windows.offs.len(),
            node.as_ptr(),
            node.len(),
            logs.as_ptr(),
            logs.len(),
            room.as_mut_ptr(),
            room.len(),
            first,
            end,
            prop,
            alphabet,
        )
    }
}
