//! The operations, over slices. Whatever they are handed, they answer or refuse, and a refusal changes no list.

use crate::c;
use crate::records::{MaNode, Settings, Span};
use crate::refusal::Refusal;
use crate::symbols::Symbol;

/// What learning and deepening are lent. `Room` has all but the rows, at the lengths that are due.
pub struct Lists<'a> {
    /// The tree, node 0 its root, each node with its depth.
    pub nodes: &'a mut [MaNode],
    /// The rows of each node.
    pub spans: &'a mut [Span],
    /// 24 a row; rows are moved so that each node's stand together.
    pub props: &'a mut [i32],
    /// 14 a row, moved with it; with residuals and modal offsets, column 0 is made anew from the residual and its leaf's mode, but pruning leaves it stale unless
    /// settling is on.
    pub tok: &'a mut [u8],
    /// One a row, moved with it; or none at all.
    pub res: &'a mut [i32],
    /// Four a waiting leaf.
    pub queue_words: &'a mut [u32],
    /// One a waiting leaf.
    pub queue_values: &'a mut [i32],
    /// One a waiting leaf.
    pub queue_gains: &'a mut [f32],
    pub counts: &'a mut [u32],
}

/// What was learned; the tree itself stands at the front of the node list.
#[derive(Clone, Copy, Debug, Default, PartialEq)]
pub struct Learned {
    pub nodes: u32,
    pub leaves: u32,
    /// Estimated bits.
    pub bits: f64,
    /// Bits of a flat tree over property 0.
    pub flat: f64,
}

/// A leaf's node number and its predictor.
#[derive(Clone, Copy, Debug, Default, Eq, PartialEq)]
pub struct Leaf {
    pub leaf: u32,
    pub pred: u32,
}

/// A value's token, how many extra bits follow it, and those bits.
#[repr(C)]
#[derive(Clone, Copy, Debug, Eq, PartialEq)]
pub struct Encoding {
    pub token: u32,
    pub extra_count: u32,
    pub extra_bits: u32,
}

/// Calls an export with the lists, the settings, what stands between, and the logarithms.
macro_rules! call {
    ($export:path, $lists:expr, $settings:expr, $logs:expr $(, $between:expr)?) => {
        // SAFETY: the pointers and the lengths are slices', and no two of them overlap.
        unsafe { $export(
            $lists.nodes.as_mut_ptr(),
            $lists.nodes.len(),
            $lists.spans.as_mut_ptr(),
            $lists.spans.len(),
            *$settings,
            $($between,)?
            $logs.as_ptr(),
            $logs.len(),
            $lists.props.as_mut_ptr(),
            $lists.props.len(),
            $lists.tok.as_mut_ptr(),
            $lists.tok.len(),
            $lists.res.as_mut_ptr(),
            $lists.res.len(),
            $lists.queue_words.as_mut_ptr(),
            $lists.queue_words.len(),
            $lists.queue_values.as_mut_ptr(),
            $lists.queue_values.len(),
            $lists.queue_gains.as_mut_ptr(),
            $lists.queue_gains.len(),
            $lists.counts.as_mut_ptr(),
            $lists.counts.len(),
        ) }
    };
}

/// Learns a tree from the rows. `logs` has the logarithms to base 2 of 1 to rows at these places, as `logarithms` makes them. Refusals 1 to 7.
pub fn learn(lists: Lists<'_>, settings: &Settings, logs: &[f32]) -> Result<Learned, Refusal> {
    learned(call!(c::ostrovuc_learn, lists, settings, logs))
}

/// Deepens the seed, the tree of the first `count` nodes, which have their depths; its splits stay. Refusals 1 to 8.
pub fn deepen(
    lists: Lists<'_>,
    settings: &Settings,
    count: u32,
    logs: &[f32],
) -> Result<Learned, Refusal> {
    learned(call!(c::ostrovuc_deepen, lists, settings, logs, count))
}

fn learned(tree: c::LearnedTree) -> Result<Learned, Refusal> {
    let answer = Learned {
        nodes: tree.nodes,
        leaves: tree.leaves,
        bits: tree.bits,
        flat: tree.flat,
    };
    Refusal::unless_accepted(tree.number, tree.place, answer)
}

/// The leaf that a row of 24 properties reaches in the tree of the first `count` nodes, whatever their depths. Refusals
/// 9 and 8.
#[inline]
pub fn lookup(nodes: &[MaNode], count: u32, props: &[i32]) -> Result<Leaf, Refusal> {
    // SAFETY: the pointers and the lengths are slices'.
    let found = unsafe {
        c::ostrovuc_lookup(
            nodes.as_ptr(),
            nodes.len(),
            count,
            props.as_ptr(),
            props.len(),
        )
    };
    let answer = Leaf {
        leaf: found.leaf,
        pred: found.pred,
    };
    Refusal::unless_accepted(found.number, found.place, answer)
}

/// Numbers the leaves of the first `count` nodes breadth first, gt before le, and gives how many there are. A split's context is `u32::MAX`. Both lists have at
/// least `count` entries. Refusals 8 and 7.
pub fn leaf_contexts(
    nodes: &[MaNode],
    count: u32,
    contexts: &mut [u32],
    queue: &mut [u32],
) -> Result<u32, Refusal> {
    // SAFETY: the pointers and the lengths are slices', and no two of them overlap.
    let counted = unsafe {
        c::ostrovuc_leaf_contexts(
            nodes.as_ptr(),
            nodes.len(),
            count,
            contexts.as_mut_ptr(),
            contexts.len(),
            queue.as_mut_ptr(),
            queue.len(),
        )
    };
    Refusal::unless_accepted(counted.number, counted.place, counted.count)
}

/// Writes the tree of the first `count` nodes as ISO/IEC 18181-1 transmits it to the front of `symbols`, breadth first,
/// gt before le, and gives how many symbols there are. `symbols` has at least `symbols_length(count)` entries, `queue`
/// at least `count`. Refusals 8 and 7.
pub fn write_symbols(
    nodes: &[MaNode],
    count: u32,
    symbols: &mut [Symbol],
    queue: &mut [u32],
) -> Result<u32, Refusal> {
    // SAFETY: the pointers and the lengths are slices', and no two of them overlap.
    let written = unsafe {
        c::ostrovuc_write_symbols(
            nodes.as_ptr(),
            nodes.len(),
            count,
            symbols.as_mut_ptr(),
            symbols.len(),
            queue.as_mut_ptr(),
            queue.len(),
        )
    };
    Refusal::unless_accepted(written.number, written.place, written.count)
}

/// Reads such symbols back, all of them, to the front of `nodes`, and gives how many nodes the tree has. They are
/// numbered breadth first and have their depths; a split has infinite cost, predictor and offset 0, a leaf cost 0.
/// `nodes` has at least `read_nodes_length(symbols.len())` entries. Refusals 11 and 7.
pub fn read_symbols(symbols: &[Symbol], nodes: &mut [MaNode]) -> Result<u32, Refusal> {
    // SAFETY: the pointers and the lengths are slices', and the two do not overlap.
    let read = unsafe {
        c::ostrovuc_read_symbols(
            symbols.as_ptr(),
            symbols.len(),
            nodes.as_mut_ptr(),
            nodes.len(),
        )
    };
    Refusal::unless_accepted(read.number, read.place, read.count)
}

/// Writes the numbers of `target` rows, evenly picked, to the front of `out`, or of all rows if there are fewer; gives how many. Refusals 3 and 7.
pub fn evenly_sampled_indices(rows: usize, target: usize, out: &mut [u32]) -> Result<u32, Refusal> {
    // SAFETY: the pointer and the length are a slice's.
    let picked =
        unsafe { c::ostrovuc_evenly_sampled_indices(rows, target, out.as_mut_ptr(), out.len()) };
    Refusal::unless_accepted(picked.number, picked.place, picked.count)
}

/// Packs a signed number: 0, -1, 1, -2 become 0, 1, 2, 3.
#[inline]
pub fn pack_signed(value: i32) -> u32 {
    c::ostrovuc_pack_signed(value)
}

/// The token of a value and its extra bits.
#[inline]
pub fn uint_encode(value: u32) -> Encoding {
    c::ostrovuc_uint_encode(value)
}

/// The value of a token and its extra bits. Refusal 10.
#[inline]
pub fn token_value(token: u32, extra: u32) -> Result<u32, Refusal> {
    let read = c::ostrovuc_token_value(token, extra);
    Refusal::unless_accepted(read.number, read.place, read.value)
}
