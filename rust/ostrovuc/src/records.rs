//! Nodes, spans and settings, laid out as the library reads them.

use std::ops::Range;

/// What stands beside a node: its cost in bits, its predictor and its offset.
#[repr(C)]
#[derive(Clone, Copy, Debug, Default, PartialEq)]
pub struct NodeInfo {
    pub cost: f32,
    pub pred: u32,
    pub offset: i32,
}

/// A node. A split sends a row whose property is above `val` to `gt`, else to `le`. A leaf has no use for `prop`,
/// `val`, `gt` and `le`: they are written as 0 and never read. Any bit pattern may stand in any field, and a record
/// that a call does not write keeps it.
#[repr(C)]
#[derive(Clone, Copy, Debug, Default, PartialEq)]
pub struct MaNode {
    /// `MaNode::SPLIT` for a split; any other number is a leaf.
    pub kind: u32,
    pub prop: u32,
    pub val: i32,
    pub gt: u32,
    pub le: u32,
    pub info: NodeInfo,
    /// The distance from the root. Learning, deepening and reading symbols give it. In a seed, and in a tree whose
    /// contexts or symbols are asked for, it must be 0 at node 0, else one more than at the node's only parent, or the
    /// node is at fault (`Refusal::Tree`). A lookup does not look at it.
    pub depth: u32,
}

impl MaNode {
    /// The kind of each leaf that is written, by learning, deepening or reading symbols.
    pub const LEAF: u32 = 0;
    /// The kind of a split.
    pub const SPLIT: u32 = 1;

    /// Whether it is a split; else it is a leaf, whatever its kind.
    #[inline]
    pub const fn is_split(&self) -> bool {
        self.kind == Self::SPLIT
    }

    /// A leaf with its predictor and offset, cost and depth 0.
    pub const fn leaf(pred: u32, offset: i32) -> Self {
        let cost = 0.0;
        Self {
            kind: Self::LEAF,
            prop: 0,
            val: 0,
            gt: 0,
            le: 0,
            info: NodeInfo { cost, pred, offset },
            depth: 0,
        }
    }

    /// A split by a property, with nothing beside it, at depth 0.
    pub const fn split(prop: u32, val: i32, gt: u32, le: u32) -> Self {
        Self {
            kind: Self::SPLIT,
            prop,
            val,
            gt,
            le,
            ..Self::leaf(0, 0)
        }
    }

    /// The same node at another depth.
    pub const fn at_depth(self, depth: u32) -> Self {
        Self { depth, ..self }
    }
}

/// The rows of a node: the first, and the one behind the last. A split's are parted between its children, gt's first; a
/// seed's split has none.
#[repr(C)]
#[derive(Clone, Copy, Debug, Default, Eq, PartialEq)]
pub struct Span {
    pub first: u32,
    pub end: u32,
}

impl Span {
    /// The numbers of its rows.
    pub const fn rows(&self) -> Range<usize> {
        self.first as usize..self.end as usize
    }
}

/// The settings of learning, in document 01's order; outside these ranges they are refused.
#[repr(C)]
#[derive(Clone, Copy, Debug, Default, PartialEq)]
pub struct Settings {
    /// 1 to 256; every token is below it.
    pub alphabet: u32,
    /// 1 to 4,096.
    pub max_leaves: u32,
    /// What a split must gain: 0 to 1,048,576.
    pub split_cost_bits: f32,
    /// The price of a leaf in pruning: 0 to 1,048,576, and 0 does not prune.
    pub prune_leaf_bits: f32,
    /// Fewer rows are not split: 0 to 65,536.
    pub min_node: u32,
    /// How many predictors are tried on each side: 0 to 14, and 0 counts as 1.
    pub side_preds: u32,
    /// Thresholds tried of each property: 0 to 32.
    pub max_candidates: u32,
    /// The weighted predictor (6) and its property (15).
    pub allow_wp: bool,
    /// Bit p allows predictor p; bits 14 and 15 are ignored.
    pub allowed_preds: u16,
    /// Leaves of predictor 0 take the commonest residual as their offset.
    pub modal_offsets: bool,
    /// After pruning, token column 0 is made anew for each leaf.
    pub settle: bool,
}

// The sizes that crate `ma_tree` has for them.
const _: () = assert!(size_of::<NodeInfo>() == 12);
const _: () = assert!(size_of::<MaNode>() == 36);
const _: () = assert!(size_of::<Span>() == 8);
const _: () = assert!(size_of::<Settings>() == 36);
