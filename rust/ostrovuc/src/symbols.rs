//! A tree's symbols, as ISO/IEC 18181-1 transmits them.

/// What a symbol tells of a node, in the order of the standard's numbers. The names are libjxl's (`kSplitValContext`
/// and so on). The contexts of `leaf_contexts` are others: those of residuals.
#[derive(Clone, Copy, Debug, Eq, PartialEq)]
pub enum SymbolContext {
    /// A split's value, packed.
    SplitVal,
    /// A split's property + 1; 0 for a leaf.
    Property,
    /// A leaf's predictor.
    Predictor,
    /// A leaf's offset, packed.
    Offset,
    /// A leaf's multiplier is (bits + 1) << log, and here always 1: this is 0.
    MultiplierLog,
    /// And so is this.
    MultiplierBits,
}

impl SymbolContext {
    /// By their numbers.
    pub const ALL: [Self; 6] = [
        Self::SplitVal,
        Self::Property,
        Self::Predictor,
        Self::Offset,
        Self::MultiplierLog,
        Self::MultiplierBits,
    ];

    /// The one of this number in the standard, 0 to 5.
    pub fn of(number: u32) -> Option<Self> {
        Self::ALL.get(number as usize).copied()
    }

    /// The standard's number.
    pub const fn number(self) -> u32 {
        self as u32
    }

    /// Its name in one word.
    pub const fn name(self) -> &'static str {
        match self {
            Self::SplitVal => "split_val",
            Self::Property => "property",
            Self::Predictor => "predictor",
            Self::Offset => "offset",
            Self::MultiplierLog => "multiplier_log",
            Self::MultiplierBits => "multiplier_bits",
        }
    }
}

/// A symbol of a tree: what it tells of a node, as the standard's number, and a value.
#[repr(C)]
#[derive(Clone, Copy, Debug, Default, Eq, PartialEq)]
pub struct Symbol {
    pub context: u32,
    pub value: u32,
}

impl Symbol {
    pub const fn new(context: SymbolContext, value: u32) -> Self {
        Self {
            context: context.number(),
            value,
        }
    }
}

// The size that crate `ma_tree` has for it.
const _: () = assert!(size_of::<Symbol>() == 8);

/// Symbols of a tree of `count` nodes: of 2k + 1 nodes k are splits, with two each, k + 1 leaves, with five.
pub const fn symbols_length(count: u32) -> usize {
    (7 * count as usize + 3) / 2
}

/// Nodes of a tree of so many symbols.
pub const fn read_nodes_length(symbols: usize) -> usize {
    2 * symbols / 7
}
