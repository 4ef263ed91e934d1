//! JPEG XL's meta-adaptive (MA) predictor trees, learned by a proved library.
//!
//! A row has 24 properties, 14 tokens (one for each predictor) and, if residuals are given, one residual. Learning grows a tree over the rows: its splits ask
//! for a property, its leaves name a predictor and an offset. Every list is lent by the caller: [`Room`] has them at the lengths that are due, and the rows come
//! in flat lists. Whatever is handed in, a call gives its answer or a [`Refusal`], and a refusal leaves every list as it was. A call takes up to 1 MB of
//! stack.
//!
//! ```
//! use ostrovuc::{Room, Settings, Symbol, SymbolContext, learn, logarithms, lookup, symbols_length, write_symbols};
//!
//! let settings = Settings { alphabet: 16, max_leaves: 4, side_preds: 1, max_candidates: 8, allowed_preds: 1, ..Settings::default() };
//! let rows = 8;
//! let (mut props, mut tok) = (vec![0; 24 * rows], vec![0; 14 * rows]);
//! for row in 0..rows {
//!     props[24 * row] = row as i32 / 4;
//!     tok[14 * row] = if row < 4 { 3 } else { 9 };
//! }
//! let mut room = Room::for_learning(&settings, rows);
//! let learned = learn(room.lend(&mut props, &mut tok, &mut []), &settings, &logarithms(rows))?;
//! assert_eq!((learned.nodes, learned.leaves, learned.bits), (3, 2, 0.0));
//! assert_eq!([0, 1, 2].map(|n| room.nodes[n].depth), [0, 1, 1]);
//! assert_eq!(lookup(&room.nodes, learned.nodes, &props[..24])?.leaf, 1);
//!
//! // As JPEG XL transmits it: node 0 splits by property 0, which is sent as 1, at 0. `read_symbols` reads it back.
//! let mut symbols = vec![Symbol::default(); symbols_length(learned.nodes)];
//! write_symbols(&room.nodes, learned.nodes, &mut symbols, &mut [0; 3])?;
//! assert_eq!(symbols[..2], [Symbol::new(SymbolContext::Property, 1), Symbol::new(SymbolContext::SplitVal, 0)]);
//! # Ok::<(), ostrovuc::Refusal>(())
//! ```

mod c;
mod operations;
mod records;
mod refusal;
mod room;
mod symbols;

pub use operations::{
    Encoding, Leaf, Learned, Lists, deepen, evenly_sampled_indices, leaf_contexts, learn, lookup,
    pack_signed, read_symbols, token_value, uint_encode, write_symbols,
};
pub use records::{MaNode, NodeInfo, Settings, Span};
pub use refusal::Refusal;
pub use room::{Entries, Room, logarithms};
pub use symbols::{Symbol, SymbolContext, read_nodes_length, symbols_length};
