//! The original's tree writer: the numbering of contexts, and a tree's symbols before they are coded.

#[allow(dead_code)]
#[path = "../../target/generated/tree.rs"]
mod tree;

use crate::entropy::Token;
use crate::ma_tree::LearnedTree;

/// The tree's symbols, the context of each node (4,294,967,295 for a split) and how many contexts there are.
pub(crate) fn emitted(tree: &LearnedTree) -> (Vec<Token>, Vec<u32>, u32) {
    tree::emit_learned_tree(tree)
}

/// The contexts alone, and how many there are.
pub(crate) fn leaf_contexts(tree: &LearnedTree) -> (Vec<u32>, u32) {
    let (_tokens, contexts, count) = emitted(tree);
    (contexts, count)
}

/// The symbols alone, in the order in which they are transmitted.
pub(crate) fn tree_symbols(tree: &LearnedTree) -> Vec<Token> {
    emitted(tree).0
}
