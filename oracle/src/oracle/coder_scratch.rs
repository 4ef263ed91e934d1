//! Stands in for the original's scratch: the learner's part of it.

use crate::entropy::HuffmanPool;
use crate::ma_tree::MaPropertyScratch;

#[derive(Default)]
pub(crate) struct CoderScratch {
    pub(crate) ma_property: MaPropertyScratch,
    pub(crate) huffman_pool: HuffmanPool,
}
