//! What crate `ma_tree` exports. A slice crosses over as two arguments, pointer and length; nothing more is asked of a caller.

use crate::operations::Encoding;
use crate::records::{MaNode, Settings, Span};
use crate::symbols::Symbol;

/// A learned tree; number 0 says that there is one.
#[repr(C)]
pub struct LearnedTree {
    pub number: u32,
    pub place: u32,
    pub nodes: u32,
    pub leaves: u32,
    pub bits: f64,
    pub flat: f64,
}

/// The leaf of a lookup; number 0 says that there is one.
#[repr(C)]
pub struct Leaf {
    pub number: u32,
    pub place: u32,
    pub leaf: u32,
    pub pred: u32,
}

/// How many were written; number 0 says that the call was accepted.
#[repr(C)]
pub struct Count {
    pub number: u32,
    pub place: u32,
    pub count: u32,
}

/// A token's value; number 0 says that there is one.
#[repr(C)]
pub struct Read {
    pub number: u32,
    pub place: u32,
    pub value: u32,
}

unsafe extern "C" {
    pub fn ostrovuc_learn(
        nodes: *mut MaNode,
        nodes_length: usize,
        spans: *mut Span,
        spans_length: usize,
        s: Settings,
        logs: *const f32,
        logs_length: usize,
        props: *mut i32,
        props_length: usize,
        tok: *mut u8,
        tok_length: usize,
        res: *mut i32,
        res_length: usize,
        queue_words: *mut u32,
        queue_words_length: usize,
        queue_values: *mut i32,
        queue_values_length: usize,
        queue_gains: *mut f32,
        queue_gains_length: usize,
        counts: *mut u32,
        counts_length: usize,
    ) -> LearnedTree;
    pub fn ostrovuc_deepen(
        nodes: *mut MaNode,
        nodes_length: usize,
        spans: *mut Span,
        spans_length: usize,
        s: Settings,
        count: u32,
        logs: *const f32,
        logs_length: usize,
        props: *mut i32,
        props_length: usize,
        tok: *mut u8,
        tok_length: usize,
        res: *mut i32,
        res_length: usize,
        queue_words: *mut u32,
        queue_words_length: usize,
        queue_values: *mut i32,
        queue_values_length: usize,
        queue_gains: *mut f32,
        queue_gains_length: usize,
        counts: *mut u32,
        counts_length: usize,
    ) -> LearnedTree;
    pub fn ostrovuc_lookup(
        nodes: *const MaNode,
        nodes_length: usize,
        count: u32,
        props: *const i32,
        props_length: usize,
    ) -> Leaf;
    pub fn ostrovuc_leaf_contexts(
        nodes: *const MaNode,
        nodes_length: usize,
        count: u32,
        contexts: *mut u32,
        contexts_length: usize,
        queue: *mut u32,
        queue_length: usize,
    ) -> Count;
    pub fn ostrovuc_write_symbols(
        nodes: *const MaNode,
        nodes_length: usize,
        count: u32,
        symbols: *mut Symbol,
        symbols_length: usize,
        queue: *mut u32,
        queue_length: usize,
    ) -> Count;
    pub fn ostrovuc_read_symbols(
        symbols: *const Symbol,
        symbols_length: usize,
        nodes: *mut MaNode,
        nodes_length: usize,
    ) -> Count;
    pub fn ostrovuc_evenly_sampled_indices(
        rows: usize,
        target: usize,
        out: *mut u32,
        out_length: usize,
    ) -> Count;
    pub safe fn ostrovuc_pack_signed(value: i32) -> u32;
    pub safe fn ostrovuc_uint_encode(value: u32) -> Encoding;
    pub safe fn ostrovuc_token_value(token: u32, extra: u32) -> Read;
}
