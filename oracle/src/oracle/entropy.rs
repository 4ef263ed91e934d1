//! The original's `entropy`: its tokens as they are, and nothing behind the
//! names that its tree writer needs, since the oracle writes no bits.

#[allow(dead_code)]
#[path = "../../target/generated/token.rs"]
mod token;

pub(crate) use token::{Token, pack_signed, uint_encode};

use crate::bit_writer::BitWriter;

#[derive(Default)]
pub(crate) struct HuffmanPool;

pub(crate) struct OwnedEntropyCode;

impl OwnedEntropyCode {
    pub(crate) fn as_ref(&self) -> &Self {
        self
    }
}

pub(crate) fn write_raced_token_stream(
    _tokens: &[Token],
    _contexts: usize,
    _pool: &mut HuffmanPool,
    _bits: &mut BitWriter,
) {
    unreachable!("the oracle writes no bits")
}

pub(crate) fn write_entropy_code(
    _code: &&OwnedEntropyCode,
    _pool: &mut HuffmanPool,
    _bits: &mut BitWriter,
) {
    unreachable!("the oracle writes no bits")
}
