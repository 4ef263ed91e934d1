//! A name that the original's tree writer needs. The oracle writes no bits.

pub(crate) struct BitWriter;

impl BitWriter {
    pub(crate) fn write(&mut self, _count: usize, _bits: u64) {
        unreachable!("the oracle writes no bits")
    }
}
