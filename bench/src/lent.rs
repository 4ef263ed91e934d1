//! Stands in for the original's `adaptive_quant`, as the oracle's does, but cheaply: a
//! logarithm is a read from the lent list, which is the least that it can cost.

use std::cell::Cell;

thread_local! {
    static LENT: Cell<&'static [f32]> = const { Cell::new(&[]) };
}

pub(crate) fn lend(logarithms: &'static [f32]) {
    LENT.set(logarithms);
}

pub(crate) fn dirty_log2f(count: f32) -> f32 {
    LENT.get()[count as usize]
}
