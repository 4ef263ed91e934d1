//! Stands in for two helpers of the original.

use std::cmp::Ordering;

pub(crate) fn heap_array<T: Copy, const N: usize>(value: T) -> Box<[T; N]> {
    Box::new([value; N])
}

/// A stable sort. The learner hands in predictors in ascending order, so they
/// come out by cost and then by number, as document 01 wants.
pub(crate) fn sort_small_by<T>(items: &mut [T], compare: impl FnMut(&T, &T) -> Ordering) {
    items.sort_by(compare);
}
