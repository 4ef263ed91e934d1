//! Which of two waiting leaves with equal gains is split first.

use std::cmp::Ordering;
use std::sync::OnceLock;

/// A rule other than 02's.
#[derive(Debug)]
pub(crate) enum Other {
    /// Document 01's at first: the lower node number, however many rows a leaf has.
    NumberAlone,
    /// The original's: equal gains are equal, and its heap's inner moves decide.
    Heap,
}

static OTHER: OnceLock<Other> = OnceLock::new();

/// From here on this rule holds.
pub(crate) fn go_by(other: Other) {
    OTHER.set(other).expect("a rule is chosen once");
}

/// A waiting leaf: its rows, and its node number.
pub(crate) type Waiting = (usize, u32);

/// 02's rule (e): of two entries of the heap that with more rows is the greater, and only then the lower number.
pub(crate) fn order((rows, node): Waiting, (other_rows, other_node): Waiting) -> Ordering {
    let lower_number = other_node.cmp(&node);
    match OTHER.get() {
        None => rows.cmp(&other_rows).then(lower_number),
        Some(Other::NumberAlone) => lower_number,
        Some(Other::Heap) => Ordering::Equal,
    }
}
