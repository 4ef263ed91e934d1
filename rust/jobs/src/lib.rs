//! From the job stream to the port and back, for every public operation (kinds 1 to 8, 32 and 33): a job's lists are
//! laid out at their lengths and with their pattern, lent through crate `ostrovuc`, and printed whole, after a refusal
//! too. c/jobs.c does the same from C. The driver, the benchmark and `ma_learn` are built on this.

mod learning;
mod operations;
mod records;
mod symbols;

pub use learning::{Run, run};
pub use operations::{contexts, lookup, pack, sample, tokens, values};
pub use records::{nodes, records, settings, span_records, spans};
pub use symbols::{read_symbols, write_symbols};

use ostrovuc::Refusal;
use stream::Runs;

/// What a queue entry prints as that is neither zero nor untouched.
const OTHER: u32 = 4_294_967_294;

/// A queue entry as it prints: 0 or untouched only if it is in all its parts.
fn queue_entry<const N: usize>(parts: [u32; N], fill: u32) -> u32 {
    if parts == [0; N] {
        0
    } else if parts == [fill; N] {
        fill
    } else {
        OTHER
    }
}

/// A queue of single numbers as it prints.
fn queue_of_words(queue: &[u32], fill: u32) -> Runs {
    queue
        .iter()
        .map(|&entry| queue_entry([entry], fill))
        .collect()
}

/// An answer as number, place and the rest: 0 for all of it after a refusal.
fn told<T: Default>(answer: Result<T, Refusal>) -> (u32, u32, T) {
    match answer {
        Ok(given) => (0, 0, given),
        Err(refusal) => (refusal.number(), refusal.place(), T::default()),
    }
}

#[cfg(test)]
mod tests {
    use super::{OTHER, queue_entry, told};
    use ostrovuc::{Leaf, Refusal};

    #[test]
    fn a_queue_entry_is_zero_or_untouched_in_all_its_parts() {
        assert_eq!(queue_entry([0; 6], 7), 0);
        assert_eq!(queue_entry([7; 6], 7), 7);
        assert_eq!(queue_entry([0, 0, 0, 0, 0, 7], 7), OTHER);
        assert_eq!(queue_entry([7, 7, 7, 0, 7, 7], 7), OTHER);
        assert_eq!(queue_entry([3; 6], 7), OTHER);
        assert_eq!(queue_entry([0; 6], 0), 0);
    }

    #[test]
    fn a_refusal_says_number_and_place_and_nothing_more() {
        let leaf = Leaf { leaf: 4, pred: 2 };
        assert_eq!(told(Ok(leaf)), (0, 0, leaf));
        let refused = told(Err(Refusal::Tree { node: 3 }));
        assert_eq!(refused, (8, 3, Leaf::default()));
    }
}
