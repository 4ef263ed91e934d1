//! The places of set marks, by the original's walk over the words in which it marks probed values. Each block of as
//! many words is made a probe.

use crate::coder_scratch::CoderScratch;
use crate::ma_tree::hooks;
use stream::MARKS;

/// Words that the original has for marks.
const WORDS: usize = 64;
/// The fewest values that it marks; fewer it sorts by comparison.
const FEWEST: usize = 32;

pub(crate) fn places(words: &[u64], scratch: &mut CoderScratch) -> Vec<u32> {
    let mut places = Vec::new();
    for (block, words) in words.chunks(WORDS).enumerate() {
        let first = (block * WORDS * MARKS) as u32;
        let found = places_in_block(words, scratch);
        places.extend(found.into_iter().map(|place| first + place as u32));
    }
    places
}

/// The values of the probe are the places of the set marks, the last first, and again from there until they are enough.
/// Place 0 is one of them even if it is not set: the original's words begin at the lowest value.
fn places_in_block(words: &[u64], scratch: &mut CoderScratch) -> Vec<i32> {
    let is_set = |place: usize| words[place / MARKS] >> (place % MARKS) & 1 == 1;
    let places = (0..words.len() * MARKS).rev();
    let probed = places.filter(|&place| place == 0 || is_set(place));
    let probed: Vec<i32> = probed.map(|place| place as i32).collect();
    let count = probed.len().max(FEWEST);
    let mut probe = probed.into_iter().cycle().take(count).collect();
    hooks::sort_unique(&mut probe, scratch);
    if !is_set(0) {
        probe.remove(0);
    }
    probe
}

#[cfg(test)]
mod tests {
    use super::*;
    use crate::operations;
    use stream::{Answer, Job};

    fn places_of(words: &[u64]) -> Vec<u32> {
        let job = Job::read(&Job::Marks(words.to_vec()).message()).expect("a sound job");
        match operations::answer(job, &mut CoderScratch::default()).expect("a sound job") {
            Answer::Places(places) => places,
            other => panic!("{other:?}"),
        }
    }

    #[test]
    fn each_mark_of_a_word() {
        for place in 0..64 {
            assert_eq!(places_of(&[1 << place]), [place]);
        }
        assert_eq!(places_of(&[1 << 63 | 0b1011]), [0, 1, 3, 63]);
        assert_eq!(places_of(&[u64::MAX]), Vec::from_iter(0..64));
    }

    #[test]
    fn nothing_where_no_mark_is_set() {
        for words in [0, 1, 2, 63, 64, 65, 200] {
            assert_eq!(places_of(&vec![0; words]), []);
        }
    }

    /// Words 63 and 64 are the last of a block and the first of the next.
    #[test]
    fn blocks_follow_one_another() {
        let mut words = vec![0; 130];
        (words[0], words[63], words[64], words[129]) = (2, 1 << 63, 1, 1 << 63);
        assert_eq!(places_of(&words), [1, 4_095, 4_096, 8_319]);
        words.fill(u64::MAX);
        assert_eq!(places_of(&words), Vec::from_iter(0..8_320));
    }
}
