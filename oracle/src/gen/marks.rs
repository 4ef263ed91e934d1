//! Families of the probe's marks: words of them, and columns whose probed values lie about their edges. Both go turn by
//! turn through all that they have, so that the first few hundred jobs show it.

use crate::At;
use crate::rng::Rng;
use stream::{Job, MARKS};

/// No word, one word with each single mark, then words of each length and shape, as they come and ending in zeros.
pub fn marks(at: At) -> Job {
    let turn = at.index as usize % (1 + MARKS + 2 * LISTS);
    Job::Marks(match turn {
        0 => Vec::new(),
        1..=MARKS => vec![1 << (turn - 1)],
        _ => shaped(&mut at.rng(), turn - MARKS - 1),
    })
}

/// The longest has places above 65,535.
const LENGTHS: [usize; 8] = [1, 2, 63, 64, 65, 129, 300, 1_025];
const LISTS: usize = LENGTHS.len() * SHAPES.len();

/// The word at a place of the list.
type Shape = fn(&mut Rng, usize) -> u64;

const SHAPES: [Shape; 9] = [
    |_, _| 0,
    |_, _| u64::MAX,
    |_, at| [1 << 63, 0][at % 2],
    |_, at| [1, 0][at % 2],
    |_, at| [1 << 63, 1][at % 2],
    // The lowest set mark is high.
    |rng, _| (rng.next() | 1) << (40 + rng.below(24)),
    // Three marks of four, one of sixteen.
    |rng, _| rng.next() | rng.next(),
    |rng, _| rng.next() & rng.next() & rng.next() & rng.next(),
    // One mark, and in few words.
    |rng, _| u64::from(rng.one_in(5)) << rng.below(MARKS),
];

fn shaped(rng: &mut Rng, turn: usize) -> Vec<u64> {
    let length = LENGTHS[turn % LENGTHS.len()];
    let shape = SHAPES[turn / LENGTHS.len() % SHAPES.len()];
    let mut words: Vec<u64> = (0..length).map(|at| shape(rng, at)).collect();
    if turn >= LISTS {
        words[rng.below(length)..].fill(0);
    }
    words
}

/// The highest probed value less the lowest. One word has marks for 63, all of them for 4,095.
#[rustfmt::skip]
const RANGES: [u32; 13] = [0, 1, 63, 64, 255, 256, 4_000, 4_094, 4_095, 4_096, 4_097, 65_536, u32::MAX];
/// Of fewer than 32 values none is marked; no column has more than 2,047 probed.
const COUNTS: [usize; 5] = [31, 32, 33, 40, 2_047];

/// How far the value of a row is from the lowest, to be held to the range.
type Spread = fn(&mut Rng, i64, i64) -> i64;

const SPREADS: [Spread; 7] = [
    |rng, _, range| rng.below(range as usize + 1) as i64,
    // Two values, five values.
    |rng, _, range| range * rng.below(2) as i64,
    |rng, _, range| range / 4 * rng.below(5) as i64,
    // One after the other, every second one.
    |_, row, _| row,
    |_, row, _| 2 * row,
    // Each word's first mark, each word's last.
    |_, row, _| 64 * row,
    |_, row, _| 64 * row + 63,
];

/// Ranges, counts, spreads and four places of the lowest value, by turns. No two of their numbers have a divisor in
/// common, so each of one comes with each of every other.
pub fn probes(at: At) -> Job {
    let mut rng = at.rng();
    let turn = at.index as usize;
    let range = i64::from(RANGES[turn % RANGES.len()]);
    let count = COUNTS[turn % COUNTS.len()];
    let spread = SPREADS[turn % SPREADS.len()];
    let (lowest, highest) = (i64::from(i32::MIN), i64::from(i32::MAX) - range);
    let low = match turn % 4 {
        0 => lowest,
        1 => highest,
        2 => (-range / 2).min(highest),
        _ => rng.within(i32::MIN..=highest as i32).into(),
    };
    let mut value = |row| low + spread(&mut rng, row, range) % (range + 1);
    let mut column: Vec<i32> = (0..count as i64).map(|row| value(row) as i32).collect();
    (column[0], column[1]) = (low as i32, (low + range) as i32);
    rng.shuffle(&mut column);
    Job::Candidates(column, rng.pick(&[1, 8, 31, 32, 32, u32::MAX]))
}
