//! Lists of logarithms. Entry 0 is never looked at by anyone.

use crate::rng::Rng;

/// The logarithm to base 2 by repeated squaring: only products, so that every
/// machine gives the same bits.
fn log2(count: usize) -> f64 {
    let whole = count.ilog2();
    let mut rest = count as f64 / f64::from(1u32 << whole);
    let mut log = f64::from(whole);
    let mut weight = 1.0;
    for _ in 0..40 {
        rest *= rest;
        weight /= 2.0;
        if rest >= 2.0 {
            rest /= 2.0;
            log += weight;
        }
    }
    log
}

/// Entries 1 to `rows` by a rule, entry 0 as 0.
fn list(rows: usize, mut entry: impl FnMut(usize) -> f32) -> Vec<f32> {
    let entries = (1..=rows).map(&mut entry);
    std::iter::once(0.0).chain(entries).collect()
}

pub fn true_logs(rows: usize) -> Vec<f32> {
    list(rows, |count| log2(count) as f32)
}

/// To whole multiples of 1/steps: sums of costs then come out exact, and equal
/// costs are common.
pub fn rounded(rows: usize, steps: u32) -> Vec<f32> {
    let steps = f64::from(steps);
    list(rows, |count| ((log2(count) * steps).round() / steps) as f32)
}

pub fn zero(rows: usize) -> Vec<f32> {
    vec![0.0; rows + 1]
}

/// Logarithms need not rise; costs may then be below 0.
pub fn falling(rows: usize) -> Vec<f32> {
    list(rows, |count| 32.0 - 32.0 * count as f32 / (rows + 1) as f32)
}

pub fn random(rng: &mut Rng, rows: usize) -> Vec<f32> {
    list(rows, |_| 32.0 * rng.single())
}

/// One of the lists that a careful caller would lend, or else a strange one.
pub fn any(rng: &mut Rng, rows: usize) -> Vec<f32> {
    match rng.below(12) {
        0 => falling(rows),
        1 => random(rng, rows),
        2 => zero(rows),
        3 | 4 => rounded(rows, rng.pick(&[1, 2, 4, 16])),
        _ => true_logs(rows),
    }
}
