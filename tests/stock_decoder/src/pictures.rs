//! The pictures that are tried.

use ma_learn::pgm;
use ma_learn::picture::Picture;

/// As wide as a group, and of more pixels than a learner takes rows, so that some lines are not learnt from.
const WIDE: (usize, usize) = (1_024, 70);
/// A frame is so many pixels thick.
const THICK: u32 = 8;

/// Each with its name.
pub fn all() -> Vec<(&'static str, Picture)> {
    vec![
        ("digits", digits()),
        ("ramps", drawn((61, 43), ramp)),
        ("frames", drawn(WIDE, frame)),
        ("column", drawn((1, 1_024), ramp)),
    ]
}

/// The bundled sheet.
pub fn digits() -> Picture {
    pgm::read(include_bytes!("../../../sheets/digits.pgm")).expect("the bundled sheet is a picture")
}

fn drawn((width, height): (usize, usize), grey: fn(u32, u32) -> u32) -> Picture {
    let line = |y| (0..width).map(move |x| grey(x as u32, y as u32) as i32);
    Picture::new(width, (0..height).flat_map(line).collect())
}

/// A noisy slope through all greys, over and over: predictors miss by little, and at an edge by as much as can be.
fn ramp(x: u32, y: u32) -> u32 {
    (3 * x + 5 * y + noise(x, y) % 8) % 256
}

/// Frames within frames, with specks.
fn frame(x: u32, y: u32) -> u32 {
    let (right, bottom) = (WIDE.0 as u32 - 1 - x, WIDE.1 as u32 - 1 - y);
    let from_edge = x.min(y).min(right).min(bottom);
    let speck = u32::from(noise(x, y).is_multiple_of(97));
    [20, 90, 160, 21][(from_edge / THICK % 4) as usize] + 60 * speck
}

/// A number with no order that a tree could find.
fn noise(x: u32, y: u32) -> u32 {
    let mixed = (x ^ y.rotate_left(16)).wrapping_mul(0x9e37_79b1);
    (mixed ^ (mixed >> 15)).wrapping_mul(0x85eb_ca77) >> 16
}
