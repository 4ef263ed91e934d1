//! Residuals packed and made tokens, one after the other: the port by two calls of its C interface each.

use crate::entropy::{pack_signed, uint_encode};
use crate::sheet::Sheet;
use crate::timing::{Run, row_of_items, timed};

/// The sheet's own residuals, and as many of every size.
pub fn tokens(sheet: &Sheet) {
    all(&sheet.res, "the sheet's residuals");
    all(&any_size(sheet.res.len()), "residuals of any size");
}

fn all(residuals: &[i32], which: &str) {
    let name = format!("tokens of {} of {which}, Rust", residuals.len());
    let port = || each(residuals, token_of_port);
    row_of_items(
        &format!("{name} inlined"),
        residuals.len(),
        || each(residuals, |value| uint_encode(pack_signed(value))),
        port,
    );
    row_of_items(
        &format!("{name} behind two calls"),
        residuals.len(),
        || each(residuals, |value| encode(pack(value))),
        port,
    );
}

/// Makes every token; a sum tells the answers apart.
fn each(residuals: &[i32], token: impl Fn(i32) -> (u32, u32, u32)) -> Run<u64> {
    let (time, (), sum) = timed((), |()| {
        residuals.iter().fold(0u64, |sum, &value| {
            let (token, count, bits) = token(value);
            sum.wrapping_mul(31)
                .wrapping_add(u64::from(token) << 40 ^ u64::from(count) << 34 ^ u64::from(bits))
        })
    });
    (time, sum)
}

fn token_of_port(value: i32) -> (u32, u32, u32) {
    let encoding = ostrovuc::uint_encode(ostrovuc::pack_signed(value));
    (encoding.token, encoding.extra_count, encoding.extra_bits)
}

#[inline(never)]
fn pack(value: i32) -> u32 {
    pack_signed(value)
}

#[inline(never)]
fn encode(value: u32) -> (u32, u32, u32) {
    uint_encode(value)
}

/// Residuals of 0 to 31 bits, from a linear congruence.
fn any_size(count: usize) -> Vec<i32> {
    let mut state = 1u64;
    let mut next = || {
        state = state
            .wrapping_mul(6_364_136_223_846_793_005)
            .wrapping_add(1_442_695_040_888_963_407);
        (state >> 32) as u32
    };
    (0..count)
        .map(|_| (next() as i32) >> (next() >> 27))
        .collect()
}
