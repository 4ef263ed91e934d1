//! Document 01's packing and tokens, for rows that come from pictures.

pub fn packed(residual: i32) -> u32 {
    let doubled = (residual as u32).wrapping_add(residual as u32);
    if residual >= 0 {
        doubled
    } else {
        u32::MAX - doubled
    }
}

pub fn token(residual: i32) -> u8 {
    let value = packed(residual);
    if value < 16 {
        return value as u8;
    }
    let n = value.ilog2();
    (4 * n + (value >> (n - 2) & 3)) as u8
}
