//! Packing and tokens, read back over many values.

use ostrovuc::{Encoding, Refusal, pack_signed, token_value, uint_encode};

/// Small values, those about each power of two, and a million from a multiplicative sequence.
fn values() -> impl Iterator<Item = u32> {
    let powers = (0..32)
        .flat_map(|bit| (0..5).map(move |by| (1u32 << bit).wrapping_add(by).wrapping_sub(2)));
    let spread = (1..=1_000_000u32).map(|k| k.wrapping_mul(2_654_435_769));
    (0..70_000).chain(powers).chain(spread).chain([u32::MAX])
}

/// The signed number that a packed one stands for.
fn unpacked(packed: u32) -> i32 {
    let half = (packed >> 1) as i32;
    if packed.is_multiple_of(2) {
        half
    } else {
        -1 - half
    }
}

#[test]
fn packing_reads_back() {
    for packed in values() {
        assert_eq!(pack_signed(unpacked(packed)), packed);
    }
}

#[test]
fn tokens_read_back() {
    for value in values() {
        let encoding = uint_encode(value);
        assert_eq!(token_value(encoding.token, encoding.extra_bits), Ok(value));
    }
}

#[test]
fn tokens_have_their_extra_bits() {
    for value in values() {
        let Encoding {
            token,
            extra_count,
            extra_bits,
        } = uint_encode(value);
        let due = if token < 16 { 0 } else { token / 4 - 2 };
        assert!(token < 128 && extra_count == due && extra_bits >> extra_count == 0);
    }
}

#[test]
fn every_token_ends_at_its_last_extra_bits() {
    for token in 0..128 {
        let count = if token < 16 { 0 } else { token / 4 - 2 };
        let last = (1u32 << count) - 1;
        assert!(token_value(token, last).is_ok());
        assert_eq!(token_value(token, last + 1), Err(Refusal::TokenValue));
    }
}

#[test]
fn bench_rows() {
    let encoded = |value| {
        let e = uint_encode(value);
        (e.token, e.extra_count, e.extra_bits)
    };
    assert_eq!([encoded(15), encoded(16)], [(15, 0, 0), (16, 2, 0)]);
    assert_eq!(encoded(u32::MAX), (127, 29, 536_870_911));
    let packed = [0, -1, 1, i32::MIN].map(pack_signed);
    assert_eq!(packed, [0, 1, 2, u32::MAX]);
}
