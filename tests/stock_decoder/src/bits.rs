//! Bits as JPEG XL has them: the lowest of a number first, into bytes from the lowest bit up.

/// One of the four ways to write a `U32`: in so many bits, after this was taken off.
pub type Range = (u32, u32);

/// Bits that are being written.
#[derive(Default)]
pub struct Bits {
    bytes: Vec<u8>,
    /// How many bits of the last byte are taken; 0 if all are.
    taken: u32,
}

impl Bits {
    /// A number of so many bits.
    pub fn u(&mut self, width: u32, value: u32) {
        assert!(value.checked_shr(width).is_none_or(|over| over == 0));
        for place in 0..width {
            self.push((value >> place) & 1);
        }
    }

    pub fn bool(&mut self, value: bool) {
        self.u(1, value.into());
    }

    /// The number of the first range that has the value, and the value's place in it.
    pub fn u32(&mut self, ranges: [Range; 4], value: u32) {
        let has = |&(width, least): &Range| value >= least && (value - least) >> width == 0;
        let chosen = ranges.iter().position(has).expect("some range has it");
        let (width, least) = ranges[chosen];
        self.u(2, chosen as u32);
        self.u(width, value - least);
    }

    /// A code's word, of which the highest bit comes first.
    pub fn word(&mut self, width: u32, word: u32) {
        for place in (0..width).rev() {
            self.push((word >> place) & 1);
        }
    }

    /// Zeros up to the next byte.
    pub fn pad(&mut self) {
        self.taken = 0;
    }

    /// Whole bytes, after padding.
    pub fn bytes(&mut self, bytes: &[u8]) {
        assert_eq!(self.taken, 0);
        self.bytes.extend_from_slice(bytes);
    }

    pub fn into_bytes(self) -> Vec<u8> {
        self.bytes
    }

    fn push(&mut self, bit: u32) {
        if self.taken == 0 {
            self.bytes.push(0);
        }
        if let Some(last) = self.bytes.last_mut() {
            *last |= (bit as u8) << self.taken;
        }
        self.taken = (self.taken + 1) % 8;
    }
}
