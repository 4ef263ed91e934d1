//! A JPEG XL codestream of one frame with one grey channel of 8 bits, in one group: its headers, then the tree and
//! the data. Fields stand in the order of ISO/IEC 18181-1; the notes say what is chosen.

use crate::bits::{Bits, Range};
use crate::codes::Codes;
use ostrovuc::{Symbol, SymbolContext};

/// The largest group has so many pixels each way. A larger picture would be cut into several.
pub const MOST_PIXELS: usize = 1_024;

const SIZE: [Range; 4] = [(9, 1), (13, 1), (18, 1), (30, 1)];
const DEPTH: [Range; 4] = [(0, 8), (0, 10), (0, 12), (6, 1)];
const ENUM: [Range; 4] = [(0, 0), (0, 1), (4, 2), (6, 18)];
const SECTION: [Range; 4] = [(10, 0), (14, 1_024), (22, 17_408), (30, 4_211_712)];

/// What is transmitted of a picture.
pub struct Picture {
    pub width: usize,
    pub height: usize,
    /// Of the tree.
    pub leaves: usize,
    /// The tree.
    pub symbols: Vec<Symbol>,
    /// For each pixel, line by line, its leaf's context and its packed residual.
    pub residuals: Vec<Symbol>,
}

impl Picture {
    /// The whole file.
    pub fn codestream(&self) -> Vec<u8> {
        let section = self.section();
        let mut bits = Bits::default();
        bits.bytes(&[0xff, 0x0a]);
        self.write_size(&mut bits);
        write_metadata(&mut bits);
        write_frame_header(&mut bits);
        bits.bool(false); // The sections stand in order.
        bits.pad();
        bits.u32(SECTION, section.len() as u32);
        bits.pad();
        bits.bytes(&section);
        bits.into_bytes()
    }

    fn write_size(&self, bits: &mut Bits) {
        assert!(
            self.width <= MOST_PIXELS && self.height <= MOST_PIXELS,
            "one group"
        );
        bits.bool(false); // No number of eights.
        bits.u32(SIZE, self.height as u32);
        bits.u(3, 0); // The width follows, and is not told by a ratio.
        bits.u32(SIZE, self.width as u32);
    }

    /// The one section: tree and data, each with its codes.
    fn section(&self) -> Vec<u8> {
        let tree = Codes::of(SymbolContext::ALL.len(), &self.symbols);
        let data = Codes::of(self.leaves, &self.residuals);
        let mut bits = Bits::default();
        bits.bool(true); // Default dequantisation, of which there is none.
        bits.bool(true); // There is a tree for all groups.
        tree.write_header(&mut bits);
        tree.write_pairs(&mut bits, &self.symbols);
        data.write_header(&mut bits);
        bits.bool(true); // This group uses that tree.
        bits.bool(true); // Default parameters of the weighted predictor.
        bits.u(2, 0); // No transforms.
        data.write_pairs(&mut bits, &self.residuals);
        bits.into_bytes()
    }
}

/// Of the picture: depth and colour.
fn write_metadata(bits: &mut Bits) {
    bits.bool(false); // Not all default.
    bits.bool(false); // No preview, animation, orientation.
    bits.bool(false); // Whole numbers ..
    bits.u32(DEPTH, 8); // .. of 8 bits.
    bits.bool(true); // Buffers of 16 bits are enough.
    bits.u(2, 0); // No extra channels.
    bits.bool(false); // Not XYB.
    bits.bool(false); // The colours are not the default,
    bits.bool(false); // no ICC profile,
    bits.u32(ENUM, 1); // but grey,
    bits.u32(ENUM, 1); // white D65,
    bits.bool(false); // no gamma,
    bits.u32(ENUM, 13); // but the curve of sRGB,
    bits.u32(ENUM, 1); // relative intent.
    bits.u(2, 0); // No extensions.
    bits.bool(true); // Default transform.
    bits.pad();
}

fn write_frame_header(bits: &mut Bits) {
    bits.bool(false); // Not all default.
    bits.u(2, 0); // A regular frame,
    bits.u(1, 1); // modular,
    bits.u(2, 0); // without flags,
    bits.bool(false); // no YCbCr,
    bits.u(2, 0); // not upsampled,
    bits.u(2, 3); // groups of 1,024 pixels each way,
    bits.u(2, 0); // one pass,
    bits.bool(false); // not cropped,
    bits.u(2, 0); // not blended,
    bits.bool(true); // the last one,
    bits.u(2, 0); // without a name.
    bits.bool(false); // The filters are not the default:
    bits.bool(false); // no Gaborish,
    bits.u(2, 0); // no edges kept,
    bits.u(2, 0); // no extensions there,
    bits.u(2, 0); // and none here.
}
