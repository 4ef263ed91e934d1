//! Reads grey pictures: PGM, binary (P5) or plain (P2), up to 16 bits.

use crate::picture::Picture;
use crate::words::counted;
use std::fmt;

/// The largest grey that the format has.
const LARGEST_MAXVAL: u32 = 65_535;

/// Why bytes are no picture.
#[derive(Debug, Eq, PartialEq)]
pub enum NoPicture {
    /// Neither `P5` nor `P2` at the start.
    Magic,
    /// The header ends before this part of it.
    Missing(&'static str),
    /// Where this part of the header is due, there is no number, or one too large.
    NoNumber(&'static str),
    /// Width or height is 0, or their product is too large.
    Size {
        width: u32,
        height: u32,
    },
    Maxval(u32),
    CutShort {
        pixels: usize,
        found: usize,
    },
    /// What stands at this pixel of a plain picture is no number.
    NoGrey {
        pixel: usize,
    },
    /// This pixel is above the largest grey that the header names.
    Above {
        pixel: usize,
        grey: u32,
        maxval: u32,
    },
    LeftOver {
        bytes: usize,
    },
}

impl fmt::Display for NoPicture {
    fn fmt(&self, f: &mut fmt::Formatter<'_>) -> fmt::Result {
        match self {
            Self::Magic => write!(f, "no PGM picture: it starts with neither P5 nor P2"),
            Self::Missing(part) => write!(f, "the PGM header ends before its {part}"),
            Self::NoNumber(part) => write!(
                f,
                "the {part} in the PGM header is no number from 0 to {}",
                u32::MAX
            ),
            Self::Size { width, height } => {
                write!(f, "a picture of {width} x {height} pixels cannot be read")
            }
            Self::Maxval(maxval) => write!(
                f,
                "the largest grey is {maxval}, not from 1 to {LARGEST_MAXVAL}"
            ),
            Self::CutShort { pixels, found } => {
                write!(f, "cut short: {found} of {pixels} pixels are there")
            }
            Self::NoGrey { pixel } => write!(f, "pixel {pixel} is no number"),
            Self::Above {
                pixel,
                grey,
                maxval,
            } => write!(
                f,
                "pixel {pixel} is {grey}, above the largest grey, {maxval}"
            ),
            Self::LeftOver { bytes } => {
                let left = counted(*bytes, "byte follows", "bytes follow");
                write!(f, "{left} the picture; one picture is due")
            }
        }
    }
}

impl std::error::Error for NoPicture {}

/// Whether these bytes begin as a picture does, whatever follows.
pub fn begins_picture(bytes: &[u8]) -> bool {
    bytes.starts_with(b"P5") || bytes.starts_with(b"P2")
}

/// Reads the one picture that `bytes` hold.
pub fn read(bytes: &[u8]) -> Result<Picture, NoPicture> {
    let mut text = Text { left: bytes };
    let plain = match text.word() {
        Some(b"P2") => true,
        Some(b"P5") => false,
        _ => return Err(NoPicture::Magic),
    };
    let header = Header::read(&mut text)?;
    let pixels = if plain {
        plain_pixels(&mut text, &header)?
    } else {
        binary_pixels(&mut text, &header)?
    };
    text.skip_space();
    match text.left.len() {
        0 => Ok(Picture::new(header.width, pixels)),
        bytes => Err(NoPicture::LeftOver { bytes }),
    }
}

/// What stands before the pixels.
struct Header {
    width: usize,
    pixels: usize,
    maxval: u32,
}

impl Header {
    fn read(text: &mut Text<'_>) -> Result<Self, NoPicture> {
        let width = text.header_number("width")?;
        let height = text.header_number("height")?;
        let maxval = text.header_number("largest grey")?;
        let pixels = (width as usize).checked_mul(height as usize);
        let Some(pixels @ 1..) = pixels else {
            return Err(NoPicture::Size { width, height });
        };
        if !(1..=LARGEST_MAXVAL).contains(&maxval) {
            return Err(NoPicture::Maxval(maxval));
        }
        Ok(Self {
            width: width as usize,
            pixels,
            maxval,
        })
    }

    /// A pixel's value, if it is not above the largest grey.
    fn grey(&self, pixel: usize, grey: u32) -> Result<i32, NoPicture> {
        let maxval = self.maxval;
        if grey > maxval {
            return Err(NoPicture::Above {
                pixel,
                grey,
                maxval,
            });
        }
        Ok(grey as i32)
    }
}

/// Pixels as bytes, or as pairs of bytes with the higher one first, after a single space.
fn binary_pixels(text: &mut Text<'_>, header: &Header) -> Result<Vec<i32>, NoPicture> {
    let wide = header.maxval > 255;
    let each = if wide { 2 } else { 1 };
    let bytes = match text.left {
        [space, bytes @ ..] if space.is_ascii_whitespace() => bytes,
        _ => &[],
    };
    let needed = header.pixels.checked_mul(each);
    let Some((raster, left)) = needed.and_then(|length| bytes.split_at_checked(length)) else {
        return Err(NoPicture::CutShort {
            pixels: header.pixels,
            found: bytes.len() / each,
        });
    };
    text.left = left;
    let grey = |sample: &[u8]| {
        sample
            .iter()
            .fold(0, |grey, &byte| grey << 8 | u32::from(byte))
    };
    let samples = raster.chunks_exact(each).enumerate();
    samples
        .map(|(pixel, sample)| header.grey(pixel, grey(sample)))
        .collect()
}

/// Pixels as numbers in words.
fn plain_pixels(text: &mut Text<'_>, header: &Header) -> Result<Vec<i32>, NoPicture> {
    let mut pixels = Vec::new();
    for pixel in 0..header.pixels {
        let Some(word) = text.word() else {
            return Err(NoPicture::CutShort {
                pixels: header.pixels,
                found: pixel,
            });
        };
        let grey = number(word).ok_or(NoPicture::NoGrey { pixel })?;
        pixels.push(header.grey(pixel, grey)?);
    }
    Ok(pixels)
}

/// Words between spaces and comments.
struct Text<'a> {
    left: &'a [u8],
}

impl<'a> Text<'a> {
    fn skip_space(&mut self) {
        self.left = self.left.trim_ascii_start();
    }

    /// A comment runs from `#` to the end of its line.
    fn skip_space_and_comments(&mut self) {
        self.skip_space();
        while self.left.first() == Some(&b'#') {
            let end = self
                .left
                .iter()
                .position(|&byte| byte == b'\n' || byte == b'\r');
            self.left = &self.left[end.unwrap_or(self.left.len())..];
            self.skip_space();
        }
    }

    /// The next word, or `None` at the end.
    fn word(&mut self) -> Option<&'a [u8]> {
        self.skip_space_and_comments();
        let end = self
            .left
            .iter()
            .position(|byte| byte.is_ascii_whitespace() || *byte == b'#');
        let (word, left) = self.left.split_at(end.unwrap_or(self.left.len()));
        self.left = left;
        (!word.is_empty()).then_some(word)
    }

    fn header_number(&mut self, part: &'static str) -> Result<u32, NoPicture> {
        let word = self.word().ok_or(NoPicture::Missing(part))?;
        number(word).ok_or(NoPicture::NoNumber(part))
    }
}

/// A number in digits alone.
fn number(word: &[u8]) -> Option<u32> {
    let digits = word.iter().all(u8::is_ascii_digit);
    let text = std::str::from_utf8(word).ok().filter(|_| digits)?;
    text.parse().ok()
}
