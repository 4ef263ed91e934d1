//! Digit sheets: seven-segment displays as a camera or a font renderer gives
//! them, in three channels, with the properties and predictors of a modular
//! JPEG XL picture.

use crate::rng::Rng;
use crate::rows::Rows;
use crate::tokens::token;
use stream::{PREDICTORS, PROPERTIES};

const CELL_WIDTH: usize = 14;
const CELL_HEIGHT: usize = 22;
const CHANNELS: usize = 3;

/// Segments a (top) to g (middle) of each digit, lowest bit first.
const SEGMENTS: [u8; 10] = [0x3f, 0x06, 0x5b, 0x4f, 0x66, 0x6d, 0x7d, 0x07, 0x7f, 0x6f];

/// Where a segment lies in its cell: columns and rows, ends included.
const PLACES: [[usize; 4]; 7] = [
    [3, 10, 2, 3],
    [10, 11, 4, 9],
    [10, 11, 12, 17],
    [3, 10, 18, 19],
    [2, 3, 12, 17],
    [2, 3, 4, 9],
    [3, 10, 10, 11],
];

/// One channel of the sheet.
struct Plane {
    width: usize,
    pixels: Vec<i32>,
}

/// A pixel's neighbours, with the borders filled in as the decoder does.
struct Around {
    w: i32,
    n: i32,
    nw: i32,
    ne: i32,
    nn: i32,
    ww: i32,
    nee: i32,
}

impl Plane {
    fn at(&self, x: usize, y: usize) -> i32 {
        self.pixels[y * self.width + x]
    }

    fn around(&self, x: usize, y: usize) -> Around {
        let w = match (x, y) {
            (0, 0) => 0,
            (0, _) => self.at(x, y - 1),
            _ => self.at(x - 1, y),
        };
        let n = if y > 0 { self.at(x, y - 1) } else { w };
        let above = |dx: usize, other| match y > 0 && x + dx < self.width {
            true => self.at(x + dx, y - 1),
            false => other,
        };
        let ne = above(1, n);
        Around {
            nw: if x > 0 && y > 0 {
                self.at(x - 1, y - 1)
            } else {
                w
            },
            nn: if y > 1 { self.at(x, y - 2) } else { n },
            ww: if x > 1 { self.at(x - 2, y) } else { w },
            nee: above(2, ne),
            w,
            n,
            ne,
        }
    }
}

impl Around {
    fn gradient(&self) -> i32 {
        self.w + self.n - self.nw
    }

    fn clamped_gradient(&self) -> i32 {
        let (low, high) = (self.w.min(self.n), self.w.max(self.n));
        self.gradient().clamp(low, high)
    }

    fn select(&self) -> i32 {
        let gradient = self.gradient();
        if (gradient - self.w).abs() < (gradient - self.n).abs() {
            self.w
        } else {
            self.n
        }
    }

    /// Decoder predictors 0 to 13, the weighted one given.
    fn predictions(&self, weighted: i32) -> [i32; PREDICTORS] {
        let Self {
            w,
            n,
            nw,
            ne,
            nn,
            ww,
            nee,
        } = *self;
        [
            0,
            w,
            n,
            (w + n) / 2,
            self.select(),
            self.clamped_gradient(),
            weighted,
            ne,
            nw,
            ww,
            (w + nw) / 2,
            (n + nw) / 2,
            (n + ne) / 2,
            (6 * n - 2 * nn + 7 * w + ww + nee + 3 * ne + 8) / 16,
        ]
    }

    /// What the weighted predictor weighs.
    fn sub_predictions(&self) -> [i32; 4] {
        [
            self.w + self.ne - self.n,
            self.n,
            self.w,
            2 * self.n - self.nn,
        ]
    }
}

/// A plain weighted predictor: four guesses, each trusted by how well it did
/// on the neighbours.
struct Weighted {
    width: usize,
    /// For each pixel so far: every guess's error, and the error of the whole.
    errors: Vec<([i32; 4], i32)>,
}

impl Weighted {
    fn neighbours(&self, x: usize) -> impl Iterator<Item = &([i32; 4], i32)> {
        let here = self.errors.len();
        let back = [
            (x > 0).then_some(1),
            Some(self.width),
            (x > 0).then_some(self.width + 1),
            (x + 1 < self.width).then_some(self.width - 1),
        ];
        let place = move |back: usize| here.checked_sub(back);
        back.into_iter()
            .flatten()
            .filter_map(place)
            .filter_map(|at| self.errors.get(at))
    }

    fn predict(&self, around: &Around, x: usize) -> i32 {
        let mut total = 0;
        let mut weights = 0;
        for (guess, prediction) in around.sub_predictions().into_iter().enumerate() {
            let error: i32 = self
                .neighbours(x)
                .map(|(errors, _)| errors[guess].abs())
                .sum();
            let weight = (1 << 16) / i64::from(error + 1);
            total += weight * i64::from(prediction);
            weights += weight;
        }
        (total / weights.max(1)) as i32
    }

    /// Property 15: the neighbours' greatest error.
    fn property(&self, x: usize) -> i32 {
        let errors = self.neighbours(x).map(|&(_, error)| error);
        errors.max_by_key(|error| error.abs()).unwrap_or(0)
    }

    fn learn(&mut self, around: &Around, prediction: i32, pixel: i32) {
        let errors = around.sub_predictions().map(|guess| guess - pixel);
        self.errors.push((errors, prediction - pixel));
    }
}

/// How a sheet looks.
struct Look {
    dark: i32,
    unlit: i32,
    lit: i32,
    noise: i32,
    slope: i32,
}

impl Look {
    fn any(rng: &mut Rng) -> Self {
        Self {
            dark: rng.within(0..=40),
            unlit: rng.within(41..=80),
            lit: rng.within(150..=250),
            noise: rng.pick(&[0, 1, 2, 3, 6]),
            slope: rng.within(0..=3),
        }
    }
}

/// How much of a pixel lies on a lit (2), unlit (1) or no segment (0).
fn segment_at(digit: u8, x: usize, y: usize) -> usize {
    let covers = |place: &[usize; 4]| {
        (place[0]..=place[1]).contains(&x) && (place[2]..=place[3]).contains(&y)
    };
    match PLACES.iter().position(covers) {
        None => 0,
        Some(segment) => 1 + usize::from(digit >> segment & 1),
    }
}

/// The sheet's channels: brightness, a dim glow that follows it, and the mask
/// of lit segments.
fn planes(rng: &mut Rng, width: usize, height: usize) -> [Plane; CHANNELS] {
    let look = Look::any(rng);
    let cells = (width / CELL_WIDTH + 1) * (height / CELL_HEIGHT + 1);
    let digits: Vec<u8> = (0..cells).map(|_| rng.pick(&SEGMENTS)).collect();
    let mut pixels = [const { Vec::new() }; CHANNELS];
    for (y, x) in (0..height).flat_map(|y| (0..width).map(move |x| (y, x))) {
        let cell = y / CELL_HEIGHT * (width / CELL_WIDTH + 1) + x / CELL_WIDTH;
        let level = segment_at(digits[cell], x % CELL_WIDTH, y % CELL_HEIGHT);
        let base = [look.dark, look.unlit, look.lit][level];
        let shade = base + look.slope * (x + y) as i32 / 16 + rng.within(-look.noise..=look.noise);
        let glow = shade / 4 + rng.within(0..=look.noise);
        let mask = if level == 2 { 7 } else { 0 };
        for (plane, value) in pixels.iter_mut().zip([shade, glow, mask]) {
            plane.push(value);
        }
    }
    pixels.map(|pixels| Plane { width, pixels })
}

/// Properties 0 to 14 of a pixel.
fn own_properties(channel: usize, x: usize, y: usize, plane: &Plane) -> [i32; 15] {
    let around = plane.around(x, y);
    let Around {
        w,
        n,
        nw,
        ne,
        nn,
        ww,
        ..
    } = around;
    let before = if x > 0 {
        plane.around(x - 1, y).gradient()
    } else {
        0
    };
    [
        channel as i32,
        (x / 64 + y / 64) as i32,
        y as i32,
        x as i32,
        n.abs(),
        w.abs(),
        n,
        w,
        w - before,
        around.gradient(),
        w - nw,
        nw - n,
        n - ne,
        n - nn,
        w - ww,
    ]
}

/// Four properties from a channel coded before.
fn reference_properties(plane: &Plane, x: usize, y: usize) -> [i32; 4] {
    let value = plane.at(x, y);
    let beside = value - plane.around(x, y).clamped_gradient();
    [value.abs(), value, beside.abs(), beside]
}

fn row_properties(planes: &[Plane], channel: usize, x: usize, y: usize) -> [i32; PROPERTIES] {
    let mut properties = [0; PROPERTIES];
    properties[..15].copy_from_slice(&own_properties(channel, x, y, &planes[channel]));
    for back in 1..=channel.min(2) {
        let four = reference_properties(&planes[channel - back], x, y);
        properties[12 + 4 * back..][..4].copy_from_slice(&four);
    }
    properties
}

/// All pixels of one channel as rows.
fn push_channel(rows: &mut Rows, planes: &[Plane], channel: usize) {
    let plane = &planes[channel];
    let mut weighted = Weighted {
        width: plane.width,
        errors: Vec::with_capacity(plane.pixels.len()),
    };
    for (i, &pixel) in plane.pixels.iter().enumerate() {
        let (x, y) = (i % plane.width, i / plane.width);
        let around = plane.around(x, y);
        let guess = weighted.predict(&around, x);
        let mut properties = row_properties(planes, channel, x, y);
        properties[15] = weighted.property(x);
        rows.properties.push(properties);
        let residuals = around
            .predictions(guess)
            .map(|prediction| pixel - prediction);
        rows.tokens.push(residuals.map(token));
        rows.residuals.push(pixel);
        weighted.learn(&around, guess, pixel);
    }
}

/// A sheet of exactly so many rows: three channels of a nearly square picture,
/// the last one cut short.
pub fn sheet(rng: &mut Rng, size: usize) -> Rows {
    let area = size.div_ceil(CHANNELS);
    let width = area.isqrt().max(1);
    let planes = planes(rng, width, area.div_ceil(width));
    let mut rows = Rows::default();
    for channel in 0..CHANNELS {
        push_channel(&mut rows, &planes, channel);
    }
    rows.truncate(size);
    rows
}
