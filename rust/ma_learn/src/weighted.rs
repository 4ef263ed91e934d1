//! JPEG XL's weighted predictor with its default parameters: four guesses, each trusted by how well
//! it did on the neighbours. Values have three more bits than pixels.

use crate::picture::Neighbours;

const EXTRA_BITS: u32 = 3;
/// Added before the extra bits are dropped.
const ROUND: i64 = 3;
/// How much the guesses are trusted to begin with.
const TRUST: [u32; 4] = [13, 12, 12, 12];
/// How much of the errors around is taken back by guesses 1, 2 and 3, in parts of 32.
const BACK: [i64; 3] = [16, 10, 7];

/// What was predicted for a pixel, and what its neighbours say of the errors there.
pub struct Prediction {
    /// Predictor 6.
    pub pixel: i32,
    /// Property 15: the neighbours' greatest error, with its sign.
    pub max_error: i32,
    guesses: [i64; 4],
    /// Before the extra bits are dropped.
    exact: i64,
}

/// The errors of the line above and of this one, up to the present pixel.
pub struct Weighted {
    above: Errors,
    here: Errors,
}

/// Of each pixel of a line: the guesses' errors, and the prediction's own.
struct Errors {
    /// An entry also takes in the error of W one line on, so there is one entry more than pixels.
    guesses: Vec<[u32; 4]>,
    own: Vec<i64>,
}

impl Errors {
    fn none(width: usize) -> Self {
        Self {
            guesses: vec![[0; 4]; width + 1],
            own: vec![0; width],
        }
    }
}

/// The neighbours' own errors.
struct OwnErrors {
    w: i64,
    n: i64,
    nw: i64,
    ne: i64,
}

impl OwnErrors {
    /// The greatest error; the first one at a tie.
    fn greatest(&self) -> i64 {
        let later = [self.n, self.nw, self.ne];
        later.into_iter().fold(self.w, |best, error| {
            if error.abs() > best.abs() {
                error
            } else {
                best
            }
        })
    }

    /// Whether W, N and NW all erred to the same side, but not all alike.
    fn agree(&self) -> bool {
        ((self.n ^ self.w) | (self.n ^ self.nw)) > 0
    }
}

impl Weighted {
    pub fn new(width: usize) -> Self {
        Self {
            above: Errors::none(width),
            here: Errors::none(width),
        }
    }

    /// To be called at the start of every line but the first.
    pub fn next_line(&mut self) {
        std::mem::swap(&mut self.above, &mut self.here);
    }

    /// Predicts pixel x of the line.
    pub fn predict(&self, x: usize, around: &Neighbours) -> Prediction {
        let errors = self.own_errors(x);
        let guesses = guesses(around, &errors);
        let average = weighted_average(&guesses, self.weights(x));
        let exact = if errors.agree() {
            average
        } else {
            held(average, around)
        };
        Prediction {
            pixel: ((exact + ROUND) >> EXTRA_BITS) as i32,
            max_error: errors.greatest() as i32,
            guesses,
            exact,
        }
    }

    /// Takes in what pixel x is.
    pub fn learn(&mut self, x: usize, prediction: &Prediction, pixel: i32) {
        let pixel = with_extra_bits(pixel);
        self.here.own[x] = prediction.exact - pixel;
        for (k, guess) in prediction.guesses.iter().enumerate() {
            let error = (((guess - pixel).abs() + ROUND) >> EXTRA_BITS) as u32;
            self.here.guesses[x][k] = error;
            // So the errors at N hold W's too, and those at NW hold WW's.
            self.above.guesses[x + 1][k] += error;
        }
    }

    /// Where NW, N and NE stand in the line above; N instead past an edge.
    fn places(&self, x: usize) -> [usize; 3] {
        let last = self.above.own.len() - 1;
        [x.saturating_sub(1), x, (x + 1).min(last)]
    }

    fn own_errors(&self, x: usize) -> OwnErrors {
        let [nw, n, ne] = self.places(x).map(|place| self.above.own[place]);
        let w = if x > 0 { self.here.own[x - 1] } else { 0 };
        OwnErrors { w, n, nw, ne }
    }

    /// The weight of each guess: less, the more it erred around.
    fn weights(&self, x: usize) -> [u32; 4] {
        let places = self.places(x);
        std::array::from_fn(|k| {
            let error: u32 = places
                .iter()
                .map(|&place| self.above.guesses[place][k])
                .sum();
            error_weight(error, TRUST[k])
        })
    }
}

fn with_extra_bits(pixel: i32) -> i64 {
    i64::from(pixel) << EXTRA_BITS
}

/// The four guesses.
fn guesses(around: &Neighbours, errors: &OwnErrors) -> [i64; 4] {
    let [w, n, ne] = [around.w, around.n, around.ne].map(with_extra_bits);
    let OwnErrors {
        w: error_w,
        n: error_n,
        nw: error_nw,
        ne: error_ne,
    } = *errors;
    [
        w + ne - n,
        n - (((error_n + error_w + error_ne) * BACK[0]) >> 5),
        w - (((error_n + error_w + error_nw) * BACK[1]) >> 5),
        n - (((error_nw + error_n + error_ne) * BACK[2]) >> 5),
    ]
}

/// Held between the least and the greatest of W, N and NE.
fn held(value: i64, around: &Neighbours) -> i64 {
    let Neighbours { w, n, ne, .. } = *around;
    value.clamp(
        with_extra_bits(w.min(n).min(ne)),
        with_extra_bits(w.max(n).max(ne)),
    )
}

/// 2^24 / (k + 1), as the decoder's table of 64 has it.
fn reciprocal(k: u32) -> u32 {
    (1 << 24) / (k + 1)
}

/// Nearly 4 + trust x 2^24 / (error + 1).
fn error_weight(error: u32, trust: u32) -> u32 {
    let shift = (error + 1).ilog2().saturating_sub(5);
    4 + ((trust * reciprocal(error >> shift)) >> shift)
}

/// Nearly the average of the guesses, with weights cut down to four or five bits.
fn weighted_average(guesses: &[i64; 4], weights: [u32; 4]) -> i64 {
    let total: u32 = weights.iter().sum();
    let weights = weights.map(|weight| weight >> (total.ilog2() - 4));
    let total: u32 = weights.iter().sum();
    let half = i64::from(total / 2) - 1;
    let sum = guesses
        .iter()
        .zip(weights)
        .fold(half, |sum, (guess, weight)| sum + guess * i64::from(weight));
    (sum * i64::from(reciprocal(total - 1))) >> 24
}
