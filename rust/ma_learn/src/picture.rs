//! A grey picture, the neighbours of its pixels, and what JPEG XL predicts from them.

/// One channel. Its pixels stand line by line, and there is at least one.
pub struct Picture {
    width: usize,
    pixels: Vec<i32>,
}

impl Picture {
    /// A picture of whole lines; `width` must not be 0.
    pub fn new(width: usize, pixels: Vec<i32>) -> Self {
        assert!(!pixels.is_empty() && pixels.len().is_multiple_of(width));
        Self { width, pixels }
    }

    pub fn width(&self) -> usize {
        self.width
    }

    pub fn height(&self) -> usize {
        self.pixels.len() / self.width
    }

    pub fn at(&self, x: usize, y: usize) -> i32 {
        self.pixels[y * self.width + x]
    }

    /// The neighbours of a pixel. Past an edge they are what the decoder takes instead: W is N in the first column and 0
    /// at the first pixel, N is W in the first line; NW and WW are then W, NE and NN are N, NEE is NE.
    pub fn neighbours(&self, x: usize, y: usize) -> Neighbours {
        let left = |inside: bool, dx: usize, dy: usize, other: i32| {
            if inside {
                self.at(x - dx, y - dy)
            } else {
                other
            }
        };
        let above = |dx: usize, other: i32| {
            if y > 0 && x + dx < self.width {
                self.at(x + dx, y - 1)
            } else {
                other
            }
        };
        let w = left(x > 0, 1, 0, above(0, 0));
        let n = above(0, w);
        let ne = above(1, n);
        Neighbours {
            w,
            n,
            nw: left(x > 0 && y > 0, 1, 1, w),
            ne,
            nn: left(y > 1, 0, 2, n),
            ww: left(x > 1, 2, 0, w),
            nee: above(2, ne),
        }
    }
}

/// The pixels to the left (w), above (n), above left (nw), and so on.
#[derive(Clone, Copy, Debug, Eq, PartialEq)]
pub struct Neighbours {
    pub w: i32,
    pub n: i32,
    pub nw: i32,
    pub ne: i32,
    pub nn: i32,
    pub ww: i32,
    pub nee: i32,
}

impl Neighbours {
    /// W + N - NW, property 9.
    pub fn gradient(&self) -> i32 {
        self.w + self.n - self.nw
    }

    /// The gradient, held between W and N.
    fn clamped_gradient(&self) -> i32 {
        self.gradient()
            .clamp(self.w.min(self.n), self.w.max(self.n))
    }

    /// W or N, whichever lies nearer to the gradient; N if both do.
    fn select(&self) -> i32 {
        let gradient = self.gradient();
        if (gradient - self.w).abs() < (gradient - self.n).abs() {
            self.w
        } else {
            self.n
        }
    }

    fn average4(&self) -> i32 {
        (6 * self.n - 2 * self.nn + 7 * self.w + self.ww + self.nee + 3 * self.ne + 8) / 16
    }

    /// What predictors 0 to 13 say, the weighted one's word given.
    pub fn predictions(&self, weighted: i32) -> [i32; 14] {
        let Self {
            w, n, nw, ne, ww, ..
        } = *self;
        [
            0,
            w,
            n,
            (w + n) / 2,
            self.select(),
            self.clamped_gradient(),
            weighted,
            ne,
            nw,
            ww,
            (w + nw) / 2,
            (n + nw) / 2,
            (n + ne) / 2,
            self.average4(),
        ]
    }
}
