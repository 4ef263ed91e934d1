//! A picture's pixels as the rows of a job: properties, tokens and residuals, as an encoder of a
//! single grey channel in one group has them.

use crate::picture::{Neighbours, Picture};
use crate::weighted::Weighted;
use ostrovuc::{pack_signed, uint_encode};
use stream::{PREDICTORS, PROPERTIES};

/// Rows in flat lists.
#[derive(Default)]
pub struct Rows {
    pub properties: Vec<i32>,
    pub tokens: Vec<u8>,
    pub residuals: Vec<i32>,
}

/// The rows of all pixels in the lines named, which ascend.
pub fn of_lines(picture: &Picture, lines: &[u32]) -> Rows {
    let mut rows = Rows::default();
    let mut weighted = Weighted::new(picture.width());
    let mut lines = lines.iter().peekable();
    for y in 0..picture.height() {
        let taken = lines.next_if(|&&line| line as usize == y).is_some();
        let line = line_rows(picture, y, &mut weighted);
        // The weighted predictor sees every line, taken or not.
        for row in line.into_iter().filter(|_| taken) {
            rows.push(&row);
        }
        weighted.next_line();
    }
    rows
}

/// One pixel's part.
struct Row {
    properties: [i32; PROPERTIES],
    tokens: [u8; PREDICTORS],
    residual: i32,
}

impl Rows {
    fn push(&mut self, row: &Row) {
        self.properties.extend_from_slice(&row.properties);
        self.tokens.extend_from_slice(&row.tokens);
        self.residuals.push(row.residual);
    }
}

/// The rows of one line.
fn line_rows(picture: &Picture, y: usize, weighted: &mut Weighted) -> Vec<Row> {
    let mut gradient_before = 0;
    let row = |x| {
        let around = picture.neighbours(x, y);
        let pixel = picture.at(x, y);
        let prediction = weighted.predict(x, &around);
        weighted.learn(x, &prediction, pixel);
        let mut properties = own_properties(x, y, &around, gradient_before);
        properties[15] = prediction.max_error;
        gradient_before = around.gradient();
        let residuals = around
            .predictions(prediction.pixel)
            .map(|predicted| pixel - predicted);
        Row {
            properties,
            tokens: residuals.map(token),
            residual: residuals[0],
        }
    };
    (0..picture.width()).map(row).collect()
}

/// Properties 0 to 14. Channel and stream are 0, and so is what there is of channels before.
fn own_properties(
    x: usize,
    y: usize,
    around: &Neighbours,
    gradient_before: i32,
) -> [i32; PROPERTIES] {
    let Neighbours {
        w,
        n,
        nw,
        ne,
        nn,
        ww,
        ..
    } = *around;
    let mut properties = [0; PROPERTIES];
    properties[2..15].copy_from_slice(&[
        y as i32,
        x as i32,
        n.abs(),
        w.abs(),
        n,
        w,
        w - gradient_before,
        around.gradient(),
        w - nw,
        nw - n,
        n - ne,
        n - nn,
        w - ww,
    ]);
    properties
}

/// The token of a residual. No 32-bit value has one above 127.
fn token(residual: i32) -> u8 {
    uint_encode(pack_signed(residual)).token as u8
}
