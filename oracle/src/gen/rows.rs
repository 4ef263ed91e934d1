//! Rows: properties, tokens and residuals, in the shapes that the families need.

use crate::rng::Rng;
use stream::{PREDICTORS, PROPERTIES};

pub const EXTREMES: [i32; 9] = [
    i32::MIN,
    i32::MIN + 1,
    i32::MIN / 2,
    -1,
    0,
    1,
    i32::MAX / 2,
    i32::MAX - 1,
    i32::MAX,
];

/// A property that equals another where nothing is negative. The learner skips
/// the second if it was equal in each row.
pub const TWINS: [(usize, usize); 6] = [(4, 6), (5, 7), (16, 17), (18, 19), (20, 21), (22, 23)];

#[derive(Clone, Default)]
pub struct Rows {
    pub properties: Vec<[i32; PROPERTIES]>,
    pub tokens: Vec<[u8; PREDICTORS]>,
    /// One for each row, or none at all.
    pub residuals: Vec<i32>,
}

impl Rows {
    pub fn zeros(rows: usize) -> Self {
        Self {
            properties: vec![[0; PROPERTIES]; rows],
            tokens: vec![[0; PREDICTORS]; rows],
            residuals: Vec::new(),
        }
    }

    pub fn len(&self) -> usize {
        self.properties.len()
    }

    pub fn set_column(&mut self, property: usize, mut value: impl FnMut(usize) -> i32) {
        for (row, properties) in self.properties.iter_mut().enumerate() {
            properties[property] = value(row);
        }
    }

    /// Makes every predictor's token of a row the same.
    pub fn set_tokens(&mut self, mut token: impl FnMut(usize) -> u8) {
        for (row, tokens) in self.tokens.iter_mut().enumerate() {
            tokens.fill(token(row));
        }
    }

    pub fn set_residuals(&mut self, residual: impl FnMut(usize) -> i32) {
        self.residuals = (0..self.len()).map(residual).collect();
    }

    pub fn truncate(&mut self, rows: usize) {
        self.properties.truncate(rows);
        self.tokens.truncate(rows);
        self.residuals.truncate(rows);
    }
}

/// What the values of one property look like.
#[derive(Clone, Copy)]
pub enum Column {
    Constant,
    Small(i32),
    Within(i32),
    /// Values from a range of exactly this many, both ends taken.
    Exactly(i32),
    Extremes,
    RowNumber,
}

impl Column {
    pub fn any(rng: &mut Rng) -> Self {
        match rng.below(8) {
            0 | 1 => Self::Constant,
            2..=4 => Self::Small(rng.within(2..=9)),
            5 => Self::Within(rng.within(10..=400)),
            6 => Self::Within(1 << rng.within(9..=30)),
            _ => Self::RowNumber,
        }
    }

    pub fn fill(self, rng: &mut Rng, rows: &mut Rows, property: usize) {
        let last = rows.len().saturating_sub(1);
        let low = rng.within(-5_000..=5_000);
        rows.set_column(property, |row| match self {
            Self::Constant => low,
            Self::Small(values) => rng.within(0..=values - 1),
            Self::Within(size) => rng.within(-size..=size),
            Self::Exactly(values) => match row {
                0 => low,
                row if row == last => low + values - 1,
                _ => rng.within(low..=low + values - 1),
            },
            Self::Extremes => rng.pick(&EXTREMES),
            Self::RowNumber => row as i32,
        });
    }
}

/// Rows whose tokens hang on some of their properties, so that splits pay.
pub fn structured(rng: &mut Rng, rows: usize, alphabet: u32) -> Rows {
    let mut made = Rows::zeros(rows);
    for property in 0..PROPERTIES {
        Column::any(rng).fill(rng, &mut made, property);
    }
    twin(rng, &mut made);
    tie_tokens(rng, &mut made, alphabet);
    made
}

/// Makes some second twins equal to the first, wholly or but for one row.
pub fn twin(rng: &mut Rng, rows: &mut Rows) {
    for (first, second) in TWINS {
        if rng.one_in(2) {
            for properties in &mut rows.properties {
                properties[second] = properties[first];
            }
            if rows.len() > 0 && rng.one_in(3) {
                let row = rng.below(rows.len());
                rows.properties[row][second] = rows.properties[row][second].wrapping_sub(1);
            }
        }
    }
}

/// A hidden rule: up to three (property, threshold) tests give a row's group.
struct Groups(Vec<(usize, i32)>);

impl Groups {
    fn any(rng: &mut Rng, rows: &Rows) -> Self {
        let tests = if rows.len() == 0 { 0 } else { 1 + rng.below(3) };
        let test = |_| {
            let property = rng.below(PROPERTIES);
            (property, rows.properties[rng.below(rows.len())][property])
        };
        Self((0..tests).map(test).collect())
    }

    fn of(&self, properties: &[i32; PROPERTIES]) -> usize {
        let bit = |(k, &(property, value)): (usize, &(usize, i32))| {
            usize::from(properties[property] > value) << k
        };
        self.0.iter().enumerate().map(bit).sum()
    }
}

/// Gives each row tokens (and a residual) that its group makes likely.
pub fn tie_tokens(rng: &mut Rng, rows: &mut Rows, alphabet: u32) {
    let groups = Groups::any(rng, rows);
    let noise = rng.below(4);
    let usual: Vec<[u8; PREDICTORS]> = (0..8)
        .map(|_| std::array::from_fn(|_| rng.below(alphabet as usize) as u8))
        .collect();
    let modes: [i32; 8] = std::array::from_fn(|_| rng.within(-40..=40));
    rows.residuals.clear();
    for (properties, tokens) in rows.properties.iter().zip(&mut rows.tokens) {
        let group = groups.of(properties);
        for (token, &usual) in tokens.iter_mut().zip(&usual[group]) {
            *token = match rng.below(4) < noise {
                true => rng.below(alphabet as usize) as u8,
                false => usual,
            };
        }
        let spread = if rng.one_in(3) { 30 } else { 1 };
        rows.residuals
            .push(modes[group] + rng.within(-spread..=spread));
    }
}

/// Rows without any rule.
pub fn random(rng: &mut Rng, rows: usize, alphabet: u32) -> Rows {
    let mut made = Rows::zeros(rows);
    for (properties, tokens) in made.properties.iter_mut().zip(&mut made.tokens) {
        *properties = std::array::from_fn(|_| rng.word() as i32);
        *tokens = std::array::from_fn(|_| rng.below(alphabet as usize) as u8);
    }
    made.set_residuals(|_| rng.within(-2_000..=2_000));
    made
}
