//! One sheet's rows, as the original holds them and as the port does.

use crate::ma_tree::{MaProperties, MaSamples};
use driver::port::Rows;
use stream::{Learning, PREDICTORS, PROPERTIES};

pub struct Sheet {
    pub props: Vec<[i32; PROPERTIES]>,
    pub tok: Vec<[u8; PREDICTORS]>,
    pub res: Vec<i32>,
    pub alphabet: usize,
    pub logs: &'static [f32],
}

impl Sheet {
    pub fn of(job: &Learning) -> Self {
        Self {
            props: job.properties.as_chunks().0.to_vec(),
            tok: job.tokens.as_chunks().0.to_vec(),
            res: job.residuals.clone(),
            alphabet: job.settings.alphabet as usize,
            logs: job.logarithms.clone().leak(),
        }
    }

    pub fn len(&self) -> usize {
        self.props.len()
    }

    /// The original's rows, in 32 bits as the port's are.
    pub fn wide(&self) -> MaSamples {
        MaSamples {
            props: MaProperties::Wide(self.props.clone()),
            tok: self.tok.clone(),
            val: self.res.clone(),
        }
    }

    /// The original's rows in 16 bits, as it holds them where they fit.
    pub fn narrow(&self) -> MaSamples {
        let mut samples = MaSamples::with_capacity(self.len());
        for (row, (&props, &tok)) in self.props.iter().zip(&self.tok).enumerate() {
            match self.res.get(row) {
                Some(&res) => samples.push_val(props, tok, res),
                None => samples.push(props, tok),
            }
        }
        samples
    }

    pub fn rows(&self) -> Rows {
        Rows {
            props: self.props.as_flattened().to_vec(),
            tok: self.tok.as_flattened().to_vec(),
            res: self.res.clone(),
        }
    }

    /// The middle value of a property.
    pub fn median(&self, prop: usize) -> i32 {
        let mut column: Vec<i32> = self.props.iter().map(|row| row[prop]).collect();
        column.sort_unstable();
        column[column.len() / 2]
    }
}

/// The spans of a sheet, each of so many rows.
pub fn spans(rows: usize, each: usize) -> impl Iterator<Item = (usize, usize)> + Clone {
    (0..rows / each).map(move |k| (k * each, (k + 1) * each))
}
