//! The few rules of document 01 that the promises speak of, written down once
//! more and plainly.

use crate::{Checked, ensure};
use std::collections::BTreeMap;
use std::ops::Range;
use stream::{Learned, Learning, PREDICTORS, PROPERTIES, Record, Span};

/// Twice the number, or as much below 0 as that is odd.
pub fn packed(value: i64) -> u64 {
    let packed = if value >= 0 {
        2 * value
    } else {
        -2 * value - 1
    };
    packed as u64
}

/// Packing's inverse.
pub fn unpacked(value: u32) -> i32 {
    let half = (value / 2) as i32;
    if value.is_multiple_of(2) {
        half
    } else {
        -half - 1
    }
}

/// The value of a token with its extra bits, and how many those are.
pub fn read_token(token: u32, extra: u32) -> (u64, u32) {
    if token < 16 {
        return (u64::from(token), 0);
    }
    let bits = token / 4 - 2;
    let value = u64::from(4 + token % 4) * (1 << bits) + u64::from(extra);
    (value, bits)
}

/// The zero predictor's token of a residual against a mode: the token below
/// whose successor's first value the packed difference lies.
pub fn zero_token(residual: i32, mode: i32) -> u8 {
    let packed = packed(i64::from(residual) - i64::from(mode));
    let first = |token: u32| read_token(token, 0).0;
    (0..128)
        .rfind(|&token| first(token) <= packed)
        .expect("token 0 starts at 0") as u8
}

/// The commonest residual, the smallest at a tie; 0 for none and for a range over 4,096.
pub fn mode(residuals: &[i32]) -> i32 {
    let mut counts = BTreeMap::new();
    for &residual in residuals {
        *counts.entry(residual).or_insert(0) += 1;
    }
    let (Some((&low, _)), Some((&high, _))) = (counts.first_key_value(), counts.last_key_value())
    else {
        return 0;
    };
    if i64::from(high) - i64::from(low) + 1 > 4_096 {
        return 0;
    }
    // The last of the greatest, so the smallest residual, counted from the back.
    let commonest = counts.iter().rev().max_by_key(|&(_, &count)| count);
    *commonest.expect("there are residuals").0
}

/// Whether nodes make up one tree with its depths, as documents 01 and 02 want it of a seed.
pub fn is_sound(nodes: &[Record]) -> bool {
    is_tree(nodes) && depths_are_stored(nodes).is_ok()
}

/// Whether nodes make up one tree, whatever depths they store.
pub fn is_tree(nodes: &[Record]) -> bool {
    let mut parents = vec![0; nodes.len()];
    for (i, node) in nodes.iter().enumerate() {
        if !node.is_split() {
            if node.pred > 13 {
                return false;
            }
            continue;
        }
        let (gt, le) = (node.gt as usize, node.le as usize);
        if node.prop > 23 || gt == le || gt.min(le) <= i || gt.max(le) >= nodes.len() {
            return false;
        }
        parents[gt] += 1;
        parents[le] += 1;
    }
    nodes.len() % 2 == 1 && parents[0] == 0 && parents[1..].iter().all(|&count| count == 1)
}

/// "Equal to the distance from the root": each node of a tree stores how many splits stand above it.
pub fn depths_are_stored(tree: &[Record]) -> Checked {
    let mut due = vec![0; tree.len()];
    for (at, node) in tree.iter().enumerate() {
        let (stored, due_here) = (node.depth, due[at]);
        ensure(
            stored == due_here,
            format_args!("node {at} stores depth {stored}, and not {due_here}"),
        )?;
        if node.is_split() {
            due[node.gt as usize] = due_here + 1;
            due[node.le as usize] = due_here + 1;
        }
    }
    Ok(())
}

/// The leaf that a row's lookup reaches; what is wrong on the way, if something is.
pub fn lookup(tree: &[Record], properties: &[i32; PROPERTIES]) -> Checked<usize> {
    let mut at = 0;
    loop {
        let broken = || format!("a lookup breaks off at node {at}");
        let node = tree.get(at).ok_or_else(broken)?;
        if !node.is_split() {
            return if node.pred <= 13 {
                Ok(at)
            } else {
                Err(broken())
            };
        }
        let (gt, le) = (node.gt as usize, node.le as usize);
        let is_child = |child: usize| child > at && child < tree.len();
        let property = properties.get(node.prop as usize).ok_or_else(broken)?;
        if !is_child(gt) || !is_child(le) {
            return Err(broken());
        }
        at = if *property > node.val { gt } else { le };
    }
}

/// The places of a span, if they are places.
pub fn places(span: Span, rows: usize) -> Option<Range<usize>> {
    let (first, end) = (span.first as usize, span.end as usize);
    (first <= end && end <= rows).then_some(first..end)
}

/// The three lists that rows are made of.
#[derive(Clone, Copy)]
pub struct Rows<'a> {
    pub properties: &'a [i32],
    pub tokens: &'a [u8],
    pub residuals: &'a [i32],
}

#[derive(Clone, Copy, Debug, Eq, Ord, PartialEq, PartialOrd)]
pub struct Row {
    pub properties: [i32; PROPERTIES],
    pub tokens: [u8; PREDICTORS],
    pub residual: Option<i32>,
}

impl<'a> Rows<'a> {
    pub fn handed_in(job: &'a Learning) -> Self {
        Self {
            properties: &job.properties,
            tokens: &job.tokens,
            residuals: &job.residuals,
        }
    }

    pub fn after(answer: &'a Learned) -> Self {
        Self {
            properties: &answer.properties,
            tokens: &answer.tokens,
            residuals: &answer.residuals,
        }
    }

    pub fn count(&self) -> usize {
        self.properties.len() / PROPERTIES
    }

    /// Each list has its share for every row.
    fn is_whole(&self) -> bool {
        self.properties.len() == PROPERTIES * self.count()
            && self.tokens.len() == PREDICTORS * self.count()
            && [0, self.count()].contains(&self.residuals.len())
    }

    /// Both are whole, and have as many rows.
    pub fn fit(&self, other: &Self) -> bool {
        let all_whole = self.is_whole() && other.is_whole();
        all_whole && self.count() == other.count() && self.residuals.len() == other.residuals.len()
    }

    pub fn row(&self, place: usize) -> Row {
        Row {
            properties: self.properties.as_chunks().0[place],
            tokens: self.tokens.as_chunks().0[place],
            residual: self.residuals.get(place).copied(),
        }
    }

    /// The row as rows are matched: by all, or by all but the zero-predictor token.
    pub fn matched(&self, place: usize, but_zero: bool) -> Row {
        let mut row = self.row(place);
        if but_zero {
            row.tokens[0] = 0;
        }
        row
    }

    /// The rows at these places, as they are matched, in one order whatever theirs.
    pub fn sorted(&self, places: Range<usize>, but_zero: bool) -> Vec<Row> {
        let mut rows: Vec<Row> = places.map(|place| self.matched(place, but_zero)).collect();
        rows.sort_unstable();
        rows
    }
}
