//! Refusals.

use std::error::Error;
use std::fmt;

/// Why a call was refused: document 01's numbers 1 to 10 and 02's from 11, in this order. Every lent list then reads as
/// before.
#[derive(Clone, Copy, Debug, Eq, PartialEq)]
pub enum Refusal {
    /// A setting is outside its range.
    Settings,
    /// The allowed set, without predictor 6 if the weighted one is off, has none of 0 to 13.
    NoPredictor,
    /// The lists of rows do not fit together, or there are more than 65,536 rows.
    Rows,
    /// A token is not below the alphabet: the lowest such row.
    Token { row: u32 },
    /// Modal offsets on rows with residuals, and the alphabet is below 128.
    ShortAlphabet,
    /// Fewer than rows + 1 logarithms, or one of 1 to rows that is not from 0 to 32.
    Logarithms,
    /// A lent list is too short.
    Room,
    /// The nodes, their depths included, are no sound tree: the lowest node at fault, 0 for a wrong count.
    Tree { node: u32 },
    /// A lookup with other than 24 properties.
    Properties,
    /// A token over 127, or extra bits too large for their count.
    TokenValue,
    /// Symbols that are no tree: cut short or left over, one without the context that is due, a property over 23, a
    /// predictor over 13, a multiplier other than 1, or more than 8,191 nodes.
    Symbols,
}

impl Refusal {
    /// Document 01's number, 1 to 10, or 02's.
    pub const fn number(self) -> u32 {
        match self {
            Self::Settings => 1,
            Self::NoPredictor => 2,
            Self::Rows => 3,
            Self::Token { .. } => 4,
            Self::ShortAlphabet => 5,
            Self::Logarithms => 6,
            Self::Room => 7,
            Self::Tree { .. } => 8,
            Self::Properties => 9,
            Self::TokenValue => 10,
            Self::Symbols => 11,
        }
    }

    /// The row or node that is named, else 0.
    pub const fn place(self) -> u32 {
        match self {
            Self::Token { row } => row,
            Self::Tree { node } => node,
            _ => 0,
        }
    }

    /// `answer` where the number is 0, else the refusal that the number says.
    pub(crate) fn unless_accepted<T>(number: u32, place: u32, answer: T) -> Result<T, Self> {
        let refusal = match number {
            0 => return Ok(answer),
            1 => Self::Settings,
            2 => Self::NoPredictor,
            3 => Self::Rows,
            4 => Self::Token { row: place },
            5 => Self::ShortAlphabet,
            6 => Self::Logarithms,
            7 => Self::Room,
            8 => Self::Tree { node: place },
            9 => Self::Properties,
            10 => Self::TokenValue,
            11 => Self::Symbols,
            other => unreachable!("the library has no refusal {other}"),
        };
        debug_assert_eq!(refusal.place(), place, "0 where nothing is named");
        Err(refusal)
    }
}

impl fmt::Display for Refusal {
    fn fmt(&self, f: &mut fmt::Formatter<'_>) -> fmt::Result {
        f.write_str(match self {
            Self::Settings => "a setting is outside its range",
            Self::NoPredictor => "no predictor is left: the allowed set has none that may be used",
            Self::Rows => {
                "the lists of rows do not fit together, or there are more than 65,536 rows"
            }
            Self::Token { row } => {
                return write!(f, "row {row} has a token that is not below the alphabet");
            }
            Self::ShortAlphabet => {
                "modal offsets on rows with residuals want an alphabet of at least 128"
            }
            Self::Logarithms => {
                "there are fewer than rows + 1 logarithms, or one of them is not from 0 to 32"
            }
            Self::Room => "a lent list is too short",
            Self::Tree { node: 0 } => {
                "the nodes are no sound tree: their count or node 0 is at fault"
            }
            Self::Tree { node } => {
                return write!(f, "the nodes are no sound tree: node {node} is at fault");
            }
            Self::Properties => "a lookup takes exactly 24 properties",
            Self::TokenValue => {
                "the token is over 127, or its extra bits are too large for their count"
            }
            Self::Symbols => {
                "the symbols are no tree: one is missing, left over or outside the rules, \
                 or they make more than 8,191 nodes"
            }
        })
    }
}

impl Error for Refusal {}
