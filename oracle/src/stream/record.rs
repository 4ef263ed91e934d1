//! A node with what stands beside it and its depth, its span, and the lent list of nodes.

use crate::wire::{Reader, Result, Wire, damaged, wire_struct};

/// One node, what stands beside it, and its depth. Kind and cost are kept as they travel, the
/// cost as its bit pattern: unchanged entries must come back bit for bit, whatever
/// they hold.
#[derive(Clone, Copy, Debug, Eq, PartialEq)]
pub struct Record {
    /// `Record::SPLIT` for a split; any other number is a leaf.
    pub kind: u32,
    pub prop: u32,
    pub val: i32,
    pub gt: u32,
    pub le: u32,
    pub cost: u32,
    pub pred: u32,
    pub offset: i32,
    /// How many splits stand above it.
    pub depth: u32,
}

wire_struct!(Record {
    kind,
    prop,
    val,
    gt,
    le,
    cost,
    pred,
    offset,
    depth
});

impl Record {
    /// The kind that is written for a leaf.
    pub const LEAF: u32 = 0;
    pub const SPLIT: u32 = 1;

    /// What pruning leaves in an entry that it vacates.
    pub const BLANK: Self = Self::leaf(0, 0);

    pub const fn is_split(&self) -> bool {
        self.kind == Self::SPLIT
    }

    pub const fn leaf(pred: u32, offset: i32) -> Self {
        Self {
            kind: Self::LEAF,
            prop: 0,
            val: 0,
            gt: 0,
            le: 0,
            cost: 0,
            pred,
            offset,
            depth: 0,
        }
    }

    pub const fn split(prop: u32, val: i32, gt: u32, le: u32) -> Self {
        Self {
            kind: Self::SPLIT,
            prop,
            val,
            gt,
            le,
            cost: 0,
            pred: 0,
            offset: 0,
            depth: 0,
        }
    }

    pub fn with_cost(self, cost: f32) -> Self {
        Self {
            cost: cost.to_bits(),
            ..self
        }
    }

    pub const fn at_depth(self, depth: u32) -> Self {
        Self { depth, ..self }
    }

    /// What an entry holds beforehand where the job gives none.
    fn pattern(v: u32) -> Self {
        Self {
            kind: v % 2,
            prop: v % 24,
            val: v as i32,
            gt: v,
            le: v,
            cost: v & 0x3fff_ffff,
            pred: v % 14,
            offset: v as i32,
            depth: v,
        }
    }
}

#[derive(Clone, Copy, Debug, Eq, PartialEq)]
pub struct Span {
    pub first: u32,
    pub end: u32,
}

wire_struct!(Span { first, end });

impl Span {
    pub const BLANK: Self = Self { first: 0, end: 0 };

    /// The lent span list as it stands beforehand.
    pub fn list(entries: u32, fill: u32) -> Vec<Self> {
        let pattern = |i| {
            let v = fill.wrapping_add(i);
            Self {
                first: v,
                end: v.wrapping_add(1),
            }
        };
        (0..entries).map(pattern).collect()
    }
}

/// A lent list of nodes: how many entries, and those at its front that the
/// job gives.
#[derive(Clone, Debug, Eq, PartialEq)]
pub struct NodeList {
    pub entries: u32,
    pub given: Vec<Record>,
}

impl NodeList {
    /// Every entry, those not given by their pattern.
    pub fn whole(&self, fill: u32) -> Vec<Record> {
        let given = self.given.iter().copied();
        let rest = self.given.len() as u32..self.entries;
        given
            .chain(rest.map(|i| Record::pattern(fill.wrapping_add(i))))
            .collect()
    }
}

impl Wire for NodeList {
    const SIZE: usize = 8;

    fn read(from: &mut Reader<'_>) -> Result<Self> {
        let (entries, given): (u32, Vec<Record>) = from.get()?;
        if given.len() > entries as usize {
            return damaged("more nodes given than the node list has entries");
        }
        Ok(Self { entries, given })
    }

    fn write(&self, to: &mut Vec<u8>) {
        self.entries.write(to);
        self.given.write(to);
    }
}

#[cfg(test)]
mod tests {
    use super::*;

    /// Nine words, of which the depth is the last.
    #[test]
    fn a_record_travels_as_nine_words() {
        let leaf = Record::leaf(5, -1).with_cost(1.0).at_depth(26);
        let split = Record::split(23, -2, 7, 9).at_depth(u32::MAX);
        let list = NodeList {
            entries: 4,
            given: vec![leaf, split],
        };
        let words: [&[u32]; 3] = [
            &[4, 2],
            &[0, 0, 0, 0, 0, 0x3f80_0000, 5, u32::MAX, 26],
            &[1, 23, u32::MAX - 1, 7, 9, 0, 0, 0, u32::MAX],
        ];
        let words = words.concat();
        let mut bytes = Vec::new();
        list.write(&mut bytes);
        let expected: Vec<u8> = words.iter().flat_map(|word| word.to_le_bytes()).collect();
        assert_eq!(bytes, expected);
        let read: NodeList = Reader::new(&bytes).get().expect("a sound list");
        assert_eq!(read, list);
    }

    /// Entries that a job does not give hold v, their number and the fill, in each part as far as it goes.
    #[test]
    fn entries_hold_their_pattern() {
        let list = NodeList {
            entries: 3,
            given: vec![Record::leaf(1, 0)],
        };
        let whole = list.whole(u32::MAX);
        let depths: Vec<u32> = whole.iter().map(|record| record.depth).collect();
        assert_eq!(depths, [0, 0, 1]);
        assert_eq!(list.whole(70)[2], Record::pattern(72));
        assert_eq!(Record::pattern(72).depth, 72);
    }
}
