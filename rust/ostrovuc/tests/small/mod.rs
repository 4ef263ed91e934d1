//! A small job: the rows of a picture of two columns, which property 3 tells apart, and every list that learning is
//! lent, filled with marks.

use ostrovuc::{Learned, MaNode, Refusal, Room, Settings, Span, deepen, learn, logarithms};

pub const PROPERTIES: usize = 24;
pub const PREDICTORS: usize = 14;
pub const ROWS: usize = 12;

/// What the lists hold before a call.
pub const MARK: u32 = 7;

#[derive(Clone, Debug, PartialEq)]
pub struct Job {
    pub settings: Settings,
    pub props: Vec<i32>,
    pub tok: Vec<u8>,
    pub res: Vec<i32>,
    pub logs: Vec<f32>,
    pub room: Room,
}

impl Job {
    pub fn new() -> Self {
        Self::with_limit(4)
    }

    pub fn with_limit(max_leaves: u32) -> Self {
        let settings = Settings {
            alphabet: 128,
            max_leaves,
            side_preds: 2,
            max_candidates: 32,
            allow_wp: true,
            allowed_preds: 0x3fff,
            modal_offsets: true,
            settle: true,
            ..Settings::default()
        };
        Self {
            settings,
            props: (0..ROWS).flat_map(properties).collect(),
            tok: (0..ROWS).flat_map(tokens).collect(),
            res: (0..ROWS).map(residual).collect(),
            logs: logarithms(ROWS),
            room: marked(Room::for_learning(&settings, ROWS)),
        }
    }

    /// Puts a seed at the front of the nodes.
    pub fn plant(&mut self, seed: &[MaNode]) {
        self.room = marked(Room::for_deepening(&self.settings, ROWS, seed));
        self.room.nodes[..seed.len()].copy_from_slice(seed);
    }

    pub fn learn(&mut self) -> Result<Learned, Refusal> {
        let lists = self
            .room
            .lend(&mut self.props, &mut self.tok, &mut self.res);
        learn(lists, &self.settings, &self.logs)
    }

    pub fn deepen(&mut self, count: u32) -> Result<Learned, Refusal> {
        let lists = self
            .room
            .lend(&mut self.props, &mut self.tok, &mut self.res);
        deepen(lists, &self.settings, count, &self.logs)
    }
}

/// The properties of a row as first given: 2 is its line, 3 its column.
pub fn properties(row: usize) -> [i32; PROPERTIES] {
    let mut props = [0; PROPERTIES];
    props[2] = row as i32 / 2;
    props[3] = row as i32 % 2;
    props
}

/// 100 in column 0, 20 in column 1, with a speck in two rows.
pub fn residual(row: usize) -> i32 {
    let speck = i32::from(row.is_multiple_of(7));
    if row.is_multiple_of(2) {
        100 + speck
    } else {
        20 + speck
    }
}

fn tokens(row: usize) -> [u8; PREDICTORS] {
    let mut tokens = [0; PREDICTORS];
    for (pred, token) in tokens.iter_mut().enumerate() {
        *token = (5 * row + 3 * pred) as u8;
    }
    tokens
}

fn marked(mut room: Room) -> Room {
    let node = MaNode {
        kind: MARK,
        ..MaNode::split(MARK, 1, MARK, MARK)
    };
    room.nodes.fill(node.at_depth(MARK));
    room.spans.fill(Span {
        first: MARK,
        end: MARK,
    });
    room.queue_words.fill(MARK);
    room.queue_values.fill(7);
    room.queue_gains.fill(7.0);
    room.counts.fill(MARK);
    room
}
