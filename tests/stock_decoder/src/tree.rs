//! A picture's tree, learnt by the library, and what is transmitted by it.

use crate::codestream;
use ma_learn::picture::Picture;
use ma_learn::{job, rows};
use ostrovuc::{
    MaNode, Refusal, Room, Settings, Symbol, leaf_contexts, learn, logarithms, lookup, pack_signed,
    symbols_length, write_symbols,
};

const PROPERTIES: usize = 24;

/// A sound tree.
pub struct Tree {
    pub nodes: Vec<MaNode>,
}

/// Splits cost nothing and nothing is pruned, so that there are as many leaves as allowed and some lie deep.
fn settings(leaves: u32) -> Settings {
    Settings {
        alphabet: 256,
        max_leaves: leaves,
        split_cost_bits: 0.0,
        prune_leaf_bits: 0.0,
        min_node: 1,
        side_preds: 4,
        max_candidates: 32,
        allow_wp: false,
        allowed_preds: 0x3fff,
        modal_offsets: true,
        settle: true,
    }
}

impl Tree {
    /// Learns a tree of at most so many leaves.
    pub fn learn(picture: &Picture, leaves: u32) -> Result<Self, Refusal> {
        let lines = job::lines_taken(picture, job::MOST_ROWS).expect("no line is as long");
        let mut rows = rows::of_lines(picture, &lines);
        let settings = settings(leaves);
        let count = rows.residuals.len();
        let mut room = Room::for_learning(&settings, count);
        let lists = room.lend(&mut rows.properties, &mut rows.tokens, &mut rows.residuals);
        let learned = learn(lists, &settings, &logarithms(count))?;
        room.nodes.truncate(learned.nodes as usize);
        Ok(Self { nodes: room.nodes })
    }

    pub fn count(&self) -> u32 {
        self.nodes.len() as u32
    }

    pub fn leaves(&self) -> usize {
        self.nodes.len().div_ceil(2)
    }

    /// Splits on the longest way to a leaf.
    pub fn depth(&self) -> u32 {
        let depths = self.nodes.iter().map(|node| node.depth);
        depths.max().unwrap_or(0)
    }

    /// The tree as the library writes it.
    pub fn symbols(&self) -> Result<Vec<Symbol>, Refusal> {
        let mut symbols = vec![Symbol::default(); symbols_length(self.count())];
        let mut queue = vec![0; self.nodes.len()];
        let written = write_symbols(&self.nodes, self.count(), &mut symbols, &mut queue)?;
        symbols.truncate(written as usize);
        Ok(symbols)
    }

    /// For each pixel, line by line, its leaf's context and what the leaf's predictor and offset leave of it.
    pub fn residuals(&self, picture: &Picture) -> Result<Vec<Symbol>, Refusal> {
        let contexts = self.contexts()?;
        let lines: Vec<u32> = (0..picture.height() as u32).collect();
        let properties = rows::of_lines(picture, &lines).properties;
        let residual = |(pixel, properties): (usize, &[i32])| {
            let (x, y) = (pixel % picture.width(), pixel / picture.width());
            let found = lookup(&self.nodes, self.count(), properties)?;
            // The weighted predictor is not used, so whatever it says will do.
            let predictions = picture.neighbours(x, y).predictions(0);
            let offset = self.nodes[found.leaf as usize].info.offset;
            let left = picture.at(x, y) - predictions[found.pred as usize] - offset;
            let (context, value) = (contexts[found.leaf as usize], pack_signed(left));
            Ok(Symbol { context, value })
        };
        let pixels = properties.chunks_exact(PROPERTIES).enumerate();
        pixels.map(residual).collect()
    }

    /// The picture as this tree transmits it.
    pub fn transmit(&self, picture: &Picture) -> Result<codestream::Picture, Refusal> {
        Ok(codestream::Picture {
            width: picture.width(),
            height: picture.height(),
            leaves: self.leaves(),
            symbols: self.symbols()?,
            residuals: self.residuals(picture)?,
        })
    }

    /// Of each leaf; a split has none.
    pub fn contexts(&self) -> Result<Vec<u32>, Refusal> {
        let mut contexts = vec![0; self.nodes.len()];
        let mut queue = vec![0; self.nodes.len()];
        leaf_contexts(&self.nodes, self.count(), &mut contexts, &mut queue)?;
        Ok(contexts)
    }
}
