//! What documents 01 and 02 add to a learned tree: settling, depths, and what
//! each lent list reads at the end. Nothing of this is in the original.

use crate::coder_scratch::CoderScratch;
use crate::depths;
use crate::ma_tree::{MaSamples, hooks};
use crate::refusals::Refusal;
use stream::{Learned, Learning, Record, Runs, Span};

/// "A refusal is the number and the named place; each lent list reads as before."
pub(crate) fn refused_lists(job: &Learning, refusal: Refusal) -> Learned {
    Learned {
        number: refusal.number,
        place: refusal.place,
        node_count: 0,
        leaf_count: 0,
        estimated_bits: 0.0,
        flat_bits: 0.0,
        nodes: job.nodes.whole(job.fill),
        spans: Span::list(job.span_entries, job.fill),
        properties: job.properties.clone(),
        tokens: job.tokens.clone(),
        residuals: job.residuals.clone(),
        queue: Runs::of(job.fill, job.queue_entries),
        counts: Runs::of(job.fill, job.count_entries),
    }
}

/// What the original leaves behind: the tree, and the rows as growth ordered them.
pub(crate) struct Exit {
    pub(crate) tree: hooks::Tree,
    pub(crate) samples: MaSamples,
}

impl Exit {
    /// The accepted answer with each lent list whole.
    pub(crate) fn lists(mut self, job: &Learning, scratch: &mut CoderScratch) -> Learned {
        if job.settings.settling && job.settings.modal_offsets {
            self.settle(scratch);
        }
        let Self { mut tree, samples } = self;
        depths::store(&mut tree.nodes);
        let is_leaf = |node: &&Record| !node.is_split();
        Learned {
            number: 0,
            place: 0,
            node_count: tree.nodes.len() as u32,
            leaf_count: tree.nodes.iter().filter(is_leaf).count() as u32,
            estimated_bits: tree.estimated_bits,
            flat_bits: tree.flat_bits,
            nodes: laid_over(
                job.nodes.whole(job.fill),
                tree.nodes,
                tree.written,
                Record::BLANK,
            ),
            spans: laid_over(
                Span::list(job.span_entries, job.fill),
                tree.spans,
                tree.written,
                Span::BLANK,
            ),
            properties: samples.props.iter().flatten().collect(),
            tokens: samples.tok.into_flattened(),
            residuals: samples.val,
            queue: Runs::of(0, job.queue_entries),
            counts: Runs::of(0, job.count_entries),
        }
    }

    /// "Settling then repeats the mode step on each leaf's span." Without
    /// residuals it has nothing to rewrite.
    fn settle(&mut self, scratch: &mut CoderScratch) {
        if self.samples.val.is_empty() {
            return;
        }
        for (node, span) in self.tree.nodes.iter().zip(&self.tree.spans) {
            if !node.is_split() {
                let rows = span.first as usize..span.end as usize;
                let tokens = &mut self.samples.tok[rows.clone()];
                hooks::mode_step(tokens, &self.samples.val[rows], scratch);
            }
        }
    }
}

/// A lent list at the end: the tree's entries, then those that pruning vacated,
/// then what was there before.
fn laid_over<T: Copy>(mut lent: Vec<T>, kept: Vec<T>, written: usize, vacated: T) -> Vec<T> {
    lent[..kept.len()].copy_from_slice(&kept);
    lent[kept.len()..written].fill(vacated);
    lent
}
