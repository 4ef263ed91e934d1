//! Pruning alone: a tree's records and spans, pruned, and printed whole.

use driver::port;
use ostrovuc::MaNode;
use stream::{PruneJob, Pruned};

pub fn prune(job: &PruneJob) -> Pruned {
    let (mut nodes, mut spans) = (jobs::nodes(&job.nodes), jobs::span_records(&job.spans));
    assert!(is_prunable(&nodes, job.price), "no tree to prune");
    assert_eq!(nodes.len(), spans.len());
    // SAFETY: asserted.
    let pruned = unsafe { port::prune(&mut nodes, &mut spans, job.price) };
    Pruned {
        estimated_bits: pruned.bits,
        node_count: pruned.nodes as u32,
        nodes: jobs::records(&nodes),
        spans: jobs::spans(&spans),
    }
}

/// The port numbers the leaves of sound trees alone.
fn is_prunable(nodes: &[MaNode], price: f32) -> bool {
    let count = nodes.len();
    let (mut contexts, mut queue) = (vec![0; count], vec![0; count]);
    let numbered = ostrovuc::leaf_contexts(nodes, count as u32, &mut contexts, &mut queue);
    let is_plain = |node: &MaNode| {
        node.is_split() || [node.kind, node.prop, node.gt, node.le, node.val as u32] == [0; 5]
    };
    numbered.is_ok()
        && nodes.iter().all(is_plain)
        && !price.is_nan()
        && !nodes.iter().any(|node| node.info.cost.is_nan())
}
