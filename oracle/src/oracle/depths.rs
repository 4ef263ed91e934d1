//! Each node's depth, which the original keeps no record of (request d of document 02): how many splits stand above it.
//! It is worked out here from a finished tree, by the way down from the root, whatever was stored or learned before.

use stream::Record;

/// Stores each node's depth. The nodes are a sound tree.
pub(crate) fn store(tree: &mut [Record]) {
    let mut open = vec![(0, 0)];
    while let Some((at, depth)) = open.pop() {
        let node: &mut Record = &mut tree[at];
        node.depth = depth;
        if node.is_split() {
            open.extend([node.gt, node.le].map(|child| (child as usize, depth + 1)));
        }
    }
}
