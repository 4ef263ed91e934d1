//! What a writer might do wrong. By none of it must a decoder come to the same pixels, else the test shows nothing.
//! libjxl refuses each, and for a reason that is known, so that a file which is spoilt elsewhere does not easily pass
//! for it.

use crate::codestream::Picture;
use crate::tree::Tree;
use ostrovuc::SymbolContext::{
    self, MultiplierBits, MultiplierLog, Offset, Predictor, Property, SplitVal,
};
use ostrovuc::{MaNode, Symbol, pack_signed};

/// Spoils what is transmitted of a picture with this tree.
pub type Fault = fn(&Tree, &mut Picture);

/// In the tree: a property beyond all that there are.
const PROPERTY: &str = "Invalid tree property value";
/// In the tree: a predictor beyond 13.
const PREDICTOR: &str = "Invalid predictor";
/// Of the tree, when it is whole: a split that sends all rows one way, for what those above it leave of its property.
const TREE: &str = "Invalid tree";
/// In the pixels: what they are decoded by takes more bits than there are.
const PIXELS: &str = "Truncated input";

/// Each with its name, and libjxl's words for the reason.
#[rustfmt::skip]
pub const ALL: [(&str, Fault, &str); 10] = [
    ("tree contexts 0, 1 traded", |_, sent| trade(sent, 0), PROPERTY),
    ("tree contexts 2, 3 traded", |_, sent| trade(sent, 2), PREDICTOR),
    ("tree contexts 4, 5 traded", |_, sent| trade(sent, 4), PIXELS),
    ("properties without the 1", |_, sent| lower(sent), PIXELS),
    ("split values not packed", |_, sent| unpack(sent, SplitVal), TREE),
    ("offsets not packed", |_, sent| unpack(sent, Offset), PIXELS),
    ("gt and le traded", le_first, TREE),
    ("nodes depth first", depth_first, TREE),
    ("leaf contexts 0, 1 traded", |_, sent| trade_leaves(sent), PIXELS),
    ("leaves in the nodes' order", number_by_node, PIXELS),
];

/// Symbols of this context get the next one's number, and those of the next one this.
fn trade(sent: &mut Picture, context: u32) {
    trade_with_next(&mut sent.symbols, context);
}

fn trade_leaves(sent: &mut Picture) {
    trade_with_next(&mut sent.residuals, 0);
}

fn trade_with_next(pairs: &mut [Symbol], context: u32) {
    for pair in pairs {
        if pair.context == context {
            pair.context += 1;
        } else if pair.context == context + 1 {
            pair.context -= 1;
        }
    }
}

/// A split's property as it is; a leaf's 0 stays.
fn lower(sent: &mut Picture) {
    for value in values(sent, Property) {
        *value = value.saturating_sub(1);
    }
}

/// The signed numbers' own bits, where they should be packed.
fn unpack(sent: &mut Picture, context: SymbolContext) {
    for value in values(sent, context) {
        *value = (*value >> 1) ^ (*value & 1).wrapping_neg();
    }
}

/// The values of the tree's symbols of this context.
fn values(sent: &mut Picture, context: SymbolContext) -> impl Iterator<Item = &mut u32> {
    let symbols = sent.symbols.iter_mut();
    let symbols = symbols.filter(move |symbol| symbol.context == context.number());
    symbols.map(|symbol| &mut symbol.value)
}

fn le_first(tree: &Tree, sent: &mut Picture) {
    let mut nodes = tree.nodes.clone();
    for node in &mut nodes {
        (node.gt, node.le) = (node.le, node.gt);
    }
    let traded = Tree { nodes };
    sent.symbols = traded.symbols().expect("it is still sound");
}

fn depth_first(tree: &Tree, sent: &mut Picture) {
    sent.symbols.clear();
    let mut waiting = vec![0];
    while let Some(n) = waiting.pop() {
        let node: &MaNode = &tree.nodes[n as usize];
        let mut push = |context, value| sent.symbols.push(Symbol::new(context, value));
        if node.is_split() {
            push(Property, node.prop + 1);
            push(SplitVal, pack_signed(node.val));
            waiting.extend([node.le, node.gt]);
        } else {
            push(Property, 0);
            push(Predictor, node.info.pred);
            push(Offset, pack_signed(node.info.offset));
            push(MultiplierLog, 0);
            push(MultiplierBits, 0);
        }
    }
}

/// Leaves are numbered as they stand in the node list, and not breadth first.
fn number_by_node(tree: &Tree, sent: &mut Picture) {
    let contexts = tree.contexts().expect("it is sound");
    let nodes = tree.nodes.iter().zip(contexts);
    let leaves = nodes.filter(|(node, _)| !node.is_split());
    let order: Vec<u32> = leaves.map(|(_, context)| context).collect();
    for Symbol { context, .. } in &mut sent.residuals {
        let place = order.iter().position(|due| due == context);
        *context = place.expect("it is some leaf's") as u32;
    }
}
