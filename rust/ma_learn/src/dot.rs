//! A tree as Graphviz DOT, growing from left to right.

use crate::names;
use crate::tree::{Place, Tree};
use crate::words::counted;

/// The whole graph.
pub fn of(tree: &Tree<'_>) -> String {
    let nodes = tree.walk().map(|place| node(&place));
    nodes.fold(head(tree), |text, node| text + &node) + "}\n"
}

fn head(tree: &Tree<'_>) -> String {
    format!(
        r#"digraph tree {{
    label="{}";
    fontname="sans-serif"; fontsize=12; labelloc=t; rankdir=LR; ordering=out;
    node [shape=box, fontname="sans-serif", fontsize=11];
    edge [fontname="sans-serif", fontsize=10];
"#,
        title(tree)
    )
}

/// Leaves; of a learnt tree also rows and bits, of another one nodes.
fn title(tree: &Tree<'_>) -> String {
    let leaves = counted(tree.leaves(), "leaf", "leaves");
    match &tree.learning {
        None => format!("{}, {leaves}", counted(tree.nodes.len(), "node", "nodes")),
        Some(learning) => format!(
            "{}, {leaves}, {:.1} bits, {:.1} flat",
            counted(learning.rows, "row", "rows"),
            learning.learned.bits,
            learning.learned.flat,
        ),
    }
}

/// A node, and the edges down from it, in a learnt tree each with the rows that go its way.
fn node(place: &Place<'_>) -> String {
    if place.node.is_split() {
        split(place)
    } else {
        leaf(place)
    }
}

fn split(place: &Place<'_>) -> String {
    let (number, node) = (place.number, place.node);
    let (name, value) = (names::property(node.prop), node.val);
    let [rows, yes, no] = place.rows.map_or_else(Default::default, |rows| {
        let [all, yes, no] =
            [rows.all, rows.yes, rows.no].map(|count| counted(count, "row", "rows"));
        [format!(r"\n{all}"), format!(", {yes}"), format!(", {no}")]
    });
    format!(
        r#"    n{number} [label="{name} > {value}{rows}"];
    n{number} -> n{gt} [label="yes{yes}"];
    n{number} -> n{le} [label="no{no}"];
"#,
        gt = node.gt,
        le = node.le,
    )
}

fn leaf(place: &Place<'_>) -> String {
    let (number, info) = (place.number, &place.node.info);
    let (name, offset) = (names::predictor(info.pred), info.offset);
    let rows = place.rows.map_or_else(String::new, |rows| {
        let all = counted(rows.all, "row", "rows");
        format!(r"\n{:.1} bits\n{all}", info.cost)
    });
    format!(
        r##"    n{number} [label="{name}, offset {offset}{rows}", style=filled, fillcolor="#e8eef7"];
"##
    )
}
