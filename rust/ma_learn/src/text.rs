//! A tree as readable text: a short head, then one node a line, indented by depth.

use crate::names;
use crate::tree::{Place, Side, Tree};
use crate::words::counted;

/// The whole text.
pub fn of(tree: &Tree<'_>) -> String {
    let width = tree.nodes.len().saturating_sub(1).to_string().len();
    let lines = tree.walk().map(|place| line(&place, width));
    lines.fold(head(tree) + "\n", |text, line| text + &line)
}

/// Nodes and leaves; of a learnt tree also rows and bits.
fn head(tree: &Tree<'_>) -> String {
    let size = format!(
        "nodes           {}\n\
         leaves          {}\n",
        tree.nodes.len(),
        tree.leaves()
    );
    let Some(learning) = &tree.learning else {
        return size;
    };
    let learned = &learning.learned;
    let saved = learning.bits_saved();
    let share = if learned.flat > 0.0 {
        format!(" ({:.1} %)", 100.0 * saved / learned.flat)
    } else {
        String::new()
    };
    format!(
        "rows            {}\n\
         {size}\
         estimated bits  {:.1}\n\
         flat bits       {:.1}\n\
         bits saved      {saved:.1}{share}\n",
        learning.rows, learned.bits, learned.flat,
    )
}

fn line(place: &Place<'_>, width: usize) -> String {
    let indent = "  ".repeat(place.node.depth as usize);
    let side = match place.side {
        Side::Root => "",
        Side::Yes => "yes: ",
        Side::No => "no: ",
    };
    format!("{:>width$} {indent}{side}{}\n", place.number, what(place))
}

/// What a split asks and which way its rows go, or what a leaf predicts for its own.
fn what(place: &Place<'_>) -> String {
    let node = place.node;
    if node.is_split() {
        let rows = place.rows.map_or_else(String::new, |rows| {
            let all = counted(rows.all, "row", "rows");
            format!(", {all}: {} yes, {} no", rows.yes, rows.no)
        });
        format!(
            "property {} > {}{rows}",
            names::property(node.prop),
            node.val
        )
    } else {
        let info = &node.info;
        let rows = place.rows.map_or_else(String::new, |rows| {
            let all = counted(rows.all, "row", "rows");
            format!(", {:.1} bits, {all}", info.cost)
        });
        format!(
            "{}, offset {}{rows}",
            names::predictor(info.pred),
            info.offset
        )
    }
}
