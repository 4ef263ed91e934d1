//! Lookups in the tree that was learnt from a sheet, one for each of its rows.

use crate::learning::without_settling;
use crate::ma_tree::{LearnedTree, hooks};
use crate::sheet::Sheet;
use crate::timing::{Run, row_of_items, timed};
use ostrovuc::{MaNode, Room};
use stream::{PROPERTIES, Settings};

pub fn lookups(sheet: &Sheet, settings: &Settings) {
    let nodes = learnt(sheet, settings);
    let tree = hooks::tree_of(&jobs::records(&nodes));
    let name = format!("lookup, {} rows, {} nodes, Rust", sheet.len(), nodes.len());
    let port = || each(sheet, |row| walk_of_port(&nodes, row));
    row_of_items(
        &format!("{name} inlined"),
        sheet.len(),
        || each(sheet, |row| tree.lookup(row)),
        port,
    );
    row_of_items(
        &format!("{name} behind a call"),
        sheet.len(),
        || each(sheet, |row| walk(&tree, row)),
        port,
    );
}

/// The tree's nodes and no others.
pub fn learnt(sheet: &Sheet, settings: &Settings) -> Vec<MaNode> {
    let settings = without_settling(settings);
    let mut room = Room::for_learning(&settings, sheet.len());
    let mut rows = sheet.rows();
    let lists = room.lend(&mut rows.props, &mut rows.tok, &mut rows.res);
    let tree = ostrovuc::learn(lists, &settings, sheet.logs).expect("accepted");
    room.nodes.truncate(tree.nodes as usize);
    room.nodes
}

/// Looks every row up; a sum tells the answers apart.
fn each(sheet: &Sheet, lookup: impl Fn(&[i32; PROPERTIES]) -> (u32, u32)) -> Run<u64> {
    let (time, (), sum) = timed((), |()| {
        sheet.props.iter().fold(0u64, |sum, row| {
            let (leaf, pred) = lookup(row);
            sum.wrapping_mul(31)
                .wrapping_add(u64::from(leaf) << 4 | u64::from(pred))
        })
    });
    (time, sum)
}

fn walk_of_port(nodes: &[MaNode], row: &[i32; PROPERTIES]) -> (u32, u32) {
    let found = ostrovuc::lookup(nodes, nodes.len() as u32, row).expect("accepted");
    (found.leaf, found.pred)
}

#[inline(never)]
fn walk(tree: &LearnedTree, row: &[i32; PROPERTIES]) -> (u32, u32) {
    tree.lookup(row)
}
