//! Learns a tree from the 64 pixels of a small picture: the right half is lit, the left half is not, the top line is
//! brighter, and there are a few specks. Prints the tree, its nodes set in by their depths, the leaf that each pixel
//! reaches, the leaves' contexts, the symbols that JPEG XL transmits for the tree, the tree read back from them, and
//! what refusals look like.

use ostrovuc::{
    Learned, MaNode, Refusal, Room, Settings, Symbol, SymbolContext, leaf_contexts, learn,
    logarithms, lookup, pack_signed, read_nodes_length, read_symbols, symbols_length, uint_encode,
    write_symbols,
};

const SIDE: usize = 8;
const ROWS: usize = SIDE * SIDE;
const PROPERTIES: usize = 24;
const PREDICTORS: usize = 14;
const PROPERTY_Y: usize = 2;
const PROPERTY_X: usize = 3;

/// The rows of the job: learning moves them.
struct Rows {
    props: Vec<i32>,
    tok: Vec<u8>,
    res: Vec<i32>,
}

fn pixel(x: usize, y: usize) -> i32 {
    let lit = if x >= SIDE / 2 { 200 } else { 16 };
    let brighter = if y == 0 { 3 } else { 0 };
    let speck = i32::from((5 * x + 3 * y).is_multiple_of(11));
    lit + brighter + speck
}

fn properties(x: usize, y: usize) -> [i32; PROPERTIES] {
    let mut props = [0; PROPERTIES];
    props[PROPERTY_Y] = y as i32;
    props[PROPERTY_X] = x as i32;
    props
}

/// A row for each pixel. Only predictor 0 (zero) is used, so a pixel's residual is its value.
fn rows() -> Rows {
    let places = || (0..SIDE).flat_map(|y| (0..SIDE).map(move |x| (x, y)));
    let tokens = |(x, y)| {
        let mut tokens = [0; PREDICTORS];
        tokens[0] = uint_encode(pack_signed(pixel(x, y))).token as u8;
        tokens
    };
    Rows {
        props: places().flat_map(|(x, y)| properties(x, y)).collect(),
        tok: places().flat_map(tokens).collect(),
        res: places().map(|(x, y)| pixel(x, y)).collect(),
    }
}

fn print_tree(tree: &Learned, room: &Room) {
    println!(
        "{ROWS} rows: {} nodes, {} leaves, {:.2} bits, flat {:.2}",
        tree.nodes, tree.leaves, tree.bits, tree.flat
    );
    let nodes = room.nodes.iter().zip(&room.spans);
    let nodes = nodes.take(tree.nodes as usize);
    for (n, (node, span)) in nodes.enumerate() {
        let (indent, rows, what) = (indent(node), span.rows().len(), in_words(node));
        print!("{indent}node {n}, {rows} rows: {what}");
        if !node.is_split() {
            print!(", {:.2} bits", node.info.cost);
        }
        println!();
    }
}

/// A node is set in by its depth.
fn indent(node: &MaNode) -> String {
    "  ".repeat(node.depth as usize)
}

fn in_words(node: &MaNode) -> String {
    let MaNode {
        prop, val, gt, le, ..
    } = node;
    if node.is_split() {
        format!("property {prop} > {val} leads to {gt}, else to {le}")
    } else {
        let info = node.info;
        format!("leaf, predictor {}, offset {}", info.pred, info.offset)
    }
}

/// The leaf of each pixel, in its place.
fn print_leaves(tree: &Learned, room: &Room) -> Result<(), Refusal> {
    for y in 0..SIDE {
        let mut line = Vec::new();
        for x in 0..SIDE {
            let found = lookup(&room.nodes, tree.nodes, &properties(x, y))?;
            line.push(found.leaf.to_string());
        }
        println!("{}", line.join(" "));
    }
    Ok(())
}

fn print_contexts(tree: &Learned, room: &Room) -> Result<(), Refusal> {
    let count = tree.nodes as usize;
    let (mut contexts, mut queue) = (vec![0; count], vec![0; count]);
    let counted = leaf_contexts(&room.nodes, tree.nodes, &mut contexts, &mut queue)?;
    println!("{counted} contexts");
    for (n, context) in contexts.iter().enumerate() {
        if *context != u32::MAX {
            println!("leaf {n} has context {context}");
        }
    }
    Ok(())
}

/// The tree's symbols, a node a line: each begins with its property, a leaf's being 0.
fn print_symbols(symbols: &[Symbol]) {
    print!("{} symbols", symbols.len());
    for symbol in symbols {
        let context = SymbolContext::of(symbol.context).expect("one of the standard's");
        let before = match context {
            SymbolContext::Property => "\n",
            _ => ", ",
        };
        print!("{before}{} {}", context.name(), symbol.value);
    }
    println!();
}

/// Reads a tree from its symbols, and from all but the last one.
fn print_read_back(symbols: &[Symbol]) -> Result<(), Refusal> {
    let mut nodes = vec![MaNode::default(); read_nodes_length(symbols.len())];
    let count = read_symbols(symbols, &mut nodes)?;
    println!("read back: {count} nodes");
    for (n, node) in nodes.iter().enumerate() {
        println!("{}node {n}: {}", indent(node), in_words(node));
    }
    let short = read_symbols(&symbols[..symbols.len() - 1], &mut nodes);
    if let Err(refusal) = short {
        let (number, place) = (refusal.number(), refusal.place());
        println!("without the last symbol: refusal {number}, place {place}");
        println!("in words: {refusal}");
    }
    Ok(())
}

/// A tree whose last node does not have its distance from the root as its depth: the nodes are looked at before room.
fn print_wrong_depth(tree: &Learned, room: &Room) {
    let mut nodes = room.nodes.clone();
    let last = tree.nodes - 1;
    nodes[last as usize].depth += 1;
    let counted = leaf_contexts(&nodes, tree.nodes, &mut [], &mut []);
    if let Err(refusal) = counted {
        let (number, place) = (refusal.number(), refusal.place());
        println!("node {last} a level too deep: refusal {number}, place {place}");
        println!("in words: {refusal}");
    }
}

fn print_transmitted(tree: &Learned, room: &Room) -> Result<(), Refusal> {
    let mut symbols = vec![Symbol::default(); symbols_length(tree.nodes)];
    let mut queue = vec![0; tree.nodes as usize];
    write_symbols(&room.nodes, tree.nodes, &mut symbols, &mut queue)?;
    print_symbols(&symbols);
    print_read_back(&symbols)
}

fn main() -> Result<(), Refusal> {
    let settings = Settings {
        alphabet: 128,
        max_leaves: 4,
        split_cost_bits: 4.0,
        side_preds: 1,
        max_candidates: 16,
        allowed_preds: 1,
        modal_offsets: true,
        ..Settings::default()
    };
    let Rows {
        mut props,
        mut tok,
        mut res,
    } = rows();
    let mut room = Room::for_learning(&settings, ROWS);
    let logs = logarithms(ROWS);
    let tree = learn(room.lend(&mut props, &mut tok, &mut res), &settings, &logs)?;
    print_tree(&tree, &room);
    print_leaves(&tree, &room)?;
    print_contexts(&tree, &room)?;
    print_transmitted(&tree, &room)?;
    print_wrong_depth(&tree, &room);

    tok[5 * PREDICTORS + 13] = 128;
    let again = learn(room.lend(&mut props, &mut tok, &mut res), &settings, &logs);
    if let Err(refusal) = again {
        let (number, place) = (refusal.number(), refusal.place());
        let kind = if room.nodes[0].is_split() {
            "split"
        } else {
            "leaf"
        };
        println!("token 128 in row 5: refusal {number}, place {place}; node 0 is still a {kind}");
        println!("in words: {refusal}");
    }
    Ok(())
}
