//! Trees written as symbols and read back.

mod small;

use ostrovuc::{
    MaNode, NodeInfo, Symbol, SymbolContext, leaf_contexts, lookup, pack_signed, read_nodes_length,
    read_symbols, symbols_length, write_symbols,
};
use small::{Job, MARK, PROPERTIES, ROWS, properties};

const MARKED: Symbol = Symbol {
    context: MARK,
    value: MARK,
};
const MARKED_NODE: MaNode = MaNode::split(MARK, 7, MARK, MARK).at_depth(MARK);

/// The symbols of a tree.
fn written(nodes: &[MaNode]) -> Vec<Symbol> {
    let count = nodes.len() as u32;
    let mut symbols = vec![MARKED; symbols_length(count)];
    let counted = write_symbols(nodes, count, &mut symbols, &mut vec![MARK; nodes.len()]);
    assert_eq!(counted, Ok(symbols.len() as u32));
    symbols
}

/// The tree of some symbols.
fn read(symbols: &[Symbol]) -> Vec<MaNode> {
    let mut nodes = vec![MARKED_NODE; read_nodes_length(symbols.len())];
    assert_eq!(read_symbols(symbols, &mut nodes), Ok(nodes.len() as u32));
    nodes
}

fn symbols<const N: usize>(pairs: [(u32, u32); N]) -> [Symbol; N] {
    pairs.map(|(context, value)| Symbol { context, value })
}

/// What a read split has: infinite cost, as a seed's.
const fn read_split(prop: u32, val: i32, gt: u32, le: u32) -> MaNode {
    let info = NodeInfo {
        cost: f32::INFINITY,
        pred: 0,
        offset: 0,
    };
    MaNode {
        info,
        ..MaNode::split(prop, val, gt, le)
    }
}

/// 0 splits to 3 and 1, 1 splits to 4 and 2: not breadth first.
const FIVE: [MaNode; 5] = [
    MaNode::split(23, i32::MIN, 3, 1),
    MaNode::split(0, i32::MAX, 4, 2).at_depth(1),
    MaNode::leaf(13, i32::MIN).at_depth(2),
    MaNode::leaf(0, -1).at_depth(1),
    MaNode::leaf(7, 1).at_depth(2),
];

#[test]
fn symbols_by_hand() {
    let expected = [
        symbols([(1, 24), (0, u32::MAX)]).to_vec(),
        symbols([(1, 0), (2, 0), (3, 1), (4, 0), (5, 0)]).to_vec(),
        symbols([(1, 1), (0, u32::MAX - 1)]).to_vec(),
        symbols([(1, 0), (2, 7), (3, 2), (4, 0), (5, 0)]).to_vec(),
        symbols([(1, 0), (2, 13), (3, u32::MAX), (4, 0), (5, 0)]).to_vec(),
    ];
    assert_eq!(written(&FIVE), expected.concat());
}

#[test]
fn a_tree_comes_back_breadth_first() {
    let expected = [
        read_split(23, i32::MIN, 1, 2),
        MaNode::leaf(0, -1).at_depth(1),
        read_split(0, i32::MAX, 3, 4).at_depth(1),
        MaNode::leaf(7, 1).at_depth(2),
        MaNode::leaf(13, i32::MIN).at_depth(2),
    ];
    assert_eq!(read(&written(&FIVE)), expected);
}

#[test]
fn what_is_read_is_written_as_it_was() {
    for leaf in [MaNode::leaf(5, 3), MaNode::leaf(13, i32::MIN)] {
        assert_eq!(read(&written(&[leaf])), [leaf]);
    }
    let symbols = written(&FIVE);
    assert_eq!(written(&read(&symbols)), symbols);
}

#[test]
fn entries_past_those_written_stay() {
    let (mut symbols, mut queue) = ([MARKED; 21], [MARK; 8]);
    assert_eq!(write_symbols(&FIVE, 5, &mut symbols, &mut queue), Ok(19));
    assert_eq!((symbols[19..].to_vec(), queue), (vec![MARKED; 2], [0; 8]));
    let mut nodes = [MARKED_NODE; 7];
    assert_eq!(read_symbols(&symbols[..19], &mut nodes), Ok(5));
    assert_eq!(nodes[5..], [MARKED_NODE; 2]);
}

/// Nodes past the tree are none of it.
#[test]
fn the_first_nodes_are_written() {
    let mut nodes = FIVE.to_vec();
    nodes.push(MaNode::split(24, 0, 0, 0));
    let mut symbols = vec![MARKED; 19];
    assert_eq!(write_symbols(&nodes, 5, &mut symbols, &mut [0; 5]), Ok(19));
    assert_eq!(symbols, written(&FIVE));
}

/// For every row's properties.
#[test]
fn lookups_end_in_the_same_context_predictor_and_offset() {
    let mut job = Job::new();
    let tree = job.learn().expect("a sound job");
    let learnt = &job.room.nodes[..tree.nodes as usize];
    let back = read(&written(learnt));
    let ends = |nodes: &[MaNode], props: &[i32; PROPERTIES]| {
        let count = nodes.len() as u32;
        let (mut contexts, mut queue) = (vec![MARK; nodes.len()], vec![MARK; nodes.len()]);
        let leaves = leaf_contexts(nodes, count, &mut contexts, &mut queue);
        assert_eq!(leaves, Ok(tree.leaves));
        let found = lookup(nodes, count, props).expect("a sound tree");
        let leaf = found.leaf as usize;
        (contexts[leaf], found.pred, nodes[leaf].info.offset)
    };
    for row in 0..ROWS {
        let props = properties(row);
        assert_eq!(ends(&back, &props), ends(learnt, &props));
    }
}

/// Deepening without rows leaves it as it is.
#[test]
fn a_read_tree_is_a_seed_without_rows() {
    let back = read(&written(&FIVE));
    let mut job = Job::with_limit(1);
    (job.props, job.tok, job.res) = Default::default();
    job.plant(&back);
    assert_eq!(
        job.deepen(5).map(|tree| (tree.nodes, tree.leaves)),
        Ok((5, 3))
    );
    assert_eq!(job.room.nodes, back);
}

/// Of so many splits each but the last has a split on its le side.
fn chain(splits: u32) -> Vec<MaNode> {
    let node = |n: u32| {
        let node = match n % 2 == 0 && n < 2 * splits {
            true => MaNode::split(0, -(n as i32), n + 1, n + 2),
            false => MaNode::leaf(n % 14, n as i32),
        };
        node.at_depth(n.div_ceil(2))
    };
    (0..=2 * splits).map(node).collect()
}

#[test]
fn the_largest_tree() {
    let nodes = chain(4_095);
    assert_eq!(nodes.len(), 8_191);
    let symbols = written(&nodes);
    assert_eq!(symbols.len(), 7 * 4_096 - 2);
    let back = read(&symbols);
    assert_eq!(back[1], MaNode::leaf(1, 1).at_depth(1));
    let last = read_split(0, -8_188, 8_189, 8_190);
    assert_eq!(back[8_188], last.at_depth(4_094));
    assert_eq!(written(&back), symbols);
}

#[test]
fn contexts_have_numbers_and_names() {
    for (number, context) in SymbolContext::ALL.into_iter().enumerate() {
        assert_eq!(context.number(), number as u32);
        assert_eq!(SymbolContext::of(number as u32), Some(context));
    }
    assert_eq!([6, u32::MAX].map(SymbolContext::of), [None; 2]);
    let leaf = [
        (SymbolContext::Property, "property", 0),
        (SymbolContext::Predictor, "predictor", 5),
        (SymbolContext::Offset, "offset", pack_signed(-3)),
        (SymbolContext::MultiplierLog, "multiplier_log", 0),
        (SymbolContext::MultiplierBits, "multiplier_bits", 0),
    ];
    let told = leaf.map(|(context, _, value)| Symbol::new(context, value));
    assert_eq!(written(&[MaNode::leaf(5, -3)]), told);
    let split = written(&FIVE)[1];
    assert_eq!(split.context, SymbolContext::SplitVal.number());
    assert_eq!(SymbolContext::SplitVal.name(), "split_val");
    assert_eq!(
        leaf.map(|(context, ..)| context.name()),
        leaf.map(|(_, name, _)| name)
    );
}
