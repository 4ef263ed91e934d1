//! What a shown tree has at each node: how many rows, held to the rows' own ways down it, and its depth.

use jobs::Run;
use ma_learn::tree::{Rows, Tree};
use ma_learn::{job, pgm, text};
use ostrovuc::MaNode;
use stream::{Learning, Settings};

/// The job of the bundled sheet with this limit and this price.
fn sheet(limit: u32, price: f32) -> Learning {
    let picture = pgm::read(include_bytes!("../../../sheets/digits.pgm")).expect("a picture");
    let lines = job::lines_taken(&picture, job::MOST_ROWS).expect("lines");
    let settings = Settings {
        limit,
        price,
        ..job::default_settings()
    };
    job::of_lines(&picture, &lines, settings)
}

/// How many rows meet each node on their way from the root to a leaf.
fn met(nodes: &[MaNode], properties: &[i32]) -> Vec<usize> {
    let mut met = vec![0; nodes.len()];
    for row in properties.chunks_exact(stream::PROPERTIES) {
        let mut n = 0;
        met[n] += 1;
        while nodes[n].is_split() {
            let node = &nodes[n];
            let above = row[node.prop as usize] > node.val;
            n = if above { node.gt } else { node.le } as usize;
            met[n] += 1;
        }
    }
    met
}

/// Every node of this many leaves' tree is shown with the rows that meet it, and a split with those of its children.
fn assert_shown(run: &Run, properties: &[i32], leaves: u32) {
    let tree = Tree::of(run).expect("a tree");
    let learned = run.result.expect("a tree");
    assert_eq!((learned.leaves, tree.leaves()), (leaves, leaves as usize));
    let met = met(&run.room.nodes, properties);
    let mut places = 0;
    for place in tree.walk() {
        let node = place.node;
        let (yes, no) = if node.is_split() {
            (met[node.gt as usize], met[node.le as usize])
        } else {
            (0, 0)
        };
        let all = met[place.number as usize];
        assert_eq!(place.rows, Some(Rows { all, yes, no }));
        places += 1;
    }
    assert_eq!(places, learned.nodes);
}

/// Learnt and pruned, then deepened: of the second tree's splits the seed's have no spans, and the others have.
#[test]
fn rows_are_those_that_come() {
    let first = sheet(64, 64.0);
    let properties = first.properties.clone();
    let learnt = jobs::run(first, false);
    assert_shown(&learnt, &properties, 35);

    let mut second = sheet(128, 0.0);
    second.seed_count = 69;
    second.nodes.given = jobs::records(&learnt.room.nodes[..69]);
    assert_shown(&jobs::run(second, true), &properties, 128);
}

/// Text is set in by what the records say, whatever it is.
#[test]
fn depths_are_those_stored() {
    let leaf = |offset, depth| MaNode::leaf(0, offset).at_depth(depth);
    let nodes = [MaNode::split(2, 0, 1, 2), leaf(5, 1), leaf(7, 3)];
    let expected = "\
nodes           3
leaves          2

0 property y > 0
1   yes: Zero, offset 5
2       no: Zero, offset 7
";
    assert_eq!(text::of(&Tree::read(&nodes)), expected);
}
