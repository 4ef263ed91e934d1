//! Every refusal, by its name, number and place; and what it leaves.

mod small;

use ostrovuc::{
    MaNode, Refusal, Symbol, evenly_sampled_indices, leaf_contexts, lookup, read_symbols,
    token_value, write_symbols,
};
use small::{Job, MARK, PREDICTORS, PROPERTIES, ROWS};

/// Learning refuses the changed job and leaves every list as it was. Jobs are compared as text, since some hold NaN.
fn refused(expected: Refusal, change: impl FnOnce(&mut Job)) {
    let mut job = Job::new();
    change(&mut job);
    let before = format!("{job:?}");
    assert_eq!(job.learn(), Err(expected));
    assert_eq!(format!("{job:?}"), before);
}

/// Deepening refuses the seed and leaves every list as it was.
fn seed_refused(node: u32, count: u32, seed: &[MaNode]) {
    let mut job = Job::new();
    job.plant(seed);
    let before = job.clone();
    assert_eq!(job.deepen(count), Err(Refusal::Tree { node }), "{seed:?}");
    assert_eq!(job, before);
}

#[test]
fn settings_outside_their_ranges() {
    for alphabet in [0, 257, u32::MAX] {
        refused(Refusal::Settings, |job| job.settings.alphabet = alphabet);
    }
    for limit in [0, 4_097, u32::MAX] {
        refused(Refusal::Settings, |job| job.settings.max_leaves = limit);
    }
    for price in [-1.0, 1_048_577.0, f32::INFINITY, f32::NAN] {
        refused(Refusal::Settings, |job| {
            job.settings.split_cost_bits = price
        });
        refused(Refusal::Settings, |job| {
            job.settings.prune_leaf_bits = price
        });
    }
    refused(Refusal::Settings, |job| job.settings.min_node = 65_537);
    refused(Refusal::Settings, |job| job.settings.side_preds = 15);
    refused(Refusal::Settings, |job| job.settings.max_candidates = 33);
}

#[test]
fn no_predictor() {
    for allowed in [0, 0xc000] {
        refused(Refusal::NoPredictor, |job| {
            job.settings.allowed_preds = allowed
        });
    }
    refused(Refusal::NoPredictor, |job| {
        job.settings.allowed_preds = 1 << 6;
        job.settings.allow_wp = false;
    });
}

#[test]
fn rows_that_do_not_fit() {
    refused(Refusal::Rows, |job| {
        job.props.truncate(ROWS * PROPERTIES - 1)
    });
    refused(Refusal::Rows, |job| job.tok.truncate(ROWS * PREDICTORS - 1));
    refused(Refusal::Rows, |job| job.tok.push(0));
    refused(Refusal::Rows, |job| job.res.truncate(ROWS - 1));
    refused(Refusal::Rows, |job| {
        job.props = vec![0; 65_537 * PROPERTIES];
        job.tok = vec![0; 65_537 * PREDICTORS];
        job.res.clear();
    });
}

#[test]
fn a_token_at_the_alphabet() {
    for row in [0, 5, ROWS - 1] {
        refused(Refusal::Token { row: row as u32 }, |job| {
            job.tok[row * PREDICTORS + 13] = 128;
            job.tok[ROWS * PREDICTORS - 1] = 255;
        });
    }
}

#[test]
fn an_alphabet_too_short_for_modal_offsets() {
    refused(Refusal::ShortAlphabet, |job| job.settings.alphabet = 127);
}

#[test]
fn logarithms_too_few_or_outside() {
    refused(Refusal::Logarithms, |job| job.logs.truncate(ROWS));
    for log in [-1.0, 32.5, f32::INFINITY, f32::NAN] {
        refused(Refusal::Logarithms, |job| job.logs[1] = log);
        refused(Refusal::Logarithms, |job| job.logs[ROWS] = log);
    }
}

fn shorten<T>(list: &mut Vec<T>) {
    list.truncate(list.len() - 1);
}

#[test]
fn lists_too_short() {
    refused(Refusal::Room, |job| shorten(&mut job.room.nodes));
    refused(Refusal::Room, |job| shorten(&mut job.room.spans));
    refused(Refusal::Room, |job| shorten(&mut job.room.queue_words));
    refused(Refusal::Room, |job| shorten(&mut job.room.queue_values));
    refused(Refusal::Room, |job| shorten(&mut job.room.queue_gains));
    refused(Refusal::Room, |job| {
        let due = 4_096 + 14 * 128 + 2 * 128 * 34;
        job.room.counts.truncate(due - 1);
    });
}

#[test]
fn seeds_that_are_no_trees() {
    let (root, split) = (MaNode::leaf(0, 0), MaNode::split(3, 0, 1, 2));
    let leaf = root.at_depth(1);
    seed_refused(0, 0, &[root]);
    seed_refused(0, 8_192, &[root; 8_192]);
    seed_refused(1, 3, &[split, MaNode::leaf(14, 0).at_depth(1), leaf]);
    let other = MaNode::split(24, 0, 3, 3).at_depth(1);
    seed_refused(1, 4, &[split, other, leaf, leaf.at_depth(2)]);
    seed_refused(0, 2, &[MaNode::split(3, 0, 1, 1), leaf]);
    seed_refused(0, 2, &[split, leaf]);
    seed_refused(3, 4, &[split, leaf, leaf, leaf]);
    let neither = MaNode { kind: 2, ..split };
    seed_refused(1, 3, &[neither, leaf, leaf]);
}

/// Deepening, contexts and writing symbols name this node, and a lookup takes the tree as it is.
fn depth_refused(node: u32, nodes: &[MaNode]) {
    let count = nodes.len() as u32;
    seed_refused(node, count, nodes);
    let expected = Err(Refusal::Tree { node });
    assert_eq!(leaf_contexts(nodes, count, &mut [], &mut []), expected);
    assert_eq!(write_symbols(nodes, count, &mut [], &mut []), expected);
    assert!(lookup(nodes, count, &[0; PROPERTIES]).is_ok());
}

/// 0 splits to 3 and 1, 1 splits to 4 and 2.
const FIVE: [MaNode; 5] = [
    MaNode::split(3, 0, 3, 1),
    MaNode::split(2, 0, 4, 2).at_depth(1),
    MaNode::leaf(0, 0).at_depth(2),
    MaNode::leaf(5, 0).at_depth(1),
    MaNode::leaf(7, 0).at_depth(2),
];

#[test]
fn depths_other_than_the_distance() {
    let mut job = Job::new();
    job.plant(&FIVE);
    assert!(job.deepen(5).is_ok());
    for n in 0..5 {
        for depth in [0, 1, 2, 3, 4, u32::MAX] {
            let mut nodes = FIVE;
            nodes[n].depth = depth;
            if depth != FIVE[n].depth {
                depth_refused(n as u32, &nodes);
            }
        }
    }
    for depth in [1, u32::MAX] {
        depth_refused(0, &[MaNode::leaf(0, 0).at_depth(depth)]);
    }
}

/// A parent counts wherever it stands, and a depth is one more than its parent's as numbers are, not as 32 bits are.
#[test]
fn depths_below_a_parent_that_stands_behind() {
    let (leaf, split) = (MaNode::leaf(0, 0), MaNode::split(3, 0, 1, 1));
    let with = |child, parent| [leaf, leaf.at_depth(child), split.at_depth(parent)];
    depth_refused(1, &with(0, u32::MAX));
    depth_refused(1, &with(0, 5));
    depth_refused(2, &with(6, 5));
}

#[test]
fn the_lowest_node_is_named_whatever_its_fault() {
    let mut nodes = FIVE;
    nodes[1].prop = 24;
    nodes[3].depth = 2;
    seed_refused(1, 5, &nodes);
    nodes[1].prop = 2;
    nodes[4].info.pred = 14;
    seed_refused(3, 5, &nodes);
    nodes[3].depth = 1;
    seed_refused(4, 5, &nodes);
}

#[test]
fn seeds_without_room() {
    let seed = [MaNode::leaf(0, 0)];
    let mut job = Job::new();
    job.plant(&seed);
    let before = job.clone();
    assert_eq!(job.deepen(8), Err(Refusal::Room));
    assert_eq!(job, before);
}

/// Everything is wrong at first and is put right one by one, in the order of the checks.
#[test]
fn the_first_fault_is_named() {
    let sound = Job::new();
    let mut job = sound.clone();
    job.settings.min_node = 65_537;
    job.settings.allowed_preds = 0;
    job.settings.alphabet = 127;
    job.res.push(0);
    job.tok[3 * PREDICTORS] = 200;
    job.logs.clear();
    job.room.spans.clear();

    assert_eq!(job.learn(), Err(Refusal::Settings));
    job.settings.min_node = 0;
    assert_eq!(job.learn(), Err(Refusal::NoPredictor));
    job.settings.allowed_preds = sound.settings.allowed_preds;
    assert_eq!(job.learn(), Err(Refusal::Rows));
    job.res.pop();
    assert_eq!(job.learn(), Err(Refusal::Token { row: 3 }));
    job.tok.clone_from(&sound.tok);
    assert_eq!(job.learn(), Err(Refusal::ShortAlphabet));
    job.settings.alphabet = 128;
    assert_eq!(job.learn(), Err(Refusal::Logarithms));
    job.logs.clone_from(&sound.logs);
    assert_eq!(job.learn(), Err(Refusal::Room));
    job.room.spans.clone_from(&sound.room.spans);
    assert_eq!(job, sound);
    assert!(job.learn().is_ok());
}

#[test]
fn lookups() {
    let leaf = MaNode::leaf(0, 0);
    let nodes = [MaNode::split(3, 0, 1, 2), leaf, MaNode::leaf(14, 0)];
    let mut props = [0; PROPERTIES];
    for width in [0, 23] {
        assert_eq!(lookup(&nodes, 3, &props[..width]), Err(Refusal::Properties));
    }
    assert_eq!(lookup(&nodes, 0, &[0; 25]), Err(Refusal::Properties));
    assert_eq!(lookup(&nodes, 0, &props), Err(Refusal::Tree { node: 0 }));
    assert_eq!(lookup(&nodes, 4, &props), Err(Refusal::Tree { node: 0 }));
    assert_eq!(lookup(&nodes, 3, &props), Err(Refusal::Tree { node: 2 }));
    assert_eq!(lookup(&nodes, 2, &props), Err(Refusal::Tree { node: 0 }));
    props[3] = 1;
    assert_eq!(lookup(&nodes, 3, &props).map(|found| found.leaf), Ok(1));
}

#[test]
fn contexts() {
    let leaf = MaNode::leaf(0, 0).at_depth(1);
    let nodes = [MaNode::split(3, 0, 1, 2), leaf, leaf];
    let numbered = |count, contexts: usize, queue: usize| {
        let (mut contexts, mut queue) = (vec![MARK; contexts], vec![MARK; queue]);
        let answer = leaf_contexts(&nodes, count, &mut contexts, &mut queue);
        assert!(contexts.iter().chain(&queue).all(|&entry| entry == MARK));
        answer
    };
    assert_eq!(numbered(0, 3, 3), Err(Refusal::Tree { node: 0 }));
    assert_eq!(numbered(4, 4, 4), Err(Refusal::Tree { node: 0 }));
    assert_eq!(numbered(2, 0, 0), Err(Refusal::Tree { node: 0 }));
    assert_eq!(numbered(3, 2, 3), Err(Refusal::Room));
    assert_eq!(numbered(3, 3, 2), Err(Refusal::Room));
}

const MARKED: Symbol = Symbol {
    context: MARK,
    value: MARK,
};

/// Everything is wrong at first and is put right one by one.
#[test]
fn trees_that_cannot_be_written() {
    let leaf = MaNode::leaf(0, 0).at_depth(1);
    let refused = |nodes: &[MaNode], count, symbols: usize, queue: usize| {
        let (mut symbols, mut queue) = (vec![MARKED; symbols], vec![MARK; queue]);
        let answer = write_symbols(nodes, count, &mut symbols, &mut queue);
        assert!(symbols.iter().all(|&symbol| symbol == MARKED));
        assert!(queue.iter().all(|&entry| entry == MARK));
        answer.expect_err("no tree, or no room")
    };
    let other = |pred| MaNode::leaf(pred, 0).at_depth(1);
    let wrong = [MaNode::split(3, 0, 1, 2), leaf, other(14)];
    assert_eq!(refused(&wrong, 4, 0, 0), Refusal::Tree { node: 0 });
    assert_eq!(refused(&wrong, 0, 0, 0), Refusal::Tree { node: 0 });
    assert_eq!(refused(&wrong, 3, 0, 0), Refusal::Tree { node: 2 });
    assert_eq!(refused(&wrong, 2, 0, 0), Refusal::Tree { node: 0 });
    let right = [MaNode::split(23, 0, 1, 2), leaf, other(13)];
    assert_eq!(refused(&right, 3, 11, 3), Refusal::Room);
    assert_eq!(refused(&right, 3, 12, 2), Refusal::Room);
    assert_eq!(
        write_symbols(&right, 3, &mut [MARKED; 12], &mut [MARK; 3]),
        Ok(12)
    );

    let orphan = [right[0], leaf, leaf, leaf];
    assert_eq!(refused(&orphan, 4, 19, 4), Refusal::Tree { node: 3 });
    let many = vec![leaf; 8_192];
    assert_eq!(
        refused(&many, 8_192, 30_000, 8_192),
        Refusal::Tree { node: 0 }
    );
}

/// A split at 5 of property 3, and leaves of predictors 13 and 0.
const SYMBOLS: [(u32, u32); 12] = [
    (1, 4),
    (0, 10),
    (1, 0),
    (2, 13),
    (3, 7),
    (4, 0),
    (5, 0),
    (1, 0),
    (2, 0),
    (3, 0),
    (4, 0),
    (5, 0),
];

/// How symbols are refused, with room for so many nodes.
fn not_read(pairs: &[(u32, u32)], entries: usize) -> Refusal {
    let symbol = |&(context, value): &(u32, u32)| Symbol { context, value };
    let symbols: Vec<Symbol> = pairs.iter().map(symbol).collect();
    let marked = MaNode {
        kind: MARK,
        ..MaNode::split(MARK, 1, MARK, MARK)
    };
    let marked = marked.at_depth(MARK);
    let mut nodes = vec![marked; entries];
    let answer = read_symbols(&symbols, &mut nodes);
    assert!(nodes.iter().all(|&node| node == marked));
    answer.expect_err("no symbols of a tree, or no room")
}

#[test]
fn symbols_of_another_context_or_value() {
    for at in 0..SYMBOLS.len() {
        for context in [0, 1, 2, 3, 4, 5, 6, u32::MAX] {
            let mut symbols = SYMBOLS;
            symbols[at].0 = context;
            if context != SYMBOLS[at].0 {
                assert_eq!(not_read(&symbols, 3), Refusal::Symbols, "{symbols:?}");
            }
        }
    }
    let property = (0, 25);
    let (predictor, log, bits) = ((3, 14), (5, 1), (6, 1));
    for (at, least) in [property, predictor, log, bits] {
        for value in [least, u32::MAX] {
            let mut symbols = SYMBOLS;
            symbols[at].1 = value;
            assert_eq!(not_read(&symbols, 3), Refusal::Symbols, "{symbols:?}");
        }
    }
}

#[test]
fn symbols_cut_short_or_left_over() {
    for length in 0..SYMBOLS.len() {
        assert_eq!(not_read(&SYMBOLS[..length], 3), Refusal::Symbols);
    }
    for more in [&SYMBOLS[..1], &SYMBOLS[2..7], &SYMBOLS] {
        let symbols = [&SYMBOLS, more].concat();
        assert_eq!(not_read(&symbols, 3), Refusal::Symbols);
    }
}

/// 4,096 splits and all their leaves, which is a tree but for its size.
#[test]
fn symbols_of_too_many_nodes() {
    let symbols = [SYMBOLS[..2].repeat(4_096), SYMBOLS[2..7].repeat(4_097)].concat();
    assert_eq!(not_read(&symbols, 8_193), Refusal::Symbols);
}

#[test]
fn symbols_without_room() {
    assert_eq!(not_read(&SYMBOLS, 2), Refusal::Room);
    assert_eq!(not_read(&SYMBOLS, 0), Refusal::Room);
    assert_eq!(not_read(&SYMBOLS[..11], 0), Refusal::Symbols);
}

#[test]
fn sampling() {
    let mut out = [MARK; 4];
    assert_eq!(
        evenly_sampled_indices(65_537, 0, &mut out),
        Err(Refusal::Rows)
    );
    assert_eq!(evenly_sampled_indices(9, 5, &mut out), Err(Refusal::Room));
    assert_eq!(out, [MARK; 4]);
}

#[test]
fn values_of_tokens() {
    for (token, extra) in [(128, 0), (u32::MAX, 0), (15, 1), (16, 4), (127, 1 << 29)] {
        let refusal = token_value(token, extra).expect_err("no value");
        assert_eq!(refusal, Refusal::TokenValue);
        assert_eq!((refusal.number(), refusal.place()), (10, 0));
    }
}

#[test]
fn numbers_places_and_sentences() {
    let all = [
        Refusal::Settings,
        Refusal::NoPredictor,
        Refusal::Rows,
        Refusal::Token { row: 65_535 },
        Refusal::ShortAlphabet,
        Refusal::Logarithms,
        Refusal::Room,
        Refusal::Tree { node: 8_190 },
        Refusal::Properties,
        Refusal::TokenValue,
        Refusal::Symbols,
    ];
    let numbers = all.map(Refusal::number);
    assert_eq!(numbers, [1, 2, 3, 4, 5, 6, 7, 8, 9, 10, 11]);
    let places = all.map(Refusal::place);
    assert_eq!(places, [0, 0, 0, 65_535, 0, 0, 0, 8_190, 0, 0, 0]);
    assert!(all[3].to_string().starts_with("row 65535 has a token"));
    assert!(all[7].to_string().contains("node 8190 is at fault"));
    let mut sentences = all.map(|refusal| refusal.to_string()).to_vec();
    sentences.sort();
    sentences.dedup();
    assert_eq!(sentences.len(), all.len());
}
