//! The shrinker on made-up differences: what is left is what the difference asks for, and nothing else.

use super::*;
use stream::{
    ContextsJob, Learning, LookupJob, NodeList, PREDICTORS, PROPERTIES, PruneJob, ReadSymbolsJob,
    Record, ScoreJob, Settings, Span, Symbol, WriteSymbolsJob,
};

const ROWS: usize = 37;

fn settings() -> Settings {
    Settings {
        alphabet: 200,
        limit: 40,
        split_cost: 2.75,
        price: 0.3,
        smallest_node: 9,
        side_predictors: 5,
        candidates: 32,
        weighted: true,
        allowed: 0xffff,
        modal_offsets: true,
        settling: true,
    }
}

/// 0 splits to 1 and 2, 1 to 3 and 4, 4 to 5 and 6.
fn seed() -> Vec<Record> {
    vec![
        Record::split(2, 70, 1, 2),
        Record::split(9, -5, 3, 4).at_depth(1),
        Record::leaf(5, 8).with_cost(3.5).at_depth(1),
        Record::leaf(1, 0).at_depth(2),
        Record::split(12, 33, 5, 6).with_cost(0.25).at_depth(2),
        Record::leaf(13, 0).at_depth(3),
        Record::leaf(0, -4).at_depth(3),
    ]
}

/// Rows that differ in every entry, and lists with room to spare.
fn learning(given: Vec<Record>) -> Learning {
    let mixed = |at: usize| (at * 7_919 % 997) as i32 - 300;
    Learning {
        settings: settings(),
        properties: (0..ROWS * PROPERTIES).map(mixed).collect(),
        tokens: (0..ROWS * PREDICTORS).map(|at| (at % 199) as u8).collect(),
        residuals: (0..ROWS).map(mixed).collect(),
        logarithms: vec![0.5; ROWS + 9],
        seed_count: given.len() as u32,
        nodes: NodeList { entries: 90, given },
        span_entries: 91,
        queue_entries: 50,
        count_entries: 60_000,
        fill: 77,
    }
}

fn shrunk(job: Job, differs: impl Fn(&Job) -> bool) -> Job {
    let message = job.message();
    let smallest = smallest(&message, &mut |tried| {
        // As to the oracle, what is no job is no difference.
        Ok(Job::read(tried).is_ok_and(|job| differs(&job)))
    });
    let Ok(Shrunk { job, tries }) = smallest else {
        panic!("no shrunk job");
    };
    assert!(tries < TRIES);
    let job = Job::read(&job).unwrap_or_else(|damaged| panic!("{damaged}"));
    assert!(differs(&job));
    job
}

/// With everything at 0 but what a test then asks for.
fn nothing() -> Learning {
    let settings = Settings {
        alphabet: 0,
        limit: 0,
        split_cost: 0.0,
        price: 0.0,
        smallest_node: 0,
        side_predictors: 0,
        candidates: 0,
        weighted: false,
        allowed: 0,
        modal_offsets: false,
        settling: false,
    };
    Learning {
        settings,
        properties: Vec::new(),
        tokens: Vec::new(),
        residuals: Vec::new(),
        logarithms: Vec::new(),
        seed_count: 0,
        nodes: NodeList {
            entries: 0,
            given: Vec::new(),
        },
        span_entries: 0,
        queue_entries: 0,
        count_entries: 0,
        fill: 0,
    }
}

/// One row is enough, and of it one property and one token.
#[test]
fn rows_and_settings() {
    let differs = |job: &Job| {
        let Job::Learn(job) = job else { return false };
        let rows = job.properties.as_chunks::<PROPERTIES>().0;
        let tokens = job.tokens.as_chunks::<PREDICTORS>().0;
        let told = |(row, tokens): (&[i32; PROPERTIES], &[u8; PREDICTORS])| {
            row[7] < -120 && tokens[3] > 40
        };
        job.settings.limit >= 3 && job.settings.settling && rows.iter().zip(tokens).any(told)
    };
    let mut expected = nothing();
    expected.settings.limit = 3;
    expected.settings.settling = true;
    expected.properties = vec![0; PROPERTIES];
    expected.properties[7] = -121;
    expected.tokens = vec![0; PREDICTORS];
    expected.tokens[3] = 41;
    assert_eq!(
        shrunk(Job::Learn(learning(Vec::new())), differs),
        Job::Learn(expected)
    );
}

/// Two rows with the same value stay together, whatever lies between.
#[test]
fn pairs_of_rows() {
    let differs = |job: &Job| {
        let Job::Mode(list) = job else { return false };
        list.iter()
            .enumerate()
            .any(|(at, value)| *value > 9 && list[..at].contains(value))
    };
    let list = (0..60).map(|at| 100 + at % 23).collect();
    assert_eq!(shrunk(Job::Mode(list), differs), Job::Mode(vec![100, 100]));
}

/// Of a seed the split that counts is left, as the root, with two leaves; its threshold comes down.
#[test]
fn seeds() {
    let differs = |job: &Job| {
        let Job::Deepen(job) = job else { return false };
        let nodes = &job.nodes.given;
        let split = nodes.iter().find(|node| node.is_split() && node.prop == 12);
        let child = |number: u32| {
            nodes
                .get(number as usize)
                .is_some_and(|node| !node.is_split())
        };
        job.seed_count as usize == nodes.len()
            && split.is_some_and(|split| {
                split.val > 20 && split.gt != split.le && child(split.gt) && child(split.le)
            })
    };
    let mut expected = nothing();
    expected.seed_count = 3;
    expected.nodes.entries = 3;
    expected.nodes.given = vec![
        Record::split(12, 21, 1, 2),
        Record::leaf(0, 0).at_depth(1),
        Record::leaf(0, 0).at_depth(1),
    ];
    assert_eq!(
        shrunk(Job::Deepen(learning(seed())), differs),
        Job::Deepen(expected)
    );
}

/// Contexts of the seed above, with room to spare.
fn contexts(given: Vec<Record>) -> Job {
    Job::Contexts(ContextsJob {
        count: given.len() as u32,
        nodes: NodeList { entries: 9, given },
        fill: 77,
        context_entries: 20,
        queue_entries: 30,
    })
}

fn contexts_left(given: Vec<Record>) -> Job {
    Job::Contexts(ContextsJob {
        count: given.len() as u32,
        nodes: NodeList {
            entries: given.len() as u32,
            given,
        },
        fill: 0,
        context_entries: 0,
        queue_entries: 0,
    })
}

/// The nodes whose depth is not one more than their split's.
fn wrong_depths_of(nodes: &[Record]) -> Vec<usize> {
    let mut due = vec![0; nodes.len()];
    for node in nodes.iter().filter(|node| node.is_split()) {
        for child in [node.gt, node.le].map(|child| child as usize) {
            if child < nodes.len() {
                due[child] = node.depth + 1;
            }
        }
    }
    let is_wrong = |&at: &usize| nodes[at].depth != due[at];
    (0..nodes.len()).filter(is_wrong).collect()
}

/// A depth that must be wrong stays so, with as little as there is above it, and comes down.
#[test]
fn wrong_depths() {
    let mut nodes = seed();
    nodes[6].depth = 99;
    let differs = |job: &Job| {
        let Job::Contexts(job) = job else {
            return false;
        };
        let nodes = &job.nodes.given;
        let mut splits = nodes.iter().filter(|node| node.is_split());
        let is_due = |at: &usize| *at > 0 && nodes[*at].depth > 30;
        job.count as usize == nodes.len()
            && splits.all(|split| split.gt != split.le)
            && matches!(&wrong_depths_of(nodes)[..], [at] if is_due(at))
    };
    let expected = vec![
        Record::split(0, 0, 1, 2),
        Record::leaf(0, 0).at_depth(1),
        Record::leaf(0, 0).at_depth(31),
    ];
    assert_eq!(shrunk(contexts(nodes), differs), contexts_left(expected));
}

/// Where depths are nothing to the difference they are made right.
#[test]
fn right_depths() {
    let depths = [7, 0, u32::MAX, 2, 9, 1, 1];
    let given = seed().into_iter().zip(depths);
    let job = LookupJob {
        count: 7,
        nodes: NodeList {
            entries: 9,
            given: given.map(|(node, depth)| node.at_depth(depth)).collect(),
        },
        fill: 77,
        properties: vec![50; PROPERTIES],
    };
    let differs = |job: &Job| {
        let Job::Lookup(job) = job else { return false };
        let splits = job.nodes.given.iter().filter(|node| node.is_split());
        splits.count() == 2
    };
    let Job::Lookup(left) = shrunk(Job::Lookup(job), differs) else {
        panic!("no lookup");
    };
    let depths = left.nodes.given.iter().map(|node| node.depth);
    assert_eq!(depths.collect::<Vec<_>>(), [0, 1]);
    assert!(left.nodes.given.iter().all(|node| node.is_split()));
}

/// Spans go with their nodes.
#[test]
fn pruning() {
    let spans: Vec<Span> = (0..7)
        .map(|node| Span {
            first: node,
            end: 10 * node,
        })
        .collect();
    let job = PruneJob {
        price: 0.7,
        nodes: seed(),
        spans,
    };
    let differs = |job: &Job| {
        let Job::Prune(job) = job else { return false };
        job.spans.iter().any(|span| span.end == 60) && job.price > 0.0
    };
    let expected = PruneJob {
        price: 1.0,
        nodes: vec![Record::leaf(0, 0)],
        spans: vec![Span { first: 0, end: 60 }],
    };
    assert_eq!(shrunk(Job::Prune(job), differs), Job::Prune(expected));
}

/// Two rows are left of which one is at or under a candidate, with the token that counts; the job stays one that a
/// learner has.
#[test]
fn scoring() {
    let job = ScoreJob {
        alphabet: 200,
        column: (0..ROWS as i32).map(|row| 3 * row - 50).collect(),
        tokens: (0..ROWS * PREDICTORS).map(|at| (at % 199) as u8).collect(),
        side_predictors: vec![6, 13, 0, 2],
        candidates: vec![i32::MIN, -7, 9, 40, 41],
        logarithms: vec![0.5; ROWS + 9],
    };
    let differs = |job: &Job| {
        let Job::Score(job) = job else { return false };
        let below = |cut: i32| job.column.iter().filter(|&&value| value <= cut).count();
        let parts = |&cut: &i32| cut > 8 && (1..job.column.len()).contains(&below(cut));
        let mut tokens = job.tokens.iter().skip(13).step_by(PREDICTORS);
        job.candidates.iter().any(parts)
            && tokens.any(|&token| token > 20)
            && job.side_predictors.contains(&13)
    };
    let Job::Score(left) = shrunk(Job::Score(job), differs) else {
        panic!("no job of scoring");
    };
    assert_eq!((left.column.len(), left.alphabet), (2, 22));
    assert_eq!((left.candidates, left.side_predictors), (vec![9], vec![13]));
    assert_eq!(left.tokens.iter().filter(|&&token| token == 21).count(), 1);
    assert_eq!(left.tokens.iter().filter(|&&token| token == 0).count(), 27);
    assert_eq!(left.logarithms, [0.0, 0.0, 1.0]);
    let mut column = left.column;
    column.sort_unstable();
    assert_eq!(column, [0, 10]);
}

/// Two neighbours are left, and of each the mark that counts.
#[test]
fn marks() {
    let differs = |job: &Job| {
        let Job::Marks(words) = job else { return false };
        words
            .windows(2)
            .any(|pair| pair[0] >> 63 == 1 && pair[1] & 4 == 4)
    };
    let words = (0..70).map(|at| u64::MAX >> (at % 2) << (at % 3)).collect();
    assert_eq!(
        shrunk(Job::Marks(words), differs),
        Job::Marks(vec![1 << 63, 4])
    );
}

/// The seed above, written, with room to spare but for one pair.
fn writing() -> WriteSymbolsJob {
    let given = seed();
    WriteSymbolsJob {
        count: 7,
        nodes: NodeList { entries: 9, given },
        fill: 77,
        pair_entries: 25,
        queue_entries: 8,
    }
}

fn pairs_of(nodes: &[Record]) -> u32 {
    let pairs = |node: &Record| if node.is_split() { 2 } else { 5 };
    nodes.iter().map(pairs).sum()
}

/// Of a tree to be written the split that counts is left, as the root, with two leaves.
#[test]
fn symbols_to_write() {
    let differs = |job: &Job| {
        let Job::WriteSymbols(job) = job else {
            return false;
        };
        let nodes = &job.nodes.given;
        let is_leaf = |child: u32| nodes.get(child as usize).is_some_and(|c| !c.is_split());
        let is_due = |node: &&Record| node.is_split() && node.prop == 12 && node.val > 20;
        let has_leaves = |s: &Record| s.gt != s.le && is_leaf(s.gt) && is_leaf(s.le);
        job.count as usize == nodes.len()
            && nodes.iter().find(is_due).is_some_and(has_leaves)
            && job.pair_entries >= pairs_of(nodes) - 1
    };
    let expected = WriteSymbolsJob {
        count: 3,
        nodes: NodeList {
            entries: 3,
            given: vec![
                Record::split(12, 21, 1, 2),
                Record::leaf(0, 0).at_depth(1),
                Record::leaf(0, 0).at_depth(1),
            ],
        },
        fill: 0,
        pair_entries: 11,
        queue_entries: 0,
    };
    assert_eq!(
        shrunk(Job::WriteSymbols(writing()), differs),
        Job::WriteSymbols(expected)
    );
}

/// Where one pair too few is what differs, room goes with the nodes.
#[test]
fn room_for_symbols() {
    let differs = |job: &Job| {
        let Job::WriteSymbols(job) = job else {
            return false;
        };
        job.count as usize == job.nodes.given.len()
            && job.count < job.queue_entries
            && job.pair_entries + 1 == pairs_of(&job.nodes.given)
    };
    let expected = WriteSymbolsJob {
        count: 1,
        nodes: NodeList {
            entries: 1,
            given: vec![Record::leaf(0, 0)],
        },
        fill: 0,
        pair_entries: 4,
        queue_entries: 2,
    };
    assert_eq!(
        shrunk(Job::WriteSymbols(writing()), differs),
        Job::WriteSymbols(expected)
    );
}

fn symbols(nodes: &[&[(u32, u32)]]) -> Vec<Symbol> {
    let symbol = |&(context, value): &(u32, u32)| Symbol { context, value };
    nodes.iter().copied().flatten().map(symbol).collect()
}

const LEAF: &[(u32, u32)] = &[(1, 0), (2, 9), (3, 77), (4, 0), (5, 0)];
const PLAIN: &[(u32, u32)] = &[(1, 0), (2, 0), (3, 0), (4, 0), (5, 0)];

/// Three splits, the second of them by property 12, and four leaves; one node too few.
fn reading() -> ReadSymbolsJob {
    let splits: [&[(u32, u32)]; 3] = [&[(1, 2), (0, 5)], &[(1, 13), (0, 99)], &[(1, 7), (0, 0)]];
    ReadSymbolsJob {
        symbols: symbols(&[splits[0], LEAF, splits[1], splits[2], LEAF, LEAF, LEAF]),
        node_entries: 6,
        fill: 77,
    }
}

/// How many nodes there are, if each is whole and as many as are due.
fn nodes_read(symbols: &[Symbol]) -> Option<usize> {
    let nodes: Vec<_> = symbols.chunk_by(|_, next| next.context != 1).collect();
    let contexts = |node: &[Symbol]| node.iter().map(|s| s.context).collect::<Vec<_>>();
    let is_whole = |node: &&[Symbol]| match node[0].value {
        0 => contexts(node) == [1, 2, 3, 4, 5],
        _ => contexts(node) == [1, 0],
    };
    let splits = nodes.iter().filter(|node| node[0].value != 0).count();
    (nodes.iter().all(is_whole) && nodes.len() == 2 * splits + 1).then_some(nodes.len())
}

/// The split that counts is left as the root, with two leaves.
#[test]
fn symbols_to_read() {
    let differs = |job: &Job| {
        let Job::ReadSymbols(job) = job else {
            return false;
        };
        let values = job.symbols.windows(2).map(|pair| [pair[0], pair[1]]);
        let mut values = values.map(|pair| pair.map(|symbol| symbol.value));
        nodes_read(&job.symbols).is_some() && values.any(|[a, b]| a == 13 && b > 40)
    };
    let expected = ReadSymbolsJob {
        symbols: symbols(&[&[(1, 13), (0, 41)], PLAIN, PLAIN]),
        node_entries: 0,
        fill: 0,
    };
    assert_eq!(
        shrunk(Job::ReadSymbols(reading()), differs),
        Job::ReadSymbols(expected)
    );
}

/// Where one node too few is what differs, room goes with the nodes; a list that is none loses pair after pair.
#[test]
fn room_for_nodes() {
    let differs = |job: &Job| {
        let Job::ReadSymbols(job) = job else {
            return false;
        };
        nodes_read(&job.symbols).is_some_and(|nodes| job.node_entries as usize + 1 == nodes)
    };
    let expected = ReadSymbolsJob {
        symbols: symbols(&[PLAIN]),
        node_entries: 0,
        fill: 0,
    };
    assert_eq!(
        shrunk(Job::ReadSymbols(reading()), differs),
        Job::ReadSymbols(expected)
    );
    let differs = |job: &Job| {
        let Job::ReadSymbols(job) = job else {
            return false;
        };
        let is_due = |symbol: &Symbol| symbol.context > 2 && symbol.value > 9;
        job.symbols.iter().any(is_due) && job.node_entries > 4
    };
    let expected = ReadSymbolsJob {
        symbols: symbols(&[&[(3, 10)]]),
        node_entries: 5,
        fill: 0,
    };
    assert_eq!(
        shrunk(Job::ReadSymbols(reading()), differs),
        Job::ReadSymbols(expected)
    );
}

/// Negative numbers come up to 0, and the ends of 32 bits do not run over.
#[test]
fn numbers() {
    let differs = |job: &Job| {
        let Job::Partition(column, threshold) = job else {
            return false;
        };
        *threshold <= -5 && column.iter().any(|&value| value >= 1_000)
    };
    let job = Job::Partition(vec![i32::MIN, 4, i32::MAX, -9, 2_000], i32::MIN);
    assert_eq!(shrunk(job, differs), Job::Partition(vec![1_000], -5));
}

/// A job of which nothing can go stays as it is.
#[test]
fn nothing_smaller() {
    let job = Job::Value(vec![(16, 3), (200, 1)]);
    let same = |tried: &Job| *tried == Job::Value(vec![(16, 3), (200, 1)]);
    assert_eq!(shrunk(job.clone(), same), job);
}
