//! Document 01, "Which number comes back", sentence by sentence, and what the
//! requests of 02 add to it. Nothing of this is in the original, which trusts
//! its callers. Each operation's checks run in the order written; the first
//! true condition gives its number.

use stream::{
    ContextsJob, Learning, LookupJob, PREDICTORS, PROPERTIES, Record, SampleJob, Settings,
    WriteSymbolsJob,
};

/// A number of documents 01 and 02, and the place that it names (else 0).
#[derive(Debug, Eq, PartialEq)]
pub(crate) struct Refusal {
    pub(crate) number: u32,
    pub(crate) place: u32,
}

pub(crate) type Verdict = Result<(), Refusal>;

const MOST_ROWS: usize = 65_536;
pub(crate) const MOST_NODES: usize = 8_191;

fn refuse_if(condition: bool, number: u32) -> Verdict {
    refuse_at(condition.then_some(0), number)
}

fn refuse_at(place: Option<usize>, number: u32) -> Verdict {
    match place {
        None => Ok(()),
        Some(place) => Err(Refusal {
            number,
            place: place as u32,
        }),
    }
}

pub(crate) fn learn(job: &Learning) -> Verdict {
    one_to_six(job)?;
    refuse_if(short_of_room(job), 7)
}

/// `nodes` is the whole lent list, at whose front the seed stands.
pub(crate) fn deepen(job: &Learning, nodes: &[Record]) -> Verdict {
    one_to_six(job)?;
    refuse_if(short_of_room(job) || short_of_seed_room(job), 7)?;
    refuse_at(fault_of_seed(&nodes[..job.seed_count as usize]), 8)
}

fn one_to_six(job: &Learning) -> Verdict {
    refuse_if(setting_outside_range(&job.settings), 1)?;
    refuse_if(no_predictor_left(&job.settings), 2)?;
    refuse_if(uneven_lists(job), 3)?;
    refuse_at(row_outside_alphabet(job), 4)?;
    refuse_if(alphabet_too_small_for_modes(job), 5)?;
    refuse_if(unfit_logarithms(job), 6)
}

pub(crate) fn lookup(job: &LookupJob, nodes: &[Record]) -> Verdict {
    refuse_if(job.properties.len() != PROPERTIES, 9)?;
    let count = job.count as usize;
    refuse_if(count == 0 || count > nodes.len(), 8)?;
    refuse_at(fault_on_way(&nodes[..count], &job.properties), 8)
}

pub(crate) fn contexts(job: &ContextsJob, nodes: &[Record]) -> Verdict {
    no_sound_tree(job.count as usize, nodes)?;
    refuse_if(
        job.context_entries < job.count || job.queue_entries < job.count,
        7,
    )
}

/// "Writers, here and later, refuse 8 as contexts do."
pub(crate) fn write_symbols(job: &WriteSymbolsJob, nodes: &[Record]) -> Verdict {
    let count = job.count as usize;
    no_sound_tree(count, nodes)?;
    let pairs: usize = nodes[..count].iter().map(pairs_of).sum();
    refuse_if(
        (job.pair_entries as usize) < pairs || job.queue_entries < job.count,
        7,
    )
}

/// `tree` is what a list of symbols is, if it is one; `entries` are those of the node list.
pub(crate) fn read_symbols(tree: Option<&[Record]>, entries: usize) -> Verdict {
    refuse_if(tree.is_none(), 11)?;
    refuse_if(tree.is_some_and(|tree| entries < tree.len()), 7)
}

/// A node's symbols: property and value, or 0, predictor, offset and two of the multiplier.
fn pairs_of(node: &Record) -> usize {
    if node.is_split() { 2 } else { 5 }
}

/// Number 8 where a whole tree is asked for: the count is beyond the list, or a node is at fault.
fn no_sound_tree(count: usize, nodes: &[Record]) -> Verdict {
    refuse_if(count > nodes.len(), 8)?;
    refuse_at(fault_of_seed(&nodes[..count]), 8)
}

pub(crate) fn sample(job: &SampleJob) -> Verdict {
    refuse_if(job.rows > MOST_ROWS as u64, 3)?;
    refuse_if(u64::from(job.output_entries) < job.rows.min(job.target), 7)
}

pub(crate) fn value(token: u32, extra: u32) -> Verdict {
    refuse_if(token > 127 || extra >= 1 << extra_count(token), 10)
}

/// The extra bits that follow a token of at most 127.
pub(crate) fn extra_count(token: u32) -> u32 {
    if token < 16 { 0 } else { token / 4 - 2 }
}

/// Number 1. A comparison with NaN is false, one with infinity decides rightly, and
/// -0.0 is not below 0.
fn setting_outside_range(s: &Settings) -> bool {
    let bits = 0.0..=1_048_576.0;
    !((1..=256).contains(&s.alphabet)
        && (1..=4_096).contains(&s.limit)
        && bits.contains(&s.split_cost)
        && bits.contains(&s.price)
        && s.smallest_node <= 65_536
        && s.side_predictors <= 14
        && s.candidates <= 32)
}

/// Number 2. Bits 14 and 15 of the set are ignored.
fn no_predictor_left(s: &Settings) -> bool {
    const WEIGHTED: usize = 6;
    !(0..PREDICTORS).any(|p| s.allowed >> p & 1 == 1 && (s.weighted || p != WEIGHTED))
}

fn rows_of(job: &Learning) -> usize {
    job.properties.len() / PROPERTIES
}

/// Number 3.
fn uneven_lists(job: &Learning) -> bool {
    let rows = rows_of(job);
    !job.properties.len().is_multiple_of(PROPERTIES)
        || rows > MOST_ROWS
        || job.tokens.len() != PREDICTORS * rows
        || (!job.residuals.is_empty() && job.residuals.len() != rows)
}

/// Number 4. The lowest row with a token not below the alphabet.
fn row_outside_alphabet(job: &Learning) -> Option<usize> {
    let outside = |&token: &u8| u32::from(token) >= job.settings.alphabet;
    Some(job.tokens.iter().position(outside)? / PREDICTORS)
}

/// Number 5. Zero-predictor tokens are rewritten to anything up to 127. Residuals
/// that are given stand for at least one row (3).
fn alphabet_too_small_for_modes(job: &Learning) -> bool {
    let s = &job.settings;
    s.modal_offsets && !job.residuals.is_empty() && s.alphabet < 128
}

/// Number 6. Entry 0 and those past the rows are not looked at; -0.0 is not below 0.
fn unfit_logarithms(job: &Learning) -> bool {
    match job.logarithms.get(1..=rows_of(job)) {
        None => true,
        Some(entries) => !entries.iter().all(|entry| (0.0..=32.0).contains(entry)),
    }
}

/// Number 7: what learning and deepening both need.
fn short_of_room(job: &Learning) -> bool {
    let nodes = 2 * job.settings.limit - 1;
    job.nodes.entries < nodes
        || job.span_entries < nodes
        || job.queue_entries < job.settings.limit
        || job.count_entries < counts_needed(&job.settings)
}

fn counts_needed(s: &Settings) -> u32 {
    let side_predictors = s.side_predictors.max(1);
    let scoring = 14 * s.alphabet + side_predictors * s.alphabet * (s.candidates + 2);
    4_096 + (56 * s.alphabet).max(scoring)
}

/// Number 7: what deepening needs beyond that. The count may be any number here.
fn short_of_seed_room(job: &Learning) -> bool {
    let counts = rows_of(job) as u64 + 2 * u64::from(job.seed_count);
    job.nodes.entries < job.seed_count
        || job.span_entries < job.seed_count
        || u64::from(job.count_entries) < counts
}

/// Number 8: the seed is no sound tree: the lowest node at fault, 0 for a wrong count.
pub(crate) fn fault_of_seed(seed: &[Record]) -> Option<usize> {
    if seed.is_empty() || seed.len() > MOST_NODES {
        return Some(0);
    }
    let parents = parents_of(seed);
    (0..seed.len()).find(|&node| {
        node_at_fault(seed, node)
            || equal_children(&seed[node])
            || !stands_right(seed, node, &parents[node])
    })
}

/// The splits that each node is a child of. A split counts once, also if both
/// of its sides name the node, and whatever else is wrong with it.
fn parents_of(seed: &[Record]) -> Vec<Vec<usize>> {
    let mut parents = vec![Vec::new(); seed.len()];
    let splits = seed.iter().enumerate().filter(|(_, node)| node.is_split());
    for (at, split) in splits {
        let le = (!equal_children(split)).then_some(split.le);
        for child in [Some(split.gt), le].into_iter().flatten() {
            if let Some(parents) = parents.get_mut(child as usize) {
                parents.push(at);
            }
        }
    }
    parents
}

/// Node 0 stores depth 0, whoever its parents are. Any other has one parent, wherever that stands, and stores one more
/// than it, with no running round at 2^32: no number is one more than the last.
fn stands_right(seed: &[Record], node: usize, parents: &[usize]) -> bool {
    let depth = |at: usize| u64::from(seed[at].depth);
    match parents {
        _ if node == 0 => depth(node) == 0,
        &[parent] => depth(node) == depth(parent) + 1,
        _ => false,
    }
}

fn equal_children(node: &Record) -> bool {
    node.is_split() && node.gt == node.le
}

/// What is wrong with a node for deepening and lookup alike: a property over
/// 23, a child not greater than the node or not below the count, or a leaf's
/// predictor over 13.
fn node_at_fault(nodes: &[Record], node: usize) -> bool {
    let record = &nodes[node];
    let astray = |child: u32| child as usize <= node || child as usize >= nodes.len();
    if record.is_split() {
        record.prop > 23 || astray(record.gt) || astray(record.le)
    } else {
        record.pred > 13
    }
}

/// Number 8 in lookup: the first node on the way that is at fault. Children are greater
/// than their parents, so the way ends.
fn fault_on_way(nodes: &[Record], properties: &[i32]) -> Option<usize> {
    let mut node = 0;
    loop {
        if node_at_fault(nodes, node) {
            return Some(node);
        }
        if !nodes[node].is_split() {
            return None;
        }
        let Record {
            prop, val, gt, le, ..
        } = nodes[node];
        node = if properties[prop as usize] > val {
            gt
        } else {
            le
        } as usize;
    }
}
