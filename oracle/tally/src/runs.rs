//! What holds of every answer to learning and deepening.

use crate::rules::{self, Rows};
use crate::{Checked, ensure, growth};
use std::ops::Range;
use stream::{Learned, Learning, PREDICTORS, PROPERTIES, Record, Runs, Span};

pub fn check(job: &Learning, answer: &Learned) -> Checked {
    if answer.number != 0 {
        refused(job, answer)
    } else {
        accepted(job, answer)
    }
}

/// "A refusal changes no lent list."
fn refused(job: &Learning, answer: &Learned) -> Checked {
    let bits = (answer.estimated_bits.to_bits(), answer.flat_bits.to_bits());
    ensure(
        (answer.node_count, answer.leaf_count, bits) == (0, 0, (0, 0)),
        "a refusal says more than number and place",
    )?;
    ensure(
        answer.nodes == job.nodes.whole(job.fill),
        "refused, nodes changed",
    )?;
    ensure(
        answer.spans == Span::list(job.span_entries, job.fill),
        "refused, spans changed",
    )?;
    ensure(
        answer.properties == job.properties
            && answer.tokens == job.tokens
            && answer.residuals == job.residuals,
        "refused, rows changed",
    )?;
    ensure(
        answer.queue == Runs::of(job.fill, job.queue_entries)
            && answer.counts == Runs::of(job.fill, job.count_entries),
        "refused, space changed",
    )
}

/// Spans hold their rows after every run; of tokens demand 3 says nothing where a tree was pruned without settling.
fn accepted(job: &Learning, answer: &Learned) -> Checked {
    ensure(answer.place == 0, "accepted, yet a place is named")?;
    let nodes = job.nodes.whole(job.fill);
    let seed = nodes.get(..job.seed_count as usize);
    ensure(
        job.seed_count == 0 || seed.is_some_and(rules::is_sound),
        "accepted, yet the seed is no sound tree",
    )?;
    ensure(
        answer.queue == Runs::of(0, job.queue_entries)
            && answer.counts == Runs::of(0, job.count_entries),
        "space does not hold zeros",
    )?;
    let tree = tree(answer)?;
    ensure(rules::is_tree(tree), "no sound tree")?;
    rules::depths_are_stored(tree)?;
    let leaves = tree.iter().filter(|node| !node.is_split()).count();
    ensure(
        leaves == answer.leaf_count as usize,
        "leaf count does not fit the tree",
    )?;
    entries(job, answer)?;
    spans_hold_their_rows(job, answer)?;
    spans_hold_each_place_once(answer)?;
    splits_part_their_spans(job, answer)?;
    if uses_modes(job) && (is_unpruned(job) || job.settings.settling) {
        tokens_are_fresh(answer)?;
    }
    growth::check(job, answer)
}

/// Pruning is for prices above 0.
pub fn is_unpruned(job: &Learning) -> bool {
    job.settings.price <= 0.0
}

/// Residuals and modal offsets are used.
pub fn uses_modes(job: &Learning) -> bool {
    job.settings.modal_offsets && !job.residuals.is_empty()
}

/// The answer's tree; there is a span for each of its nodes.
pub fn tree(answer: &Learned) -> Checked<&[Record]> {
    let count = answer.node_count as usize;
    let room = answer.nodes.len().min(answer.spans.len());
    ensure(
        count <= room,
        format_args!("{count} nodes in a list of {room}"),
    )?;
    Ok(&answer.nodes[..count])
}

/// Leaves hold 0 where they have no use for a field; what pruning vacated is
/// blank, and from some entry on everything is as before.
fn entries(job: &Learning, answer: &Learned) -> Checked {
    let count = answer.node_count as usize;
    let plain = |node: &Record| {
        node.is_split() || [node.kind, node.prop, node.val as u32, node.gt, node.le] == [0; 5]
    };
    ensure(answer.nodes[..count].iter().all(plain), "a leaf has junk")?;
    let nodes = job.nodes.whole(job.fill);
    let spans = Span::list(job.span_entries, job.fill);
    ensure(
        (answer.nodes.len(), answer.spans.len()) == (nodes.len(), spans.len()),
        "the lists of nodes and spans have other lengths",
    )?;
    let node_end = end_of_blank(&answer.nodes[count..], &nodes[count..], Record::BLANK);
    let span_end = end_of_blank(&answer.spans[count..], &spans[count..], Span::BLANK);
    ensure(
        node_end.is_some() && span_end.is_some(),
        "an entry past those written changed",
    )?;
    ensure(
        !is_unpruned(job) || (node_end, span_end) == (Some(0), Some(0)),
        "an entry was vacated without pruning",
    )
}

/// How many entries are newly blank, if all after them are as before.
fn end_of_blank<T: PartialEq>(after: &[T], before: &[T], blank: T) -> Option<usize> {
    let end = (0..after.len()).rfind(|&i| after[i] != before[i]);
    let end = end.map_or(0, |last| last + 1);
    after[..end]
        .iter()
        .all(|entry| *entry == blank)
        .then_some(end)
}

/// Each leaf and the places of its span.
fn leaves(answer: &Learned) -> Checked<Vec<(usize, Range<usize>)>> {
    let rows = Rows::after(answer).count();
    let is_leaf = |node: &(usize, &Record)| !node.1.is_split();
    let nodes = tree(answer)?.iter().enumerate().filter(is_leaf);
    nodes
        .map(|(leaf, _)| match rules::places(answer.spans[leaf], rows) {
            Some(span) => Ok((leaf, span)),
            None => Err(format!("the span of leaf {leaf} holds no places")),
        })
        .collect()
}

/// "Every leaf's span holds exactly those rows handed in whose lookup reaches it, each as often as handed in." Rows are
/// matched without the zero predictor's token where that column is rewritten.
fn spans_hold_their_rows(job: &Learning, answer: &Learned) -> Checked {
    let (handed_in, held) = (Rows::handed_in(job), Rows::after(answer));
    ensure(handed_in.fit(&held), "the lists of rows have other lengths")?;
    let but_zero = uses_modes(job);
    let tree = tree(answer)?;
    let mut reaching = vec![Vec::new(); tree.len()];
    for place in 0..handed_in.count() {
        let row = handed_in.matched(place, but_zero);
        reaching[rules::lookup(tree, &row.properties)?].push(row);
    }
    for (leaf, span) in leaves(answer)? {
        let mut due = std::mem::take(&mut reaching[leaf]);
        due.sort_unstable();
        let found = held.sorted(span, but_zero);
        let (rows, wanted) = (found.len(), due.len());
        ensure(
            due == found,
            format_args!(
                "the span of leaf {leaf} holds {rows} rows, and not the {wanted} that reach it"
            ),
        )?;
    }
    Ok(())
}

/// Each row stands in the span of one leaf.
fn spans_hold_each_place_once(answer: &Learned) -> Checked {
    let mut seen = vec![false; Rows::after(answer).count()];
    for place in leaves(answer)?.into_iter().flat_map(|(_, span)| span) {
        let first_seen = !std::mem::replace(&mut seen[place], true);
        ensure(first_seen, format_args!("two spans have place {place}"))?;
    }
    match seen.iter().position(|&seen| !seen) {
        Some(place) => Err(format!("no span has place {place}")),
        None => Ok(()),
    }
}

/// Each split but a seed's parts its span between its children: gt's rows stand first, and le has just the rows at or
/// under the value, neither none nor all. A seed's splits, whose cost has no end, have no span.
pub fn splits_part_their_spans(job: &Learning, answer: &Learned) -> Checked {
    let is_of_seed = |node: &Record| job.seed_count != 0 && node.cost == f32::INFINITY.to_bits();
    let splits = tree(answer)?.iter().enumerate();
    for (split, node) in splits.filter(|(_, node)| node.is_split()) {
        if !is_of_seed(node) {
            parts_its_span(split, node, answer)?;
        } else if answer.spans[split] != Span::BLANK {
            return Err(format!("split {split}, of the seed, has a span"));
        }
    }
    Ok(())
}

fn parts_its_span(split: usize, node: &Record, answer: &Learned) -> Checked {
    let places = |at| rules::places(answer.spans[at], Rows::after(answer).count());
    let [own, gt, le] = [split, node.gt as usize, node.le as usize].map(places);
    let (Some(own), Some(gt), Some(le)) = (own, gt, le) else {
        return Err(format!("the span of split {split} holds no places"));
    };
    ensure(
        (gt.start, gt.end, le.end) == (own.start, le.start, own.end),
        format_args!("the children of split {split} do not share its span"),
    )?;
    let value = |place: usize| answer.properties[PROPERTIES * place + node.prop as usize];
    let due = own.filter(|&place| value(place) <= node.val).count();
    let found = le.len();
    ensure(
        found == due,
        format_args!("split {split} has {found} rows go below, and not {due}"),
    )?;
    ensure(
        !gt.is_empty() && !le.is_empty(),
        format_args!("all rows of split {split} go one way"),
    )
}

/// "Every row's zero-predictor token is the one worked afresh from its residual
/// and its span's mode." Leaves of the zero predictor have that mode for their offset.
fn tokens_are_fresh(answer: &Learned) -> Checked {
    for (leaf, span) in leaves(answer)? {
        let node = &answer.nodes[leaf];
        let mode = rules::mode(&answer.residuals[span.clone()]);
        let offset = if node.pred == 0 { mode } else { 0 };
        ensure(
            span.is_empty() || node.offset == offset,
            format_args!("leaf {leaf} has offset {}, not {offset}", node.offset),
        )?;
        for place in span {
            let due = rules::zero_token(answer.residuals[place], mode);
            let token = answer.tokens[PREDICTORS * place];
            ensure(
                token == due,
                format_args!(
                    "a stale token: the row at place {place}, leaf {leaf}, has {token}, not {due}"
                ),
            )?;
        }
    }
    Ok(())
}
