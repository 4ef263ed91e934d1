//! What holds of every answer to the other jobs.

use crate::{Checked, ensure};
use crate::{rules, symbols};
use std::collections::BTreeSet;
use stream::{
    Answer, Contexts, ContextsJob, Found, Job, LookupJob, MARKS, PROPERTIES, PruneJob, Pruned,
    Record, Runs, SampleJob, Sampled, ScoreJob, Scored, Span, TokenOf, ValueOf,
};

pub fn check(job: &Job, answer: &Answer) -> Checked {
    match (job, answer) {
        (Job::Lookup(job), Answer::Found(answer)) => lookup(job, answer),
        (Job::Contexts(job), Answer::Contexts(answer)) => contexts(job, answer),
        (Job::Sample(job), Answer::Sampled(answer)) => sampling(job, answer),
        (Job::Pack(values), Answer::Packed(packed)) => {
            let back: Vec<i32> = packed.iter().map(|&value| rules::unpacked(value)).collect();
            ensure(*values == back, "packing does not read back")
        }
        (Job::Token(values), Answer::Tokens(tokens)) => token(values, tokens),
        (Job::Value(pairs), Answer::Values(values)) => value(pairs, values),
        (Job::Mode(residuals), Answer::Mode(mode, tokens)) => {
            let fresh = residuals
                .iter()
                .map(|&residual| rules::zero_token(residual, *mode));
            ensure(*mode == rules::mode(residuals), "not the mode")?;
            ensure(fresh.eq(tokens.iter().copied()), "not the mode's tokens")
        }
        (Job::Candidates(column, limit), Answer::Candidates(found)) => {
            ensure(*found == candidates(column, *limit), "other candidates")
        }
        (Job::Partition(column, threshold), Answer::Partitioned(above, moved)) => {
            partition(column, *threshold, *above as usize, moved)
        }
        (Job::Prune(job), Answer::Pruned(answer)) => prune(job, answer),
        (Job::WriteSymbols(job), Answer::SymbolsWritten(answer)) => symbols::written(job, answer),
        (Job::ReadSymbols(job), Answer::SymbolsRead(answer)) => symbols::read(job, answer),
        (Job::Score(job), Answer::Scored(answer)) => score(job, answer),
        (Job::Marks(words), Answer::Places(places)) => marks(words, places),
        _ => Err("an answer of another kind".into()),
    }
}

fn lookup(job: &LookupJob, answer: &Found) -> Checked {
    if answer.number != 0 {
        return ensure(
            (answer.leaf, answer.pred) == (0, 0),
            "a refusal that says more",
        );
    }
    let nodes = job.nodes.whole(job.fill);
    let properties: &[i32; PROPERTIES] = match job.properties.as_slice().try_into() {
        Ok(properties) => properties,
        Err(_) => return Err("accepted without 24 properties".into()),
    };
    let Some(tree) = nodes.get(..job.count as usize) else {
        return Err("accepted with more nodes than there are".into());
    };
    let leaf = rules::lookup(tree, properties)?;
    ensure(
        (answer.leaf as usize, answer.pred) == (leaf, nodes[leaf].pred),
        "another leaf",
    )
}

/// Contexts count leaves breadth first; the list behind them stays.
fn contexts(job: &ContextsJob, answer: &Contexts) -> Checked {
    let mut expected = vec![job.fill; job.context_entries as usize];
    if answer.number != 0 {
        let queue = Runs::of(job.fill, job.queue_entries);
        let untouched = answer.contexts == expected && answer.queue == queue;
        return ensure(
            untouched && answer.context_count == 0,
            "refused, yet changed",
        );
    }
    let nodes = job.nodes.whole(job.fill);
    let nodes = nodes.get(..job.count as usize).unwrap_or_default();
    ensure(
        rules::is_sound(nodes) && nodes.len() <= expected.len(),
        "accepted without a sound tree and room",
    )?;
    let mut level = vec![0];
    let mut count = 0;
    while !level.is_empty() {
        let mut below = Vec::new();
        for node in level {
            if nodes[node].is_split() {
                expected[node] = u32::MAX;
                below.extend([nodes[node].gt, nodes[node].le].map(|child| child as usize));
            } else {
                expected[node] = count;
                count += 1;
            }
        }
        level = below;
    }
    ensure(
        answer.contexts == expected && answer.context_count == count,
        "other contexts",
    )?;
    ensure(
        answer.queue == Runs::of(0, job.queue_entries),
        "queue does not hold zeros",
    )
}

fn sampling(job: &SampleJob, answer: &Sampled) -> Checked {
    let Some((picked, rest)) = answer.output.split_at_checked(answer.picked as usize) else {
        return Err("more rows picked than the output holds".into());
    };
    ensure(
        rest.iter().all(|&entry| entry == job.fill),
        "output past the picked changed",
    )?;
    if answer.number != 0 {
        return ensure(picked.is_empty(), "a refusal that picks");
    }
    let count = job.rows.min(job.target);
    let expected = (0..count).map(|k| (k * job.rows / count) as u32);
    ensure(expected.eq(picked.iter().copied()), "other rows picked")
}

fn token(values: &[u32], tokens: &[TokenOf]) -> Checked {
    ensure(values.len() == tokens.len(), "not as many tokens as values")?;
    for (&value, token) in values.iter().zip(tokens) {
        let (back, bits) = rules::read_token(token.token, token.extra_bits);
        ensure(back == u64::from(value), "a token does not read back")?;
        ensure(
            bits == token.extra_count && u64::from(token.extra_bits) < 1 << bits,
            "other extra bits than the token's",
        )?;
    }
    Ok(())
}

fn value(pairs: &[(u32, u32)], values: &[ValueOf]) -> Checked {
    ensure(pairs.len() == values.len(), "not as many values as tokens")?;
    for (&(token, extra), value) in pairs.iter().zip(values) {
        let readable = token <= 127 && {
            let (_, bits) = rules::read_token(token, extra);
            u64::from(extra) < 1 << bits
        };
        let expected = match readable {
            true => (0, 0, rules::read_token(token, extra).0 as u32),
            false => (10, 0, 0),
        };
        ensure(
            (value.number, value.place, value.value) == expected,
            "another value",
        )?;
    }
    Ok(())
}

fn candidates(column: &[i32], limit: u32) -> Vec<i32> {
    let stride = (column.len() / 1_024).max(1);
    let stride = stride + usize::from(stride.is_multiple_of(2));
    let probed: BTreeSet<i32> = column.iter().copied().step_by(stride).collect();
    let values: Vec<i32> = probed.into_iter().collect();
    let d = values.len().saturating_sub(1);
    let n = d.min(limit as usize).min(32);
    (0..n).map(|k| values[k * d / n]).collect()
}

fn partition(column: &[i32], threshold: i32, above: usize, moved: &[i32]) -> Checked {
    let sorted = |list: &[i32]| {
        let mut list = list.to_vec();
        list.sort_unstable();
        list
    };
    ensure(
        sorted(column) == sorted(moved),
        "other values after the partition",
    )?;
    let is_parted = moved.split_at_checked(above).is_some_and(|(gt, le)| {
        gt.iter().all(|&v| v > threshold) && le.iter().all(|&v| v <= threshold)
    });
    ensure(is_parted, "not parted at the threshold")
}

/// A sound tree of old nodes with their spans, the rest blank.
fn prune(job: &PruneJob, answer: &Pruned) -> Checked {
    let count = answer.node_count as usize;
    ensure(
        (answer.nodes.len(), answer.spans.len()) == (job.nodes.len(), job.spans.len()),
        "not as many entries as before",
    )?;
    ensure(
        count <= answer.nodes.len() && rules::is_tree(&answer.nodes[..count]),
        "no sound tree",
    )?;
    rules::depths_are_stored(&answer.nodes[..count])?;
    ensure(
        answer.nodes[count..]
            .iter()
            .all(|node| *node == Record::BLANK)
            && answer.spans[count..]
                .iter()
                .all(|span| *span == Span::BLANK),
        "a vacated entry is not blank",
    )?;
    let beside = |n: &Record, span: &Span| (n.cost, n.pred, n.offset, n.depth, *span);
    let old: Vec<_> = job
        .nodes
        .iter()
        .zip(&job.spans)
        .map(|(n, s)| beside(n, s))
        .collect();
    let kept = answer.nodes[..count].iter().zip(&answer.spans);
    for (node, span) in kept {
        ensure(
            old.contains(&beside(node, span)),
            "a node that was not there before",
        )?;
    }
    Ok(())
}

/// One of the candidates with rows on both sides, and how many are on the le side; nothing only if there is none.
fn score(job: &ScoreJob, answer: &Scored) -> Checked {
    let rows = job.column.len();
    let below = |threshold: i32| {
        job.column
            .iter()
            .filter(|&&value| value <= threshold)
            .count()
    };
    if !answer.found {
        let parts = |&candidate: &i32| (1..rows).contains(&below(candidate));
        let rest = (answer.threshold, answer.cost.to_bits(), answer.below);
        ensure(rest == (0, 0, 0), "nothing found, yet more is said")?;
        return ensure(
            !job.candidates.iter().any(parts),
            "nothing found, where a candidate has rows on both sides",
        );
    }
    ensure(
        job.candidates.contains(&answer.threshold),
        "the threshold is no candidate",
    )?;
    let count = answer.below as usize;
    ensure(
        count == below(answer.threshold),
        "not the rows at or under the threshold",
    )?;
    ensure((1..rows).contains(&count), "a side is empty")?;
    ensure(!answer.cost.is_nan(), "the cost is no number")
}

/// Ascending places of set marks, as many as are set: each of them once.
fn marks(words: &[u64], places: &[u32]) -> Checked {
    let ascend = places.is_sorted_by(|a, b| a < b);
    ensure(ascend, "the places do not ascend")?;
    for place in places.iter().map(|&place| place as usize) {
        let word = words.get(place / MARKS);
        let word = word.ok_or("a place beyond the words")?;
        let is_set = word >> (place % MARKS) & 1 == 1;
        ensure(is_set, "a place whose mark is not set")?;
    }
    let set: usize = words.iter().map(|word| word.count_ones() as usize).sum();
    ensure(places.len() == set, "not as many places as set marks")
}
