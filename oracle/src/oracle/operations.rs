//! From a job to its answer: a refusal, or the original's answer with what
//! documents 01 and 02 add to it.

use crate::adaptive_quant;
use crate::additions::{Exit, refused_lists};
use crate::coder_scratch::CoderScratch;
use crate::depths;
use crate::entropy::{pack_signed, uint_encode};
use crate::lossless::leaf_contexts;
use crate::ma_tree::{MaProperties, MaSamples, hooks};
use crate::marks;
use crate::refusals::{self, Refusal};
use crate::symbols;
use stream::{
    Answer, Contexts, ContextsJob, Damaged, Found, Job, Learned, Learning, LookupJob, PREDICTORS,
    PROPERTIES, PruneJob, Pruned, Record, Runs, SampleJob, Sampled, ScoreJob, Scored, Span,
    TokenOf, ValueOf,
};

pub(crate) fn answer(job: Job, scratch: &mut CoderScratch) -> Result<Answer, Damaged> {
    Ok(match job {
        Job::Learn(job) => Answer::Learned(learn(&job, scratch)),
        Job::Deepen(job) => Answer::Deepened(deepen(&job, scratch)),
        Job::Lookup(job) => Answer::Found(lookup(&job)),
        Job::Contexts(job) => Answer::Contexts(contexts(&job)),
        Job::Sample(job) => Answer::Sampled(sample(&job)),
        Job::Pack(values) => Answer::Packed(values.into_iter().map(pack_signed).collect()),
        Job::Token(values) => Answer::Tokens(values.into_iter().map(token).collect()),
        Job::Value(pairs) => Answer::Values(pairs.into_iter().map(value).collect()),
        Job::Mode(residuals) => mode(&residuals, scratch),
        Job::Candidates(column, limit) => {
            Answer::Candidates(hooks::candidates(&column, limit as usize, scratch))
        }
        Job::Partition(mut column, threshold) => {
            let above = hooks::partition(&mut column, threshold);
            Answer::Partitioned(above as u32, column)
        }
        Job::Prune(job) => Answer::Pruned(prune(job)?),
        Job::WriteSymbols(job) => Answer::SymbolsWritten(symbols::write(&job)),
        Job::ReadSymbols(job) => Answer::SymbolsRead(symbols::read(&job)),
        Job::Score(job) => Answer::Scored(score(&job, scratch)),
        Job::Marks(words) => Answer::Places(marks::places(&words, scratch)),
    })
}

fn learn(job: &Learning, scratch: &mut CoderScratch) -> Learned {
    if let Err(refusal) = refusals::learn(job) {
        return refused_lists(job, refusal);
    }
    let mut samples = samples_of(job);
    adaptive_quant::lend(&job.logarithms, samples.len());
    let tree = hooks::learn(&mut samples, &job.settings, scratch);
    Exit { tree, samples }.lists(job, scratch)
}

fn deepen(job: &Learning, scratch: &mut CoderScratch) -> Learned {
    let nodes = job.nodes.whole(job.fill);
    if let Err(refusal) = refusals::deepen(job, &nodes) {
        return refused_lists(job, refusal);
    }
    let samples = samples_of(job);
    adaptive_quant::lend(&job.logarithms, samples.len());
    let seed = &nodes[..job.seed_count as usize];
    let (tree, samples) = hooks::deepen(samples, &job.settings, seed, scratch);
    Exit { tree, samples }.lists(job, scratch)
}

fn samples_of(job: &Learning) -> MaSamples {
    let (properties, _) = job.properties.as_chunks::<PROPERTIES>();
    let (tokens, _) = job.tokens.as_chunks::<PREDICTORS>();
    let mut samples = MaSamples::with_capacity(properties.len());
    for (row, (&properties, &tokens)) in properties.iter().zip(tokens).enumerate() {
        match job.residuals.get(row) {
            Some(&residual) => samples.push_val(properties, tokens, residual),
            None => samples.push(properties, tokens),
        }
    }
    samples
}

fn lookup(job: &LookupJob) -> Found {
    let nodes = job.nodes.whole(job.fill);
    if let Err(Refusal { number, place }) = refusals::lookup(job, &nodes) {
        return Found {
            number,
            place,
            ..Found::default()
        };
    }
    let properties = job
        .properties
        .as_array::<PROPERTIES>()
        .expect("refused with 9");
    let (leaf, pred) = hooks::tree_of(&nodes).lookup(properties);
    Found {
        leaf,
        pred,
        ..Found::default()
    }
}

fn contexts(job: &ContextsJob) -> Contexts {
    let nodes = job.nodes.whole(job.fill);
    let mut contexts = vec![job.fill; job.context_entries as usize];
    if let Err(Refusal { number, place }) = refusals::contexts(job, &nodes) {
        return Contexts {
            number,
            place,
            context_count: 0,
            contexts,
            queue: Runs::of(job.fill, job.queue_entries),
        };
    }
    let (written, context_count) = leaf_contexts(&hooks::tree_of(&nodes[..job.count as usize]));
    contexts[..written.len()].copy_from_slice(&written);
    Contexts {
        number: 0,
        place: 0,
        context_count,
        contexts,
        queue: Runs::of(0, job.queue_entries),
    }
}

fn sample(job: &SampleJob) -> Sampled {
    let mut output = vec![job.fill; job.output_entries as usize];
    if let Err(Refusal { number, place }) = refusals::sample(job) {
        return Sampled {
            number,
            place,
            picked: 0,
            output,
        };
    }
    let mut samples = MaSamples::with_capacity(0);
    samples.props = MaProperties::zeroed(job.rows as usize);
    let picked = samples.evenly_sampled_indices(job.target as usize);
    output[..picked.len()].copy_from_slice(&picked);
    Sampled {
        number: 0,
        place: 0,
        picked: picked.len() as u32,
        output,
    }
}

fn token(value: u32) -> TokenOf {
    let (token, extra_count, extra_bits) = uint_encode(value);
    TokenOf {
        token,
        extra_count,
        extra_bits,
    }
}

/// Document 01 adds the way back from a token.
fn value((token, extra): (u32, u32)) -> ValueOf {
    match refusals::value(token, extra) {
        Err(Refusal { number, place }) => ValueOf {
            number,
            place,
            value: 0,
        },
        Ok(()) if token < 16 => ValueOf {
            value: token,
            ..ValueOf::default()
        },
        Ok(()) => ValueOf {
            value: ((4 + token % 4) << refusals::extra_count(token)) + extra,
            ..ValueOf::default()
        },
    }
}

fn mode(residuals: &[i32], scratch: &mut CoderScratch) -> Answer {
    let mut tokens = vec![[0; PREDICTORS]; residuals.len()];
    let mode = hooks::mode_step(&mut tokens, residuals, scratch);
    Answer::Mode(mode, tokens.iter().map(|tokens| tokens[0]).collect())
}

fn prune(job: PruneJob) -> Result<Pruned, Damaged> {
    if let Some(node) = refusals::fault_of_seed(&job.nodes) {
        return Err(Damaged(format!(
            "a tree to prune is at fault in node {node}"
        )));
    }
    let (mut nodes, mut spans) = (job.nodes, job.spans);
    let written = nodes.len();
    let estimated_bits = hooks::prune(&mut nodes, &mut spans, job.price);
    depths::store(&mut nodes);
    let node_count = nodes.len() as u32;
    nodes.resize(written, Record::BLANK);
    spans.resize(written, Span::BLANK);
    Ok(Pruned {
        estimated_bits,
        node_count,
        nodes,
        spans,
    })
}

/// The original gives the threshold and its cost. How many rows are at or under it is counted here, row by row.
fn score(job: &ScoreJob, scratch: &mut CoderScratch) -> Scored {
    adaptive_quant::lend(&job.logarithms, job.column.len());
    let Some((threshold, cost)) = hooks::score(job, scratch) else {
        return Scored::default();
    };
    let below = job.column.iter().filter(|&&value| value <= threshold);
    Scored {
        found: true,
        threshold,
        cost,
        below: below.count() as u32,
    }
}
