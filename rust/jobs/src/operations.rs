//! Lookup, contexts, even sampling, packing and tokens.

use crate::records::nodes;
use crate::{queue_of_words, told};
use stream::{Contexts, ContextsJob, Found, LookupJob, SampleJob, Sampled, TokenOf, ValueOf};

pub fn lookup(job: &LookupJob) -> Found {
    let nodes = nodes(&job.nodes.whole(job.fill));
    let (number, place, found) = told(ostrovuc::lookup(&nodes, job.count, &job.properties));
    Found {
        number,
        place,
        leaf: found.leaf,
        pred: found.pred,
    }
}

pub fn contexts(job: &ContextsJob) -> Contexts {
    let nodes = nodes(&job.nodes.whole(job.fill));
    let mut contexts = vec![job.fill; job.context_entries as usize];
    let mut queue = vec![job.fill; job.queue_entries as usize];
    let counted = ostrovuc::leaf_contexts(&nodes, job.count, &mut contexts, &mut queue);
    let (number, place, context_count) = told(counted);
    Contexts {
        number,
        place,
        context_count,
        contexts,
        queue: queue_of_words(&queue, job.fill),
    }
}

pub fn sample(job: &SampleJob) -> Sampled {
    let mut output = vec![job.fill; job.output_entries as usize];
    let (rows, target) = (job.rows as usize, job.target as usize);
    let (number, place, picked) = told(ostrovuc::evenly_sampled_indices(rows, target, &mut output));
    Sampled {
        number,
        place,
        picked,
        output,
    }
}

pub fn pack(values: &[i32]) -> Vec<u32> {
    values.iter().copied().map(ostrovuc::pack_signed).collect()
}

/// The token of each value.
pub fn tokens(values: &[u32]) -> Vec<TokenOf> {
    values.iter().copied().map(token).collect()
}

fn token(value: u32) -> TokenOf {
    let encoding = ostrovuc::uint_encode(value);
    TokenOf {
        token: encoding.token,
        extra_count: encoding.extra_count,
        extra_bits: encoding.extra_bits,
    }
}

/// The value of each token with its extra bits.
pub fn values(pairs: &[(u32, u32)]) -> Vec<ValueOf> {
    pairs.iter().copied().map(value).collect()
}

fn value((token, extra): (u32, u32)) -> ValueOf {
    let (number, place, value) = told(ostrovuc::token_value(token, extra));
    ValueOf {
        number,
        place,
        value,
    }
}
