//! Nodes of a kind that is neither 0 nor 1.

use crate::rng::Rng;
use crate::{At, parts, seeds};
use stream::{Job, Record};

/// Deepening, lookup and contexts by turns. Leaves have any kind; in some jobs splits have too, and so are leaves.
pub fn kinds(at: At) -> Job {
    let mut job = match at.index % 4 {
        0 => seeds::seeds(at),
        1 => seeds::seed_faults(at),
        2 => parts::lookup(at),
        _ => parts::contexts(at),
    };
    let mut rng = Rng::new("kinds of nodes", at.seed, at.index);
    let from_splits = rng.one_in(4);
    for node in nodes_of(&mut job) {
        let is_due = if node.is_split() {
            from_splits && rng.one_in(8)
        } else {
            rng.one_in(2)
        };
        if is_due {
            node.kind = any_kind(&mut rng);
        }
    }
    job
}

fn nodes_of(job: &mut Job) -> &mut [Record] {
    match job {
        Job::Deepen(job) => &mut job.nodes.given,
        Job::Lookup(job) => &mut job.nodes.given,
        Job::Contexts(job) => &mut job.nodes.given,
        _ => &mut [],
    }
}

/// A leaf's kind; near a split's, or with one in its low bytes.
pub fn any_kind(rng: &mut Rng) -> u32 {
    let any = rng.word() & !1;
    rng.pick(&[0, 2, 3, 0x100, 0x101, 0x1_0001, 0x8000_0001, u32::MAX, any])
}
