//! One batch: its jobs made, answered by both, and the answers compared byte for byte.

use crate::plan::Batch;
use crate::programs::Programs;
use crate::{Failure, Result};
use std::collections::BTreeMap;
use std::fs::File;
use std::io::BufReader;
use std::path::Path;
use stream::{Message, Messages};

/// How many jobs of each kind, and how many of them the oracle refused.
pub type Tally = BTreeMap<u32, Counts>;

#[derive(Clone, Copy, Debug, Default, Eq, PartialEq)]
pub struct Counts {
    pub jobs: u64,
    pub refused: u64,
}

/// The smallest job of a batch that was answered differently.
pub struct Difference {
    pub index: u64,
    pub job: Message,
    /// How many of the batch were.
    pub differ: u64,
}

pub struct Compared {
    pub tally: Tally,
    pub difference: Option<Difference>,
}

pub fn run(batch: &Batch, programs: &Programs, folder: &Path) -> Result<Compared> {
    let jobs = folder.join("jobs");
    programs.generate(batch, &jobs)?;
    let [oracle, driver] = programs.answers(&jobs, folder)?;
    let compared = compare(batch.first, &jobs, &oracle, &driver)?;
    let seen: u64 = compared.tally.values().map(|counts| counts.jobs).sum();
    match compared.difference {
        None if seen != batch.count => Err(Failure(format!(
            "gen made {seen} jobs, not {}",
            batch.count
        ))),
        _ => Ok(compared),
    }
}

/// A stream of this state. One of another is no answer, whatever it says.
fn open(path: &Path) -> Result<Messages<BufReader<File>>> {
    let file = File::open(path)?;
    let messages = Messages::open(BufReader::with_capacity(1 << 20, file));
    messages.map_err(|damaged| Failure(format!("{}: {damaged}", path.display())))
}

fn compare(first: u64, jobs: &Path, oracle: &Path, driver: &Path) -> Result<Compared> {
    let (mut jobs, mut oracle, mut driver) = (open(jobs)?, open(oracle)?, open(driver)?);
    let mut tally = Tally::new();
    let mut difference: Option<Difference> = None;
    let mut index = first;
    while let Some(job) = jobs.next_message()? {
        let expected = oracle.next_message()?.ok_or_else(short)?;
        count(&mut tally, &job, &expected);
        // A driver that failed has answered no job from here on.
        let given = driver.next_message().ok().flatten();
        let fell_out = given.is_none();
        if !given.is_some_and(|given| given.kind == expected.kind && given.body == expected.body) {
            note(&mut difference, index, job);
        }
        if fell_out {
            return Ok(Compared { tally, difference });
        }
        index += 1;
    }
    match (oracle.next_message()?, driver.next_message()?) {
        (None, None) => Ok(Compared { tally, difference }),
        _ => Err(Failure("more answers than jobs".into())),
    }
}

fn short() -> Failure {
    Failure("the oracle's answers end early".into())
}

/// The answers of learning, deepening, lookup, contexts and sampling begin with document 01's number, those of the
/// symbols' writer and reader with 02's.
pub fn begins_with_a_number(kind: u32) -> bool {
    matches!(kind, 1..=5 | 32 | 33)
}

fn count(tally: &mut Tally, job: &Message, answer: &Message) {
    let counts = tally.entry(job.kind).or_default();
    counts.jobs += 1;
    if begins_with_a_number(job.kind) && answer.body.first_chunk() != Some(&[0; 4]) {
        counts.refused += 1;
    }
}

fn note(difference: &mut Option<Difference>, index: u64, job: Message) {
    match difference {
        Some(least) => {
            least.differ += 1;
            if job.body.len() < least.job.body.len() {
                (least.index, least.job) = (index, job);
            }
        }
        None => {
            *difference = Some(Difference {
                index,
                job,
                differ: 1,
            })
        }
    }
}
