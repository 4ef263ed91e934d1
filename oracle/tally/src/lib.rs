//! What the documents promise of an answer whatever tree was found, demand 3 among it, held to the answers that
//! somebody gave. Shares nothing with the oracle and the port but the format.

mod counts;
mod growth;
mod pairs;
mod parts;
mod rules;
mod runs;
mod symbols;
#[cfg(test)]
mod tests;

pub use counts::Tally;

use std::fmt::Display;
use std::io::Read;
use stream::{Answer, Damaged, Job, Learned, Learning, Messages};

/// What is broken, in words.
type Checked<T = ()> = Result<T, String>;

fn ensure(holds: bool, otherwise: impl Display) -> Checked {
    if holds {
        Ok(())
    } else {
        Err(otherwise.to_string())
    }
}

/// A job of learning or deepening, and its answer.
struct Run {
    deepens: bool,
    job: Learning,
    answer: Learned,
}

/// Checks each answer, and each two neighbours that are jobs of learning or of deepening and differ only in the leaf
/// limit, k and k + 1. Ends at the first promise that is broken.
pub fn tally(jobs: &mut impl Read, answers: &mut impl Read) -> Result<Tally, Damaged> {
    let (mut jobs, mut answers) = (Messages::open(jobs)?, Messages::open(answers)?);
    let mut tally = Tally::default();
    let mut before = None;
    loop {
        let (job, answer) = match (jobs.next_message()?, answers.next_message()?) {
            (None, None) => return Ok(tally),
            (Some(job), Some(answer)) => (Job::read(&job)?, Answer::read(&answer)?),
            _ => return Err(Damaged("not as many answers as jobs".into())),
        };
        let number = tally.jobs();
        tally.count(&answer);
        let checked = check(job, answer, before, &mut tally);
        before = checked.map_err(|what| Damaged(format!("job {number}: {what}")))?;
    }
}

/// Gives the run, if it is one, for the next to be paired with.
fn check(job: Job, answer: Answer, before: Option<Run>, tally: &mut Tally) -> Checked<Option<Run>> {
    let (deepens, job, answer) = match (job, answer) {
        (Job::Learn(job), Answer::Learned(answer)) => (false, job, answer),
        (Job::Deepen(job), Answer::Deepened(answer)) => (true, job, answer),
        (job, answer) => return parts::check(&job, &answer).map(|()| None),
    };
    let run = Run {
        deepens,
        job,
        answer,
    };
    runs::check(&run.job, &run.answer)?;
    tally.count_run(&run);
    if let Some(before) = before
        && let Some(pair) = pairs::check(&before, &run)?
    {
        tally.count_pair(deepens, pair);
    }
    Ok(Some(run))
}
