//! Pairs of jobs for demand 3, made of any jobs.

use crate::draft::counts_for;
use std::io::{BufRead, Write};
use stream::{Damaged, Job, Learning, Messages, PROPERTIES, STATE, version, write_message};

/// Each learning and deepening as it is, then twice unpruned, with limits k and k + 1, behind the version message.
pub fn write_pairs(input: &mut impl BufRead, output: &mut impl Write) -> Result<(), Damaged> {
    let mut jobs = Messages::open(input)?;
    write_message(output, &version(STATE))?;
    while let Some(message) = jobs.next_message()? {
        let (wrap, job): (fn(Learning) -> Job, _) = match Job::read(&message)? {
            Job::Learn(job) => (Job::Learn, job),
            Job::Deepen(job) => (Job::Deepen, job),
            _ => continue,
        };
        write_message(output, &message)?;
        for made in pair(&job).into_iter().flatten() {
            write_message(output, &wrap(made).message())?;
        }
    }
    Ok(())
}

/// The job unpruned, with limits k and k + 1 and room enough for both; none if its settings or its seed's size are
/// out of range, which no room mends.
fn pair(job: &Learning) -> Option<[Learning; 2]> {
    let set = &job.settings;
    let in_range = (1..=256).contains(&set.alphabet)
        && (1..=4_096).contains(&set.limit)
        && set.side_predictors <= 14
        && set.candidates <= 32
        && job.seed_count <= 8_191;
    if !in_range {
        return None;
    }
    let k = set.limit.min(4_095);
    let rows = (job.properties.len() / PROPERTIES) as u32;
    let counts = counts_for(set).max(rows + 2 * job.seed_count);
    let mut first = job.clone();
    first.settings.price = 0.0;
    first.settings.limit = k;
    first.nodes.entries = job.nodes.entries.max(2 * k + 1).max(job.seed_count);
    first.span_entries = job.span_entries.max(2 * k + 1).max(job.seed_count);
    first.queue_entries = job.queue_entries.max(k + 1);
    first.count_entries = job.count_entries.max(counts);
    let mut second = first.clone();
    second.settings.limit = k + 1;
    Some([first, second])
}
