//! Times the port against the original, in one process and on the same rows:
//!
//!     bench SEED [learning] < jobs
//!
//! The jobs stand behind a version message and are of learning, digit sheets first and the worst settings last, made
//! from the seed, which is only printed. Each one is learned whole. Unless `learning` alone is asked for, the rows of
//! each sheet are looked up in its tree, the tree is written as symbols, and tokens and the learner's parts are timed
//! on each sheet of 65,536 rows and residuals. The original is compiled from the oracle's copy, by the same names.

#[path = "lent.rs"]
mod adaptive_quant;
#[path = "../../oracle/src/oracle/bit_writer.rs"]
#[allow(dead_code)]
mod bit_writer;
#[path = "../../oracle/src/oracle/coder_scratch.rs"]
#[allow(dead_code)]
mod coder_scratch;
#[path = "../../oracle/src/oracle/depths.rs"]
mod depths;
#[path = "../../oracle/src/oracle/entropy.rs"]
#[allow(dead_code, unused_imports)]
mod entropy;
mod learning;
mod lookups;
#[path = "../../oracle/src/oracle/lossless.rs"]
#[allow(dead_code)]
mod lossless;
#[path = "../../oracle/target/generated/ma_tree/mod.rs"]
#[allow(dead_code, unused_imports)]
mod ma_tree;
mod parts;
mod sheet;
mod symbols;
#[path = "../../oracle/src/oracle/thread_pool.rs"]
#[allow(dead_code)]
mod thread_pool;
#[path = "../../oracle/src/oracle/ties.rs"]
#[allow(dead_code)]
mod ties;
mod timing;
mod tokens;
#[path = "../../oracle/src/oracle/util.rs"]
mod util;

use sheet::Sheet;
use std::fs;
use std::io::{self, BufReader};
use std::process::ExitCode;
use stream::{Damaged, Job, Learning, Messages};

const ROWS: usize = 65_536;
const USAGE: &str = "usage: bench SEED [learning] < jobs";

fn main() -> ExitCode {
    let arguments: Vec<String> = std::env::args().skip(1).collect();
    let arguments: Vec<&str> = arguments.iter().map(String::as_str).collect();
    let done = match arguments[..] {
        [seed] => run(seed, false),
        [seed, "learning"] => run(seed, true),
        _ => Err(Damaged(USAGE.into())),
    };
    match done {
        Ok(()) => ExitCode::SUCCESS,
        Err(Damaged(what)) => {
            eprintln!("bench: {what}");
            ExitCode::FAILURE
        }
    }
}

fn run(seed: &str, learning_alone: bool) -> Result<(), Damaged> {
    let jobs = jobs()?;
    measured_on(seed, &jobs);
    timing::heading();
    for job in &jobs {
        learning::learning(&Sheet::of(job), &job.settings);
    }
    if learning_alone {
        return Ok(());
    }
    let [sheets @ .., _worst] = &jobs[..] else {
        return Err(Damaged("no job".into()));
    };
    for job in sheets {
        lookups::lookups(&Sheet::of(job), &job.settings);
        symbols::symbols(&Sheet::of(job), &job.settings);
    }
    for sheet in sheets.iter().map(Sheet::of) {
        if sheet.len() == ROWS && sheet.res.len() == ROWS {
            tokens::tokens(&sheet);
            parts::all(&sheet);
        }
    }
    Ok(())
}

fn jobs() -> Result<Vec<Learning>, Damaged> {
    let mut messages = Messages::open(BufReader::new(io::stdin().lock()))?;
    let mut jobs = Vec::new();
    while let Some(message) = messages.next_message()? {
        match Job::read(&message)? {
            Job::Learn(job) => jobs.push(job),
            _ => return Err(Damaged("a job of learning is wanted".into())),
        }
    }
    Ok(jobs)
}

/// What the figures below were measured on.
fn measured_on(seed: &str, jobs: &[Learning]) {
    let rows: Vec<String> = jobs
        .iter()
        .map(|job| (job.properties.len() / stream::PROPERTIES).to_string())
        .collect();
    println!(
        "measured on {}; sheets of {} rows (the last with the worst settings), seed {seed}; medians of processor time",
        processor(),
        rows.join(", ")
    );
}

/// The processor's name, as Linux gives it.
fn processor() -> String {
    let listed = fs::read_to_string("/proc/cpuinfo").unwrap_or_default();
    let model = listed
        .lines()
        .find_map(|line| line.strip_prefix("model name"));
    let name = model.map(|rest| rest.trim_start_matches([' ', '\t', ':']));
    name.unwrap_or("an unnamed processor").to_owned()
}
