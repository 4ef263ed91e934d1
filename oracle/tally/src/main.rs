//! Reads jobs and their answers side by side, the oracle's or the port's, checks of each what is promised, and counts:
//!
//!     tally JOBS ANSWERS               the verdicts, in one line
//!     tally --demand3 JOBS ANSWERS     what demand 3 was due of: a line for learning, one for deepening
//!
//! Either may be a pipe. A broken promise ends it with status 1, and one line on standard error names the job.

use std::fs::File;
use std::io::BufReader;
use std::process::ExitCode;
use stream::Damaged;
use tally::{Tally, tally};

const USAGE: &str = "usage: tally [--demand3] JOBS ANSWERS";

fn main() -> ExitCode {
    let arguments: Vec<String> = std::env::args().skip(1).collect();
    let arguments: Vec<&str> = arguments.iter().map(String::as_str).collect();
    let told = match arguments[..] {
        ["--demand3", jobs, answers] => read(jobs, answers).map(|tally| tally.demand3()),
        [jobs, answers] => read(jobs, answers).map(|tally| format!("{tally}\n")),
        _ => {
            eprintln!("{USAGE}");
            return ExitCode::from(2);
        }
    };
    match told {
        Ok(lines) => {
            print!("{lines}");
            ExitCode::SUCCESS
        }
        Err(Damaged(what)) => {
            eprintln!("tally: {what}");
            ExitCode::FAILURE
        }
    }
}

fn read(jobs: &str, answers: &str) -> Result<Tally, Damaged> {
    tally(&mut open(jobs)?, &mut open(answers)?)
}

fn open(path: &str) -> Result<BufReader<File>, Damaged> {
    let file = File::open(path).map_err(|error| Damaged(format!("{path}: {error}")))?;
    Ok(BufReader::with_capacity(1 << 20, file))
}
