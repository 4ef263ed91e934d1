//! Compares oracle and driver at scale, batch by batch, and shrinks the first difference:
//!
//!     differential JOBS FOLDER ORACLE DRIVER
//!
//! ORACLE is the folder of the oracle's programs (oracle, gen, show), DRIVER the driver's program. FOLDER keeps the record
//! of finished batches; started again with the same programs and as many jobs, it goes on where it stopped. Exit
//! status: 1 after a difference, 2 if something is wrong with a program, the folder or the arguments.

mod batch;
mod edits;
mod plan;
mod programs;
mod record;
mod report;
mod shrink;
mod symbols;
mod trees;

use batch::Difference;
use plan::Batch;
use programs::Programs;
use record::Record;
use report::Progress;
use std::fs;
use std::io;
use std::path::{Path, PathBuf};
use std::process::ExitCode;
use std::time::Instant;
use stream::{Damaged, Message};

/// What went wrong, in words.
pub struct Failure(pub String);

impl From<io::Error> for Failure {
    fn from(error: io::Error) -> Self {
        Self(error.to_string())
    }
}

impl From<Damaged> for Failure {
    fn from(damaged: Damaged) -> Self {
        Self(damaged.to_string())
    }
}

pub type Result<T> = std::result::Result<T, Failure>;

const USAGE: &str = "usage: differential JOBS FOLDER ORACLE DRIVER";

fn main() -> ExitCode {
    let arguments: Vec<String> = std::env::args().skip(1).collect();
    let done = match &arguments[..] {
        [jobs, folder, oracle, driver] => compare(jobs, folder, oracle, driver),
        _ => Err(Failure(USAGE.into())),
    };
    done.unwrap_or_else(|Failure(what)| {
        eprintln!("differential: {what}");
        ExitCode::from(2)
    })
}

fn compare(jobs: &str, folder: &str, oracle: &str, driver: &str) -> Result<ExitCode> {
    let jobs: u64 = match jobs.parse() {
        Ok(number @ 1..) => number,
        _ => return Err(Failure(format!("{jobs} is no number of jobs"))),
    };
    let programs = Programs::of(Path::new(oracle), Path::new(driver));
    plan::check(&programs.families()?)?;
    let batches = plan::batches(jobs);
    let folder = PathBuf::from(folder);
    fs::create_dir_all(&folder)?;
    let mut record = Record::open(&folder, jobs, programs.fingerprint()?)?;
    let mut progress = Progress::start(&batches, &record);
    for batch in &batches {
        if record.has(batch) {
            continue;
        }
        let start = Instant::now();
        let compared = batch::run(batch, &programs, &folder)?;
        if let Some(difference) = compared.difference {
            progress.stop();
            show(batch, &difference, &programs, &folder)?;
            report::totals(&record, Some((batch, &compared.tally)));
            return Ok(ExitCode::FAILURE);
        }
        record.add(batch, compared.tally, start.elapsed())?;
        progress.finished(batch);
    }
    progress.stop();
    report::totals(&record, None);
    record.close()?;
    Ok(ExitCode::SUCCESS)
}

/// Stores the job that differs, as it was found and as small as it gets, and shows the small one.
fn show(batch: &Batch, found: &Difference, programs: &Programs, folder: &Path) -> Result<()> {
    let Difference { index, job, differ } = found;
    let (name, seed) = (batch.family.name, plan::SEED);
    println!(
        "A DIFFERENCE: job {index} of {name} (gen {name} {seed} 1 {index}); differing jobs in its batch: {differ}"
    );
    println!("shrinking it ..");
    let start = Instant::now();
    let shrunk = shrink::smallest(job, &mut |job| programs.differs(job))?;
    println!(
        "shrunk from {} to {} bytes by {} tries in {}",
        report::grouped(job.body.len() as u64),
        report::grouped(shrunk.job.body.len() as u64),
        report::grouped(shrunk.tries.into()),
        report::time(start.elapsed())
    );
    let smallest = folder.join("smallest");
    store(&folder.join("found"), job)?;
    store(&smallest, &shrunk.job)?;
    report::job(&programs.show("job", &smallest)?);
    show_answers(&smallest, programs, folder)?;
    let folder = folder.display();
    println!("the job is {folder}/smallest, and as it was found {folder}/found");
    Ok(())
}

fn show_answers(job: &Path, programs: &Programs, folder: &Path) -> Result<()> {
    let [oracle, driver] = programs.answers(job, folder)?;
    let expected = programs.show("answer", &oracle)?;
    let given = programs.show("answer", &driver)?;
    report::answers(&expected, &given);
    if expected == given {
        // Words leave out what stands behind a tree's last node.
        let (expected, given) = (fs::read(oracle)?, fs::read(driver)?);
        let alike = expected.iter().zip(&given).take_while(|(e, g)| e == g);
        println!("alike in words: they differ from byte {} on", alike.count());
    }
    Ok(())
}

fn store(path: &Path, job: &Message) -> Result<()> {
    Ok(fs::write(path, programs::stream_of(job)?)?)
}
