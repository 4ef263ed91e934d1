//! The generator, the oracle and the driver as child processes.

use crate::plan::{Batch, SEED};
use crate::{Failure, Result};
use std::ffi::OsStr;
use std::fs::{self, File};
use std::io::Write;
use std::path::{Path, PathBuf};
use std::process::{Command, Stdio};
use stream::{Message, STATE, version, write_message};

pub struct Programs {
    generator: PathBuf,
    oracle: PathBuf,
    show: PathBuf,
    driver: PathBuf,
}

/// What a program gave on its standard output, if it ended well.
fn output(mut command: Command) -> Result<Vec<u8>> {
    let name = command.get_program().to_owned();
    let done = command.stderr(Stdio::inherit()).output()?;
    if done.status.success() {
        Ok(done.stdout)
    } else {
        Err(Failure(format!("{} failed", Path::new(&name).display())))
    }
}

impl Programs {
    pub fn of(oracle: &Path, driver: &Path) -> Self {
        Self {
            generator: oracle.join("gen"),
            oracle: oracle.join("oracle"),
            show: oracle.join("show"),
            driver: driver.to_owned(),
        }
    }

    /// A number that changes with the programs (FNV-1a of their bytes).
    pub fn fingerprint(&self) -> Result<u64> {
        let mut hash = 0xcbf2_9ce4_8422_2325;
        for program in [&self.generator, &self.oracle, &self.driver] {
            let bytes = fs::read(program)
                .map_err(|error| Failure(format!("{}: {error}", program.display())))?;
            for byte in bytes {
                hash = (hash ^ u64::from(byte)).wrapping_mul(0x0100_0000_01b3);
            }
        }
        Ok(hash)
    }

    /// The names that the generator lists.
    pub fn families(&self) -> Result<Vec<String>> {
        let mut command = Command::new(&self.generator);
        command.arg("--list");
        let listed = String::from_utf8_lossy(&output(command)?).into_owned();
        let names = listed
            .lines()
            .filter_map(|line| line.split_whitespace().next());
        Ok(names.map(str::to_owned).collect())
    }

    /// Writes a batch's jobs, behind a version message as in every stream here.
    pub fn generate(&self, batch: &Batch, jobs: &Path) -> Result<()> {
        let numbers = [SEED, batch.count, batch.first].map(|number| number.to_string());
        let mut command = Command::new(&self.generator);
        command.arg(batch.family.name).args(numbers);
        let mut jobs = File::create(jobs)?;
        write_message(&mut jobs, &version(STATE))?;
        let done = command.stdout(jobs).status()?;
        match done.success() {
            true => Ok(()),
            false => Err(Failure(format!("gen failed on {}", batch.family.name))),
        }
    }

    /// Has both answer the jobs, side by side. A driver that fails leaves a stream that ends early; an oracle that does
    /// leaves nothing to compare with.
    pub fn answers(&self, jobs: &Path, folder: &Path) -> Result<[PathBuf; 2]> {
        let [oracle, driver] = ["oracle", "driver"].map(|name| folder.join(name));
        let run = |program: &Path, answers: &Path| {
            let mut command = Command::new(program);
            command
                .stdin(File::open(jobs)?)
                .stdout(File::create(answers)?);
            Ok::<_, Failure>(command.spawn()?)
        };
        let mut judge = run(&self.oracle, &oracle)?;
        let mut judged = run(&self.driver, &driver)?;
        judged.wait()?;
        match judge.wait()?.success() {
            true => Ok([oracle, driver]),
            false => Err(Failure("the oracle failed".into())),
        }
    }

    /// Whether the two answer one job differently. A job that the oracle does not take is none.
    pub fn differs(&self, job: &Message) -> Result<bool> {
        let bytes = stream_of(job)?;
        Ok(match answers(&self.oracle, &bytes)? {
            None => false,
            expected => answers(&self.driver, &bytes)? != expected,
        })
    }

    /// The first job or answer of a stream in words.
    pub fn show(&self, what: &str, stream: &Path) -> Result<String> {
        let mut command = Command::new(&self.show);
        command.args([OsStr::new(what), OsStr::new("0")]);
        command.stdin(File::open(stream)?);
        match output(command) {
            Ok(text) => Ok(String::from_utf8_lossy(&text).into_owned()),
            Err(_) => Ok("none\n".into()),
        }
    }
}

/// A stream of one job.
pub fn stream_of(job: &Message) -> Result<Vec<u8>> {
    let mut bytes = Vec::new();
    write_message(&mut bytes, &version(STATE))?;
    write_message(&mut bytes, job)?;
    Ok(bytes)
}

/// A program's answers to a stream; `None` if it fails.
fn answers(program: &Path, stream: &[u8]) -> Result<Option<Vec<u8>>> {
    let mut command = Command::new(program);
    command
        .stdin(Stdio::piped())
        .stdout(Stdio::piped())
        .stderr(Stdio::null());
    let mut child = command.spawn()?;
    if let Some(mut input) = child.stdin.take() {
        // A program that fails may leave some of the stream unread; its status says so.
        let _ = input.write_all(stream);
    }
    let done = child.wait_with_output()?;
    Ok(done.status.success().then_some(done.stdout))
}
