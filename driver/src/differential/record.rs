//! The record of finished batches: a head that says what was compared, then a line for each batch, written when it is done.
//! A line that an interruption cut short has no end, and counts for nothing.

use crate::Result;
use crate::batch::{Counts, Tally};
use crate::plan::Batch;
use std::collections::HashMap;
use std::fs::{self, File, OpenOptions};
use std::io::{ErrorKind, Write};
use std::path::{Path, PathBuf};
use std::time::Duration;

/// A finished batch.
pub struct Done {
    pub count: u64,
    pub time: Duration,
    pub tally: Tally,
}

pub struct Record {
    path: PathBuf,
    file: File,
    /// By family and first job.
    done: HashMap<(String, u64), Done>,
}

impl Record {
    /// The record in the folder if it is of the same jobs and programs, else a new one.
    pub fn open(folder: &Path, jobs: u64, programs: u64) -> Result<Self> {
        let path = folder.join("record");
        let head = format!("{jobs} jobs, programs {programs:016x}\n");
        let old = match fs::read_to_string(&path) {
            Err(error) if error.kind() == ErrorKind::NotFound => None,
            read => Some(read?),
        };
        let done = match old.as_ref().and_then(|old| old.strip_prefix(&head)) {
            Some(lines) => lines.split_inclusive('\n').filter_map(parsed).collect(),
            None => HashMap::new(),
        };
        let place = folder.display();
        match (&old, done.len()) {
            (None, _) => println!("a new record in {place}"),
            (Some(_), 0) => {
                println!("the record in {place} is of other programs or jobs, or empty: a new one")
            }
            (Some(_), batches) => {
                println!("going on after {batches} finished batches, recorded in {place}")
            }
        }
        rewrite(&path, &head, &done)?;
        let file = OpenOptions::new().append(true).open(&path)?;
        Ok(Self { path, file, done })
    }

    pub fn has(&self, batch: &Batch) -> bool {
        let done = self.done.get(&(batch.family.name.to_owned(), batch.first));
        done.is_some_and(|done| done.count == batch.count)
    }

    pub fn add(&mut self, batch: &Batch, tally: Tally, time: Duration) -> Result<()> {
        let count = batch.count;
        let done = Done { count, time, tally };
        let key = (batch.family.name.to_owned(), batch.first);
        self.file.write_all(line(&key, &done).as_bytes())?;
        self.done.insert(key, done);
        Ok(())
    }

    /// Every finished batch, with its family.
    pub fn batches(&self) -> impl Iterator<Item = (&str, &Done)> {
        self.done
            .iter()
            .map(|((family, _), done)| (family.as_str(), done))
    }

    /// Puts the record of a whole run aside, so that the next one begins anew.
    pub fn close(self) -> Result<()> {
        Ok(fs::rename(&self.path, self.path.with_file_name("last"))?)
    }
}

/// Writes the lines that count, and no piece of one. The old record stays until the new one is whole.
fn rewrite(path: &Path, head: &str, done: &HashMap<(String, u64), Done>) -> Result<()> {
    let lines: String = done.iter().map(|(key, done)| line(key, done)).collect();
    let new = path.with_file_name("record.new");
    fs::write(&new, head.to_owned() + &lines)?;
    Ok(fs::rename(&new, path)?)
}

/// Family, first job, jobs, milliseconds, then kind:jobs:refused for each kind.
fn line((family, first): &(String, u64), done: &Done) -> String {
    let kinds = done.tally.iter();
    let kinds: Vec<String> = kinds
        .map(|(kind, Counts { jobs, refused })| format!("{kind}:{jobs}:{refused}"))
        .collect();
    let millis = done.time.as_millis();
    format!(
        "{family} {first} {} {millis} {}\n",
        done.count,
        kinds.join(" ")
    )
}

fn parsed(line: &str) -> Option<((String, u64), Done)> {
    let mut words = line.strip_suffix('\n')?.split(' ');
    let family = words.next()?.to_owned();
    let mut number = || words.next()?.parse::<u64>().ok();
    let (first, count, millis) = (number()?, number()?, number()?);
    let tally: Option<Tally> = words.map(kind).collect();
    let done = Done {
        count,
        time: Duration::from_millis(millis),
        tally: tally?,
    };
    Some(((family, first), done))
}

fn kind(word: &str) -> Option<(u32, Counts)> {
    let (kind, counts) = word.split_once(':')?;
    let (jobs, refused) = counts.split_once(':')?;
    let counts = Counts {
        jobs: jobs.parse().ok()?,
        refused: refused.parse().ok()?,
    };
    Some((kind.parse().ok()?, counts))
}

#[cfg(test)]
mod tests {
    use super::*;

    #[test]
    fn a_line_reads_back_and_a_piece_of_it_does_not() {
        let counts = |jobs, refused| Counts { jobs, refused };
        let tally = Tally::from([(1, counts(700, 12)), (2, counts(300, 0))]);
        let done = Done {
            count: 1_000,
            time: Duration::from_millis(77),
            tally,
        };
        let key = ("small".to_owned(), 5_000);
        let text = line(&key, &done);
        let (read_key, read) = parsed(&text).expect("a whole line");
        assert_eq!(
            (read_key, read.count, read.time),
            (key, done.count, done.time)
        );
        assert_eq!(read.tally, done.tally);
        for end in 0..text.len() {
            assert!(parsed(&text[..end]).is_none());
        }
    }
}
