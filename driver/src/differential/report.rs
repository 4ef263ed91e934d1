//! What is said on the way, and at the end.

use crate::batch::{self, Counts, Tally};
use crate::plan::Batch;
use crate::record::Record;
use std::collections::BTreeMap;
use std::io::{self, IsTerminal, Write};
use std::time::{Duration, Instant};

/// Lines of a job, and of answers where they are alike.
const SHOWN: usize = 40;

/// Without a terminal, a line after so much time.
const PAUSE: Duration = Duration::from_secs(15);

const KINDS: [(u32, &str); 16] = [
    (1, "learning"),
    (2, "deepening"),
    (3, "lookup"),
    (4, "contexts"),
    (5, "even sampling"),
    (6, "packing"),
    (7, "tokens"),
    (8, "values of tokens"),
    (16, "mode step"),
    (17, "candidates"),
    (18, "partition"),
    (19, "pruning"),
    (32, "symbols written"),
    (33, "symbols read"),
    (48, "scoring"),
    (49, "marks"),
];

/// 1234567 as 1,234,567.
pub fn grouped(number: u64) -> String {
    match number {
        0..1_000 => number.to_string(),
        _ => format!("{},{:03}", grouped(number / 1_000), number % 1_000),
    }
}

pub fn time(time: Duration) -> String {
    match time.as_secs() {
        0..10 => format!("{:.1} s", time.as_secs_f64()),
        seconds @ 10..100 => format!("{seconds} s"),
        seconds => format!("{} min {:02} s", seconds / 60, seconds % 60),
    }
}

/// Batches and jobs so far, and the time left: by what this run took for what the plan thought that it takes.
pub struct Progress {
    batches: usize,
    finished: usize,
    jobs: u64,
    thought_done: u64,
    thought_left: u64,
    start: Instant,
    said: Option<Instant>,
    on_terminal: bool,
}

impl Progress {
    pub fn start(batches: &[Batch], record: &Record) -> Self {
        let (done, left): (Vec<&Batch>, Vec<_>) =
            batches.iter().partition(|batch| record.has(batch));
        Self {
            batches: batches.len(),
            finished: done.len(),
            jobs: done.iter().map(|batch| batch.count).sum(),
            thought_done: 0,
            thought_left: left.iter().map(|batch| batch.micros()).sum(),
            start: Instant::now(),
            said: None,
            on_terminal: io::stdout().is_terminal(),
        }
    }

    pub fn finished(&mut self, batch: &Batch) {
        self.finished += 1;
        self.jobs += batch.count;
        self.thought_done += batch.micros();
        self.thought_left -= batch.micros();
        if self.on_terminal || self.said.is_none_or(|said| said.elapsed() >= PAUSE) {
            self.say(batch);
            self.said = Some(Instant::now());
        }
    }

    fn say(&self, batch: &Batch) {
        let pace = self.start.elapsed().as_secs_f64() / self.thought_done as f64;
        let left = Duration::from_secs_f64(pace * self.thought_left as f64);
        let line = format!(
            "batch {} of {}, {:13} {:>9} jobs so far, 0 differ, about {} left",
            self.finished,
            self.batches,
            batch.family.name,
            grouped(self.jobs),
            time(left)
        );
        if self.on_terminal {
            print!("\r\x1b[K{line}");
            let _ = io::stdout().flush();
        } else {
            println!("{line}");
        }
    }

    /// Clears the line on which progress was said.
    pub fn stop(&self) {
        if self.on_terminal {
            print!("\r\x1b[K");
        }
    }
}

/// A job in words.
pub fn job(text: &str) {
    println!("job:");
    for line in text.lines().take(SHOWN) {
        println!("  {line}");
    }
    let more = text.lines().count().saturating_sub(SHOWN);
    if more > 0 {
        println!("  .. and {more} lines more");
    }
}

/// Both answers in words: a line that differs twice, another once, if it is among the first.
pub fn answers(oracle: &str, driver: &str) {
    println!("answers, where they differ - the oracle's and + the driver's:");
    let (mut ours, mut theirs) = (oracle.lines(), driver.lines());
    for shown in 0.. {
        let (expected, given) = (ours.next(), theirs.next());
        if expected.is_none() && given.is_none() {
            break;
        }
        if expected != given {
            println!(
                "- {}\n+ {}",
                expected.unwrap_or_default(),
                given.unwrap_or_default()
            );
        } else if shown < SHOWN {
            println!("  {}", expected.unwrap_or_default());
        }
    }
}

/// Jobs of each family, and of each kind.
struct Sums<'a> {
    families: BTreeMap<&'a str, u64>,
    kinds: Tally,
}

impl<'a> Sums<'a> {
    fn of(batches: impl Iterator<Item = (&'a str, &'a Tally)>) -> Self {
        let (mut families, mut kinds) = (BTreeMap::new(), Tally::new());
        for (family, tally) in batches {
            for (&kind, counts) in tally {
                let sum = kinds.entry(kind).or_default();
                sum.jobs += counts.jobs;
                sum.refused += counts.refused;
                *families.entry(family).or_default() += counts.jobs;
            }
        }
        Self { families, kinds }
    }
}

/// How many jobs of each family and of each kind, and the sum; `last` is a batch that differs.
pub fn totals(record: &Record, last: Option<(&Batch, &Tally)>) {
    let recorded = record.batches().map(|(family, done)| (family, &done.tally));
    let last = last.map(|(batch, tally)| (batch.family.name, tally));
    let Sums { families, kinds } = Sums::of(recorded.chain(last));
    let list = families.iter();
    let list: Vec<String> = list
        .map(|(name, &jobs)| format!("{name} {}", grouped(jobs)))
        .collect();
    println!("families:");
    for line in list.chunks(7) {
        println!("  {}", line.join(", "));
    }
    for (kind, name) in KINDS {
        let Counts { jobs, refused } = kinds.get(&kind).copied().unwrap_or_default();
        let refused = refusals(kind, refused);
        println!(
            "{name:16} (kind {kind:2}) {:>9} jobs{refused}",
            grouped(jobs)
        );
    }
    println!(
        "jobs: {}; families: {}; time: {}; {}",
        grouped(families.values().sum()),
        families.len(),
        time(record.batches().map(|(_, done)| done.time).sum()),
        if last.is_some() {
            "A DIFFERENCE"
        } else {
            "0 differ"
        }
    );
}

/// Lists of values hold refused ones and others, so theirs are not counted.
fn refusals(kind: u32, refused: u64) -> String {
    match batch::begins_with_a_number(kind) {
        true => format!(", {} of them refused", grouped(refused)),
        false => String::new(),
    }
}
