//! Reads the one job of learning or deepening that a file holds, as a stream: the version message, then the job.

use crate::words::counted;
use crate::{pgm, symbols};
use std::fmt;
use stream::{Damaged, Job, Learning, Message, STATE, VERSION, read_message};

/// More entries than this are lent to nobody: a hundred times what the largest job needs.
const LONGEST_LIST: u32 = 1 << 24;

/// A job of learning, or of deepening the seed in its node list.
pub struct LearningJob {
    pub deepens: bool,
    pub job: Learning,
}

impl LearningJob {
    /// How many rows it has.
    pub fn rows(&self) -> usize {
        self.job.properties.len() / stream::PROPERTIES
    }
}

/// Why a file is not one job of learning or deepening.
#[derive(Debug, Eq, PartialEq)]
pub enum WrongInput {
    Empty,
    Picture,
    Symbols,
    /// A stream that begins with a job.
    NoVersion,
    /// A stream of this state.
    OtherState(u32),
    /// Nothing follows the version message.
    NoJob,
    /// A job, but of this kind.
    OtherKind(&'static str),
    /// No job has this kind.
    NoKind(u32),
    CutShort(String),
    LeftOver {
        bytes: usize,
    },
    /// The body does not hold what its kind says.
    Damaged(String),
    /// The job asks for a list of so many entries.
    TooLong {
        list: &'static str,
        entries: u32,
    },
}

impl fmt::Display for WrongInput {
    fn fmt(&self, f: &mut fmt::Formatter<'_>) -> fmt::Result {
        match self {
            Self::Empty => write!(f, "empty, where a job of learning or deepening is due"),
            Self::Picture => write!(
                f,
                "a PGM picture and not a job; pgm_to_job makes a job of it"
            ),
            Self::Symbols => write!(
                f,
                "a list of symbols and not a job; --from-symbols reads it"
            ),
            Self::NoVersion => write!(
                f,
                "a stream without a version message, which is of state 0; state {STATE} is due"
            ),
            Self::OtherState(state) => {
                write!(f, "a stream of state {state}; state {STATE} is due")
            }
            Self::NoJob => write!(
                f,
                "a version message alone, where a job of learning or deepening is due"
            ),
            Self::OtherKind(name) => {
                write!(f, "a job of {name}, where learning or deepening is due")
            }
            Self::NoKind(kind) => write!(f, "not a job: there is no kind {kind}"),
            Self::CutShort(what) => write!(f, "cut short: {what}"),
            Self::LeftOver { bytes } => {
                let left = counted(*bytes, "byte follows", "bytes follow");
                write!(f, "{left} the job; one job is due")
            }
            Self::Damaged(what) => write!(f, "not a job: {what}"),
            Self::TooLong { list, entries } => {
                write!(
                    f,
                    "asks for {entries} entries of {list}; at most {LONGEST_LIST} are lent"
                )
            }
        }
    }
}

impl std::error::Error for WrongInput {}

/// Reads the job that `bytes` hold.
pub fn read(mut bytes: &[u8]) -> Result<LearningJob, WrongInput> {
    if pgm::begins_picture(bytes) {
        return Err(WrongInput::Picture);
    }
    if symbols::begins_list(bytes) {
        return Err(WrongInput::Symbols);
    }
    let state = state(&mut bytes)?;
    if state != STATE {
        return Err(WrongInput::OtherState(state));
    }
    let message = job_message(&mut bytes)?;
    if !bytes.is_empty() {
        return Err(WrongInput::LeftOver { bytes: bytes.len() });
    }
    let job = match Job::read(&message) {
        Ok(Job::Learn(job)) => LearningJob {
            deepens: false,
            job,
        },
        Ok(Job::Deepen(job)) => LearningJob { deepens: true, job },
        Ok(_) => return Err(WrongInput::NoKind(message.kind)),
        Err(Damaged(what)) => return Err(WrongInput::Damaged(what)),
    };
    check_lengths(&job.job)?;
    Ok(job)
}

/// The state that the version message names.
fn state(bytes: &mut &[u8]) -> Result<u32, WrongInput> {
    match kind(bytes) {
        Some(VERSION) | None => {}
        Some(1 | 2) => return Err(WrongInput::NoVersion),
        Some(other) => return Err(not_due(other)),
    }
    let Some(Message { body, .. }) = next(bytes)? else {
        return Err(WrongInput::Empty);
    };
    match <[u8; 4]>::try_from(&body[..]) {
        Ok(state) => Ok(u32::from_le_bytes(state)),
        Err(_) => Err(WrongInput::Damaged(format!(
            "a version message of {}, where 4 are due",
            counted(body.len(), "byte", "bytes")
        ))),
    }
}

/// The message of the job.
fn job_message(bytes: &mut &[u8]) -> Result<Message, WrongInput> {
    match kind(bytes) {
        Some(1 | 2) | None => {}
        Some(other) => return Err(not_due(other)),
    }
    next(bytes)?.ok_or(WrongInput::NoJob)
}

/// The next message, if one follows.
fn next(bytes: &mut &[u8]) -> Result<Option<Message>, WrongInput> {
    read_message(bytes).map_err(|Damaged(what)| WrongInput::CutShort(what))
}

/// The kind of the next message is its first word. What follows it can only be understood if that is right.
fn kind(bytes: &[u8]) -> Option<u32> {
    bytes.first_chunk().map(|&word| u32::from_le_bytes(word))
}

/// A message of this kind is neither of learning nor of deepening.
fn not_due(kind: u32) -> WrongInput {
    WrongInput::OtherKind(match kind {
        3 => "lookup",
        4 => "leaf contexts",
        5 => "even sampling",
        6 => "packing",
        7 => "tokens of values",
        8 => "values of tokens",
        16 => "the mode step",
        17 => "candidates",
        18 => "partition",
        19 => "pruning",
        VERSION => "a stream's state",
        32 => "symbols to be written",
        33 => "symbols to be read",
        48 => "scoring",
        49 => "marks",
        _ => return WrongInput::NoKind(kind),
    })
}

/// A job names the lengths of the lists that it wants lent.
fn check_lengths(job: &Learning) -> Result<(), WrongInput> {
    let lists = [
        ("nodes", job.nodes.entries),
        ("spans", job.span_entries),
        ("queue", job.queue_entries),
        ("count space", job.count_entries),
    ];
    match lists
        .into_iter()
        .find(|&(_, entries)| entries > LONGEST_LIST)
    {
        Some((list, entries)) => Err(WrongInput::TooLong { list, entries }),
        None => Ok(()),
    }
}
