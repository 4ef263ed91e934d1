//! The job stream: one binary format for jobs and answers, so that comparing
//! two programs is comparing their bytes. The format is described in the
//! project's design notes (JOBS.md, JOBS-02.md); this crate only reads and writes it.

mod answer;
mod job;
mod record;
mod score;
mod symbol;
mod version;
mod wire;

pub use answer::{Answer, Contexts, Found, Learned, Pruned, Runs, Sampled, TokenOf, ValueOf};
pub use job::{ContextsJob, Job, Learning, LookupJob, PruneJob, SampleJob, Settings};
pub use record::{NodeList, Record, Span};
pub use score::{ScoreJob, Scored};
pub use symbol::{ReadSymbolsJob, Symbol, SymbolsRead, SymbolsWritten, WriteSymbolsJob};
pub use version::{Messages, STATE, VERSION, version};
pub use wire::{Damaged, Message, read_message, write_message};

/// Properties of a row.
pub const PROPERTIES: usize = 24;
/// Tokens of a row, one for each predictor.
pub const PREDICTORS: usize = 14;
/// Rows of a job, at most.
pub const MOST_ROWS: usize = 65_536;
/// Candidates of a property, at most.
pub const MOST_CANDIDATES: usize = 32;
/// Marks of a word of them.
pub const MARKS: usize = 64;
/// Words of marks, at most: every place is below 2^32.
pub const MOST_MARK_WORDS: usize = 1 << 26;
