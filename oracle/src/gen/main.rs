//! Makes job streams:
//!
//!     gen FAMILY SEED COUNT [FIRST] > jobs
//!     gen --version > message
//!     gen --list
//!     gen --pairs < jobs > jobs
//!
//! A family, a seed and an index name one job, however many are asked for; the first index is 0, or FIRST. The version
//! message is to stand before all jobs of a stream, of whatever families. Of jobs from elsewhere pairs are made for
//! demand 3: each learning and deepening as it is, then unpruned with limits k and k + 1.

mod agree;
mod depths;
mod draft;
mod fitted;
mod kinds;
mod learn;
mod logs;
mod marks;
mod pairs;
mod parts;
mod refusals;
mod rng;
mod rows;
mod scores;
mod seeds;
mod sheet;
mod symbols;
mod ties;
mod tokens;
mod trees;

use rng::Rng;
use std::io::{self, BufReader, BufWriter, Write};
use std::process::ExitCode;
use stream::{Damaged, Job, STATE, version, write_message};

/// Which job of a family.
#[derive(Clone, Copy)]
pub struct At {
    family: &'static str,
    seed: u64,
    index: u64,
}

impl At {
    fn rng(self) -> Rng {
        Rng::new(self.family, self.seed, self.index)
    }

    /// What both jobs of a pair have in common.
    fn pair(self) -> Self {
        Self {
            index: self.index / 2,
            ..self
        }
    }
}

/// Turn by turn through `kinds` things, first each alone, then each two of them
/// in scattered order, so that few turns show many pairs.
fn alone_then_two(turn: u64, kinds: usize) -> Vec<usize> {
    let kinds = kinds as u64;
    match turn % (kinds + kinds * kinds) {
        alone if alone < kinds => vec![alone as usize],
        two => {
            // A prime that divides no number of kinds in use.
            let pair = (two - kinds) * 7_919 % (kinds * kinds);
            vec![(pair % kinds) as usize, (pair / kinds) as usize]
        }
    }
}

struct Family {
    name: &'static str,
    about: &'static str,
    job: fn(At) -> Job,
}

const fn family(name: &'static str, about: &'static str, job: fn(At) -> Job) -> Family {
    Family { name, about, job }
}

#[rustfmt::skip]
const FAMILIES: &[Family] = &[
    family("tiny", "all rows of up to three under 48 settings (28,080 jobs in all)", learn::tiny),
    family("small", "up to 40 random rows, any settings, any logarithms", learn::small),
    family("ties", "equal gains, over as many rows and over more, in learning and deepening", ties::ties),
    family("wide", "property ranges about and above 4,096: the sort path", learn::wide),
    family("extremes", "the ends of 32 bits in properties and residuals", learn::extremes),
    family("spans", "residual ranges of 4,095 to 4,098", learn::spans),
    family("digits", "digit sheets of 256 to 4,096 rows, any settings", learn::digits),
    family("digits-4096", "digit sheets of 4,096 rows, limit 64: for running times", learn::digits_4096),
    family("digits-16384", "digit sheets of 16,384 rows, limit 256: for running times", learn::digits_16384),
    family("digits-65536", "digit sheets of 65,536 rows, limit 4,096: for running times", learn::digits_65536),
    family("worst", "the costliest settings on 4,096 random rows, limit 64", learn::worst),
    family("worst-65536", "the costliest settings on 65,536 random rows, limit 4,096", learn::worst_65536),
    family("deep", "growth to depth 26 along gt, along le and below deep seeds", learn::deep),
    family("prune-ties", "costs and prices that meet exactly in pruning", learn::prune_ties),
    family("strides", "1,023 to 5,000 rows, about every change of the probe's stride", learn::strides),
    family("limits", "65,535, 65,536 and 65,537 rows by turns", learn::limits),
    family("logs", "logarithms true, rounded, zero, falling, random, -0.0, NaN where unread", learn::logarithms),
    family("settling", "pruned trees with each use of settling, residuals and modal offsets", learn::settling),
    family("limits-k", "pairs that differ only in the leaf limit, k and k + 1, unpruned", learn::limits_k),
    family("seeds", "deepening: rowless leaves, more leaves than the limit, junk fields", seeds::seeds),
    family("seeds-large", "deepening seeds of about 8,191 nodes, or far deeper than 26", seeds::seeds_large),
    family("seed-faults", "every fault of a seed alone and two at once, deepening and contexts", seeds::seed_faults),
    family("seed-room", "deepening's own bound on count space, a count of 0 included", refusals::seed_room),
    family("depths", "deepening, contexts, symbol writer and lookup on right depths and wrong", depths::depths),
    family("refusals", "every refusal of learning and deepening alone and two at once", refusals::refusals),
    family("kinds", "deepening, lookup and contexts over nodes of a kind that is neither 0 nor 1", kinds::kinds),
    family("lookup", "lookup, with faults on the way and off it", parts::lookup),
    family("contexts", "leaf contexts, with faults and short lists", parts::contexts),
    family("sampling", "even sampling, rows and targets to beyond 2^32", parts::sampling),
    family("pack", "packing", parts::pack),
    family("token", "tokens of values", parts::token),
    family("value", "values of tokens", parts::value),
    family("mode", "the mode step alone", parts::mode),
    family("candidates", "candidate thresholds alone", parts::candidates),
    family("partition", "the partition alone", parts::partition),
    family("columns", "mode step, candidates and partition by turns, 255 to 65,536 rows", parts::columns),
    family("prune", "pruning alone, at prices above 0, with exact ties", parts::prune),
    family("score", "scoring alone, up to 40 rows, any column, candidates, side predictors and logarithms", scores::score),
    family("score-ties", "scoring alone, thresholds of equal costs", scores::ties),
    family("score-long", "scoring alone, 1,023 to 20,000 rows", scores::long),
    family("score-65536", "scoring alone, 65,535 and 65,536 rows", scores::longest),
    family("marks", "the places of set marks alone, of none to 65,600 marks", marks::marks),
    family("probes", "candidates of 31 to 2,047 probed values, at every edge of their marks' range", marks::probes),
    family("symbols", "the symbol writer on trees of any shape and numbering, with room and without", symbols::symbols),
    family("symbol-faults", "the symbol writer on every fault of a tree alone and two at once", symbols::symbol_faults),
    family("symbol-reads", "the symbol reader on lists of trees, with room and without", symbols::symbol_reads),
    family("unreadable", "the symbol reader on lists of no tree, each way alone", symbols::unreadable),
    family("symbols-large", "symbol writer and reader on trees of 8,191 nodes and just beyond", symbols::symbols_large),
    family("agree", "93 tiny jobs fit for a proof checker, again and again", agree::agree),
];

const USAGE: &str = "usage: gen FAMILY SEED COUNT [FIRST] > jobs, or gen --version > message, \
                     or gen --list, or gen --pairs < jobs > jobs";

fn main() -> ExitCode {
    let arguments: Vec<String> = std::env::args().skip(1).collect();
    let arguments: Vec<&str> = arguments.iter().map(String::as_str).collect();
    let done = match arguments[..] {
        ["--list"] => list(),
        ["--pairs"] => write_pairs(),
        ["--version"] => write_message(&mut io::stdout().lock(), &version(STATE)),
        [name, seed, count] => write_jobs(name, seed, count, "0"),
        [name, seed, count, first] => write_jobs(name, seed, count, first),
        _ => Err(Damaged(USAGE.into())),
    };
    match done {
        Ok(()) => ExitCode::SUCCESS,
        Err(Damaged(what)) => {
            eprintln!("gen: {what}");
            ExitCode::FAILURE
        }
    }
}

fn find(name: &str) -> Result<&'static Family, Damaged> {
    let found = FAMILIES.iter().find(|family| family.name == name);
    found.ok_or_else(|| Damaged(USAGE.into()))
}

fn number(argument: &str) -> Result<u64, Damaged> {
    argument.parse().map_err(|_| Damaged(USAGE.into()))
}

fn list() -> Result<(), Damaged> {
    let mut output = io::stdout().lock();
    for Family { name, about, .. } in FAMILIES {
        writeln!(output, "{name:13} {about}")?;
    }
    Ok(())
}

fn write_pairs() -> Result<(), Damaged> {
    let mut input = BufReader::with_capacity(1 << 20, io::stdin().lock());
    let mut output = BufWriter::with_capacity(1 << 20, io::stdout().lock());
    pairs::write_pairs(&mut input, &mut output)?;
    output.flush()?;
    Ok(())
}

fn write_jobs(name: &str, seed: &str, count: &str, first: &str) -> Result<(), Damaged> {
    let family = find(name)?;
    let (seed, count, first) = (number(seed)?, number(count)?, number(first)?);
    let mut output = BufWriter::with_capacity(1 << 20, io::stdout().lock());
    for index in first..first.saturating_add(count) {
        let at = At {
            family: family.name,
            seed,
            index,
        };
        write_message(&mut output, &(family.job)(at).message())?;
    }
    output.flush()?;
    Ok(())
}
