//! From a job to the port's answer. The public operations are crate `jobs`'s; a single part's job is laid out here as
//! the part wants it.

use crate::{pruning, scoring};
use driver::port::{self, CANDIDATES, Counts, Rows};
use stream::{Answer, Job, PREDICTORS, PROPERTIES};

pub fn answer(job: Job, counts: &mut Counts) -> Answer {
    match job {
        Job::Learn(job) => jobs::run(job, false).into_answer(),
        Job::Deepen(job) => jobs::run(job, true).into_answer(),
        Job::Lookup(job) => Answer::Found(jobs::lookup(&job)),
        Job::Contexts(job) => Answer::Contexts(jobs::contexts(&job)),
        Job::Sample(job) => Answer::Sampled(jobs::sample(&job)),
        Job::Pack(values) => Answer::Packed(jobs::pack(&values)),
        Job::Token(values) => Answer::Tokens(jobs::tokens(&values)),
        Job::Value(pairs) => Answer::Values(jobs::values(&pairs)),
        Job::WriteSymbols(job) => Answer::SymbolsWritten(jobs::write_symbols(&job)),
        Job::ReadSymbols(job) => Answer::SymbolsRead(jobs::read_symbols(&job)),
        Job::Mode(residuals) => mode(&residuals, counts),
        Job::Candidates(column, limit) => candidates(&column, limit, counts),
        Job::Partition(column, threshold) => partition(&column, threshold),
        Job::Prune(job) => Answer::Pruned(pruning::prune(&job)),
        Job::Score(job) => Answer::Scored(scoring::score(&job)),
        Job::Marks(words) => Answer::Places(places(&words)),
    }
}

/// A pattern for what must stay or move along: row and column tell the entries apart.
pub fn mark(row: usize, column: usize) -> u8 {
    (row * 31 + column * 7 + 1) as u8
}

/// Every row has marks in its other tokens, and they must stay.
fn mode(residuals: &[i32], counts: &mut Counts) -> Answer {
    let rows = residuals.len();
    let marked = |at: usize| mark(at / PREDICTORS, at % PREDICTORS);
    let mut tok: Vec<u8> = (0..rows * PREDICTORS).map(marked).collect();
    let mode = port::mode_step(&mut tok, residuals, 0, rows, counts);
    let stays = |(at, &token): (usize, &u8)| at % PREDICTORS == 0 || token == marked(at);
    assert!(tok.iter().enumerate().all(stays), "another token changed");
    let zero_tokens = tok.iter().step_by(PREDICTORS).copied().collect();
    Answer::Mode(mode, zero_tokens)
}

/// The column stands as one property of many, by turns, between two rows that are not
/// of the span.
fn candidates(column: &[i32], limit: u32, counts: &mut Counts) -> Answer {
    let rows = column.len();
    let prop = rows % PROPERTIES;
    let mut props = vec![-1; (rows + 2) * PROPERTIES];
    for (row, &value) in column.iter().enumerate() {
        props[(row + 1) * PROPERTIES + prop] = value;
    }
    let limit = limit as usize;
    let mut room = [0; CANDIDATES];
    let found = port::pick_candidates(&props, 1, rows + 1, prop, limit, counts, &mut room);
    Answer::Candidates(found.to_vec())
}

/// The column stands as one property of rows whose other parts say which row it was,
/// between two rows that are not of the span: rows must move whole, and these two stay.
fn partition(column: &[i32], threshold: i32) -> Answer {
    let count = column.len();
    let prop = count % PROPERTIES;
    let value = |row: usize| match row {
        0 => i32::MIN,
        _ => column.get(row - 1).copied().unwrap_or(i32::MAX),
    };
    let property = |row, k| {
        if k == prop {
            value(row)
        } else {
            (row * PROPERTIES + k) as i32
        }
    };
    let props = |row| (0..PROPERTIES).map(move |k| property(row, k));
    let tokens = |row| (0..PREDICTORS).map(move |k| mark(row, k));
    let all = 0..count + 2;
    let mut rows = Rows {
        props: all.clone().flat_map(props).collect(),
        tok: all.clone().flat_map(tokens).collect(),
        res: all.map(|row| row as i32).collect(),
    };
    let at = rows.partition(1, count + 1, prop, threshold);
    let moved = rows
        .props
        .as_chunks::<PROPERTIES>()
        .0
        .iter()
        .zip(rows.tok.as_chunks::<PREDICTORS>().0)
        .zip(&rows.res);
    for ((properties, row_tokens), &from) in moved {
        let from = from as usize;
        let whole = properties.iter().copied().eq(props(from));
        assert!(
            whole && row_tokens.iter().copied().eq(tokens(from)),
            "a row was torn"
        );
    }
    assert_eq!((rows.res[0], rows.res[count + 1]), (0, count as i32 + 1));
    let after = rows.res[1..=count].iter().map(|&from| value(from as usize));
    Answer::Partitioned((at - 1) as u32, after.collect())
}

/// The lent list has an entry for each set mark, and by turns up to two more, whose pattern must stay.
fn places(words: &[u64]) -> Vec<u32> {
    let entries = port::count_set(words) + words.len() % 3;
    let lent: Vec<u32> = (0..entries as u32).map(|at| !at).collect();
    let mut list = lent.clone();
    let found = port::mark_places(words, &mut list).len();
    assert_eq!(
        list[found..],
        lent[found..],
        "an entry past the places changed"
    );
    list.truncate(found);
    list
}
