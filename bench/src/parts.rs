//! The parts of the learner: each over whole sheets and over spans of the sizes that
//! growth comes down to.

use crate::coder_scratch::CoderScratch;
use crate::ma_tree::{MaSamples, hooks};
use crate::sheet::{Sheet, spans};
use crate::timing::{row, timed};
use driver::port::{self, CANDIDATES, Counts};
use stream::{PREDICTORS, PROPERTIES};

const SPANS: [usize; 3] = [65_536, 1_024, 64];

/// Properties that tell a sheet's rows apart in different ways.
const COLUMNS: [usize; 3] = [2, 9, 15];

pub fn all(sheet: &Sheet) {
    for each in SPANS {
        partition(sheet, each);
    }
    for each in SPANS {
        mode_step(sheet, each);
    }
    for each in SPANS {
        counting(sheet, each);
    }
    for each in SPANS {
        entropy(sheet, each);
    }
    for each in SPANS {
        candidates(sheet, each);
    }
    for rows in [256, 4_096, 65_536] {
        scoring(sheet, rows, true);
        scoring(sheet, rows, false);
    }
}

/// Side predictors: as many as the encoder takes.
const SIDES: [usize; 4] = [0, 1, 2, 5];

/// One property scored over the first rows; the original with its tables from values to bins, and without.
fn scoring(sheet: &Sheet, rows: usize, tables: bool) {
    let (props, tok) = (&sheet.props[..rows], &sheet.tok[..rows]);
    let alphabet = sheet.alphabet;
    let mut scratch = CoderScratch::default();
    let (mut bins, mut room) = (
        Vec::new(),
        vec![0; SIDES.len() * alphabet * (CANDIDATES + 2)],
    );
    let sides = SIDES.map(|p| p as u32);
    for prop in COLUMNS {
        let planned = hooks::Scoring::of(props, tok, prop, &SIDES, alphabet, tables, &mut scratch);
        let Some(scoring) = planned else { continue };
        let node = scoring.node();
        // SAFETY: `node` was counted over these rows, whose tokens are below the alphabet.
        let windows = unsafe { port::Windows::of(node, &sides, alphabet) };
        let name = if tables {
            "with tables"
        } else {
            "without tables"
        };
        row(
            &format!("scoring {rows} rows, property {prop}, Rust {name}"),
            || {
                let (time, _, score) =
                    timed((), |()| scoring.score(props, tok, &mut bins, &mut scratch));
                (time, score.map(|(value, cost)| (value, cost.to_bits())))
            },
            || {
                let (time, _, score) = timed((), |()| {
                    // SAFETY: as above; the original's candidates ascend, and the room is zeros.
                    unsafe {
                        port::score_property(
                            props.as_flattened(),
                            tok.as_flattened(),
                            0,
                            rows,
                            prop,
                            scoring.candidates(),
                            &windows,
                            alphabet,
                            node,
                            sheet.logs,
                            &mut room,
                        )
                    }
                });
                let found = score.found == 1;
                (
                    time,
                    found.then_some((score.threshold, score.cost.to_bits())),
                )
            },
        );
    }
}

fn partition(sheet: &Sheet, each: usize) {
    for prop in COLUMNS {
        let threshold = sheet.median(prop);
        let rows = sheet.len();
        let original = |samples: MaSamples| {
            let (time, samples, at) = timed(samples, |samples| {
                let one = |(first, end): (usize, usize)| {
                    hooks::partition_rows(samples, first, end, prop as u8, threshold)
                };
                let at: usize = spans(rows, each).map(one).sum();
                at
            });
            // The original counts from the span's first row.
            (time, (at, samples.val, samples.tok))
        };
        let port = || {
            let (time, after, at) = timed(sheet.rows(), |rows| {
                let count = rows.count();
                let one = |(first, end)| rows.partition(first, end, prop, threshold) - first;
                let at: usize = spans(count, each).map(one).sum();
                at
            });
            let tok = after.tok.as_chunks::<PREDICTORS>().0.to_vec();
            (time, (at, after.res, tok))
        };
        let name = |bits| format!("partition, spans of {each}, property {prop}, {bits}-bit rows");
        row(&name(32), || original(sheet.wide()), port);
        if each == SPANS[0] {
            row(&name(16), || original(sheet.narrow()), port);
        }
    }
}

fn mode_step(sheet: &Sheet, each: usize) {
    let mut scratch = CoderScratch::default();
    let mut counts = Counts::default();
    let rows = sheet.len();
    row(
        &format!("mode step, spans of {each}"),
        || {
            let (time, tok, modes) = timed(sheet.tok.clone(), |tok| {
                let one = |(first, end): (usize, usize)| {
                    hooks::mode_step(&mut tok[first..end], &sheet.res[first..end], &mut scratch)
                };
                spans(rows, each).map(one).collect::<Vec<i32>>()
            });
            (time, (modes, tok.as_flattened().to_vec()))
        },
        || {
            let flat = sheet.tok.as_flattened().to_vec();
            let (time, tok, modes) = timed(flat, |tok| {
                let one = |(first, end)| port::mode_step(tok, &sheet.res, first, end, &mut counts);
                spans(rows, each).map(one).collect::<Vec<i32>>()
            });
            (time, (modes, tok))
        },
    );
}

/// The histograms of all spans, one after the other.
fn histograms(sheet: &Sheet, each: usize) -> Vec<u32> {
    let size = PREDICTORS * sheet.alphabet;
    let mut hist = vec![0; sheet.len() / each * size];
    for ((first, end), hist) in spans(sheet.len(), each).zip(hist.chunks_exact_mut(size)) {
        hooks::count_tokens(hist, sheet.alphabet, &sheet.tok[first..end]);
    }
    hist
}

fn counting(sheet: &Sheet, each: usize) {
    let (rows, alphabet) = (sheet.len(), sheet.alphabet);
    let size = PREDICTORS * alphabet;
    let flat = sheet.tok.as_flattened();
    assert!(flat.iter().all(|&token| usize::from(token) < alphabet));
    // One histogram, zeroed for each span, as both learners have it.
    row(
        &format!("counting, spans of {each}"),
        || {
            let (time, hist, sum) = timed(vec![0; size], |hist| {
                let mut sum = 0;
                for (first, end) in spans(rows, each) {
                    hist.fill(0);
                    hooks::count_tokens(hist, alphabet, &sheet.tok[first..end]);
                    sum += u64::from(hist[0]);
                }
                sum
            });
            (time, (hist, sum))
        },
        || {
            let (time, hist, sum) = timed(vec![0; size], |hist| {
                let mut sum = 0;
                for (first, end) in spans(rows, each) {
                    hist.fill(0);
                    // SAFETY: the spans are of the sheet, its tokens are below the
                    // alphabet, and the histogram is zeroed.
                    unsafe { port::count_tokens(flat, first, end, alphabet, hist) };
                    sum += u64::from(hist[0]);
                }
                sum
            });
            (time, (hist, sum))
        },
    );
}

/// The original's `hist_entropy_bits` with the logarithms handed in, as the port has
/// them: nothing but the reads differs.
#[inline(never)]
fn entropy_over(hist: &[u32], total: u32, logs: &[f32]) -> f32 {
    if total == 0 {
        return 0.0;
    }
    let log_total = logs[total as usize];
    let mut bits = 0.0f32;
    for &c in hist {
        if c != 0 {
            bits += c as f32 * (log_total - logs[c as usize]);
        }
    }
    bits
}

fn entropy(sheet: &Sheet, each: usize) {
    let hist = histograms(sheet, each);
    let total = each as u32;
    let sum = |of: &dyn Fn(&[u32]) -> f32| {
        let (time, (), bits) = timed((), |()| {
            let bits = hist.chunks_exact(sheet.alphabet).map(of);
            bits.map(f64::from).sum::<f64>()
        });
        (time, bits.to_bits())
    };
    crate::adaptive_quant::lend(sheet.logs);
    // SAFETY: each histogram counts the span's rows, at most 65,536, and the logarithms
    // reach them.
    let port = || sum(&|hist| unsafe { port::hist_entropy_bits(hist, total, sheet.logs) });
    let name = format!("entropy, histograms of {each}");
    row(
        &format!("{name}, logs handed in"),
        || sum(&|hist| entropy_over(hist, total, sheet.logs)),
        port,
    );
    row(
        &format!("{name}, as it stands"),
        || sum(&|hist| hooks::entropy(hist, total)),
        port,
    );
}

/// A sum that tells lists of candidates apart.
fn folded(sum: u64, found: &[i32]) -> u64 {
    found.iter().fold(sum + found.len() as u64, |sum, &value| {
        sum.wrapping_mul(31).wrapping_add(value as u64)
    })
}

fn candidates(sheet: &Sheet, each: usize) {
    let mut scratch = CoderScratch::default();
    let mut counts = Counts::default();
    let rows = sheet.len();
    let flat = sheet.props.as_flattened();
    let all = spans(rows, each).flat_map(|span| (0..PROPERTIES).map(move |prop| (span, prop)));
    row(
        &format!("candidates of all properties, spans of {each}"),
        || {
            let (time, (), sum) = timed((), |()| {
                all.clone().fold(0, |sum, ((first, end), prop)| {
                    let rows = &sheet.props[first..end];
                    folded(sum, hooks::candidates_of_rows(rows, prop, 32, &mut scratch))
                })
            });
            (time, sum)
        },
        || {
            let mut room = [0; CANDIDATES];
            let (time, (), sum) = timed((), |()| {
                all.clone().fold(0, |sum, ((first, end), prop)| {
                    let counts = &mut counts;
                    folded(
                        sum,
                        port::pick_candidates(flat, first, end, prop, 32, counts, &mut room),
                    )
                })
            });
            (time, sum)
        },
    );
}
