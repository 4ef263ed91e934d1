//! Learning whole: the tree, its bits, the spans and the rows as they end up.

use crate::coder_scratch::CoderScratch;
use crate::depths;
use crate::ma_tree::{MaProperties, MaSamples, hooks};
use crate::sheet::Sheet;
use crate::timing::{Run, row, timed};
use ostrovuc::Room;
use stream::{PREDICTORS, Record, Settings, Span};

/// What both sides must have alike.
#[derive(Debug, PartialEq)]
struct Outcome {
    bits: [u64; 2],
    nodes: Vec<Record>,
    spans: Vec<Span>,
    tok: Vec<[u8; PREDICTORS]>,
    res: Vec<i32>,
}

pub fn learning(sheet: &Sheet, settings: &Settings) {
    crate::adaptive_quant::lend(sheet.logs);
    let mut scratch = CoderScratch::default();
    let mut room = Room::for_learning(&jobs::settings(settings), sheet.len());
    let name = format!(
        "learning, {} rows, limit {}, alphabet {}, {} sides",
        sheet.len(),
        settings.limit,
        settings.alphabet,
        settings.side_predictors
    );
    if !matches!(sheet.narrow().props, MaProperties::Wide(_)) {
        row(
            &format!("{name}, 16-bit rows"),
            || original(sheet.narrow(), settings, &mut scratch),
            || port(sheet, settings, &mut room),
        );
    }
    row(
        &format!("{name}, 32-bit rows"),
        || original(sheet.wide(), settings, &mut scratch),
        || port(sheet, settings, &mut room),
    );
}

fn original(samples: MaSamples, settings: &Settings, scratch: &mut CoderScratch) -> Run<Outcome> {
    let (time, samples, mut tree) = timed(samples, |s| hooks::learn(s, settings, scratch));
    depths::store(&mut tree.nodes);
    let outcome = Outcome {
        bits: [tree.estimated_bits.to_bits(), tree.flat_bits.to_bits()],
        nodes: tree.nodes,
        spans: tree.spans,
        tok: samples.tok,
        res: samples.val,
    };
    (time, outcome)
}

fn port(sheet: &Sheet, settings: &Settings, room: &mut Room) -> Run<Outcome> {
    let settings = without_settling(settings);
    let (time, rows, tree) = timed(sheet.rows(), |rows| {
        let lists = room.lend(&mut rows.props, &mut rows.tok, &mut rows.res);
        ostrovuc::learn(lists, &settings, sheet.logs).expect("accepted")
    });
    let nodes = tree.nodes as usize;
    let outcome = Outcome {
        bits: [tree.bits.to_bits(), tree.flat.to_bits()],
        nodes: jobs::records(&room.nodes[..nodes]),
        spans: jobs::spans(&room.spans[..nodes]),
        tok: rows.tok.as_chunks().0.to_vec(),
        res: rows.res,
    };
    (time, outcome)
}

/// Settling is document 01's addition, which the original does not have, and is off on both sides.
pub fn without_settling(s: &Settings) -> ostrovuc::Settings {
    ostrovuc::Settings {
        settle: false,
        ..jobs::settings(s)
    }
}
