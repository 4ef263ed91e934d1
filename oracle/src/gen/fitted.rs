//! Contexts, the symbol writer and lookup over nodes, with every list as long as needed and no longer.

use stream::{ContextsJob, LookupJob, NodeList, PROPERTIES, Record, WriteSymbolsJob};

fn list_of(given: Vec<Record>) -> NodeList {
    NodeList {
        entries: given.len() as u32,
        given,
    }
}

pub fn contexts(given: Vec<Record>) -> ContextsJob {
    let count = given.len() as u32;
    ContextsJob {
        count,
        nodes: list_of(given),
        fill: 1,
        context_entries: count,
        queue_entries: count,
    }
}

/// With room for as many pairs as leaves take; splits take fewer.
pub fn writing(given: Vec<Record>) -> WriteSymbolsJob {
    let count = given.len() as u32;
    WriteSymbolsJob {
        count,
        nodes: list_of(given),
        fill: 1,
        pair_entries: 5 * count,
        queue_entries: count,
    }
}

/// Of a row of zeros.
pub fn lookup(given: Vec<Record>) -> LookupJob {
    LookupJob {
        count: given.len() as u32,
        nodes: list_of(given),
        fill: 1,
        properties: vec![0; PROPERTIES],
    }
}
