//! Stores: the best hour over consecutive code records, plain and with a lent table (01, Scores).

use crate::layers::{allowed_steps, Layout, Settings};
use crate::readings::all_units;
use crate::records::{code_body, coded_blocks, Vector};
use crate::refusals::{Answer, Refusal, STORE};
use crate::scores::score_of_blocks;
use crate::tables::{demand_query_room, demand_query_table, write_query_table};

/// The best record of a store: its number from 0 and its query score.
#[derive(Clone, Copy, Debug, PartialEq, Eq)]
pub struct Hour {
    /// The record's number.
    pub hour: u64,
    /// The record's query score.
    pub score: i64,
}

/// The best hour of a store for a query.
pub fn best_hour(settings: Settings, steps: &[i32], query: Vector, store: &[u8]) -> Answer<Hour> {
    let layout = settings.allowed()?;
    let steps = allowed_steps(steps, 0)?;
    let x = all_units(&query.readings()?)?;
    best_of_store(layout, &steps, &x, store)
}

/// The best hour of a store for a query, whose query table is left in lent room when there is one.
pub fn best_hour_with_table(
    settings: Settings,
    steps: &[i32],
    query: Vector,
    store: &[u8],
    table: &mut [i32],
) -> Answer<Hour> {
    let layout = settings.allowed()?;
    let steps = allowed_steps(steps, 0)?;
    demand_query_table(layout)?;
    let readings = query.readings()?;
    demand_query_room(layout, readings.len() / 8, table)?;
    let x = all_units(&readings)?;
    let best = best_of_store(layout, &steps, &x, store)?;
    write_query_table(layout, &x, table);
    Ok(best)
}

/// The greatest score over a store's records, the earliest on equality, or the first fault in the store.
fn best_of_store(layout: Layout, steps: &[i64], x: &[i64], store: &[u8]) -> Answer<Hour> {
    let scores = scores_of_store(layout, steps, x, store)?;
    let first = scores.first().ok_or(Refusal { number: STORE, place: 0 })?;
    let mut best = Hour { hour: 0, score: *first };
    for (hour, &score) in (0..).zip(&scores) {
        if score > best.score {
            best = Hour { hour, score };
        }
    }
    Ok(best)
}

/// The query scores of all records of a store in turn, none for an empty store.
fn scores_of_store(layout: Layout, steps: &[i64], x: &[i64], store: &[u8]) -> Answer<Vec<i64>> {
    let mut scores = Vec::new();
    let mut offset = 0;
    while offset < store.len() {
        let body = code_body(layout, &store[offset..], Some(x.len() / 8)).map_err(|fault| moved(fault, offset))?;
        let coded = coded_blocks(layout, steps, body).map_err(|fault| moved(fault, offset + 4))?;
        scores.push(score_of_blocks(layout, x, &coded));
        offset += 4 + body.len();
    }
    Ok(scores)
}

/// A refusal with its place counted from the store's start.
fn moved(fault: Refusal, by: usize) -> Refusal {
    Refusal { place: fault.place + by as u64, ..fault }
}
