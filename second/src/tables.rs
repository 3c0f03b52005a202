//! Tables: filling them, and scoring by what a lent table holds (01, Scores).

use std::sync::OnceLock;

use crate::lattice::Point;
use crate::layers::{allowed_steps, layer_point, Layout, Settings};
use crate::readings::all_units;
use crate::records::{code_body, coded_blocks, Vector};
use crate::refusals::{demand, Answer, AT_TABLE, SIZE, TABLE};
use crate::scores::{coded_pair, inner_product, product_sum};

/// The number of layer points at q = 2.
const BINARY_POINTS: usize = 256;

/// The number of entries of the pair table.
const PAIR_ENTRIES: usize = BINARY_POINTS * BINARY_POINTS;

/// The number q^8 of entries of one block in a query table.
fn block_entries(layout: Layout) -> usize {
    layout.q.pow(8) as usize
}

/// The entry number of eight digits, the first digit least.
fn entry_number(q: i64, digits: &[u8]) -> usize {
    digits.iter().rev().fold(0, |number, &digit| number * q as usize + usize::from(digit))
}

/// The eight digits of an entry number.
fn entry_digits(q: i64, entry: usize) -> [u8; 8] {
    std::array::from_fn(|k| (entry / q.pow(k as u32) as usize % q as usize) as u8)
}

/// The layer points of q = 2, 3 or 4 by entry number, computed by their rule at the first call.
fn layer_points(q: i64) -> &'static [Point] {
    static POINTS: [OnceLock<Vec<Point>>; 3] = [const { OnceLock::new() }; 3];
    let entries = q.pow(8) as usize;
    POINTS[q as usize - 2].get_or_init(|| (0..entries).map(|entry| layer_point(q, &entry_digits(q, entry))).collect())
}

/// Refuses with 8 unless the pair table is for this q.
fn demand_pair_table(layout: Layout) -> Answer<()> {
    demand(layout.q == 2, TABLE, 0)
}

/// Refuses with 8 unless the query table is for this q.
pub fn demand_query_table(layout: Layout) -> Answer<()> {
    demand(layout.q <= 4, TABLE, 0)
}

/// Refuses with 3 unless a table has room for the query table of this many blocks.
pub fn demand_query_room(layout: Layout, blocks: usize, table: &[i32]) -> Answer<()> {
    demand(table.len() >= blocks * block_entries(layout), SIZE, AT_TABLE)
}

/// Fills the pair table in lent room and answers its number of entries.
pub fn fill_pair_table(settings: Settings, table: &mut [i8]) -> Answer<usize> {
    let layout = settings.allowed()?;
    demand_pair_table(layout)?;
    demand(table.len() >= PAIR_ENTRIES, SIZE, AT_TABLE)?;
    let points = layer_points(layout.q);
    for (entry, held) in table[..PAIR_ENTRIES].iter_mut().enumerate() {
        let product = inner_product(&points[entry / BINARY_POINTS], &points[entry % BINARY_POINTS]);
        *held = i8::try_from(product).expect("inner products of layer points fit a byte");
    }
    Ok(PAIR_ENTRIES)
}

/// Fills the query table of a vector in lent room and answers its number of entries.
pub fn fill_query_table(settings: Settings, query: Vector, table: &mut [i32]) -> Answer<usize> {
    let layout = settings.allowed()?;
    demand_query_table(layout)?;
    let readings = query.readings()?;
    demand_query_room(layout, readings.len() / 8, table)?;
    let x = all_units(&readings)?;
    Ok(write_query_table(layout, &x, table))
}

/// Writes the query table of readings X at the start of a table and answers its number of entries.
pub fn write_query_table(layout: Layout, x: &[i64], table: &mut [i32]) -> usize {
    let points = layer_points(layout.q);
    for (block, held) in x.chunks(8).zip(table.chunks_mut(points.len())) {
        for (entry, point) in held.iter_mut().zip(points) {
            *entry = i32::try_from(product_sum(block, point)).expect("a query entry fits 32 bits");
        }
    }
    x.len() / 8 * points.len()
}

/// The pair score by what a lent pair table holds.
pub fn pair_score_by_table(
    settings: Settings,
    steps0: &[i32],
    record0: &[u8],
    steps1: &[i32],
    record1: &[u8],
    table: &[i8],
) -> Answer<i64> {
    let layout = settings.allowed()?;
    let steps0 = allowed_steps(steps0, 0)?;
    let steps1 = allowed_steps(steps1, 1)?;
    demand_pair_table(layout)?;
    demand(table.len() >= PAIR_ENTRIES, SIZE, AT_TABLE)?;
    let (coded0, coded1) = coded_pair(layout, &steps0, record0, &steps1, record1)?;
    let pairs = coded0.iter().zip(&coded1);
    Ok(pairs.map(|(one, other)| one.step * other.step * pair_sum(layout, one.digits, other.digits, table)).sum())
}

/// The sum over all pairs of layers of two blocks of their weights times what the pair table holds.
fn pair_sum(layout: Layout, digits0: &[u8], digits1: &[u8], table: &[i8]) -> i64 {
    let mut sum = 0;
    for (i, layer0) in digits0.chunks(8).enumerate() {
        for (j, layer1) in digits1.chunks(8).enumerate() {
            let entry = BINARY_POINTS * entry_number(layout.q, layer0) + entry_number(layout.q, layer1);
            sum += layout.weight(i + j) * i64::from(table[entry]);
        }
    }
    sum
}

/// The query score by what a lent query table holds.
pub fn query_score_by_table(settings: Settings, steps: &[i32], record: &[u8], table: &[i32]) -> Answer<i64> {
    let layout = settings.allowed()?;
    let steps = allowed_steps(steps, 0)?;
    demand_query_table(layout)?;
    let body = code_body(layout, record, None)?;
    demand_query_room(layout, body.len() / layout.block_bytes(), table)?;
    let coded = coded_blocks(layout, &steps, body)?;
    let blocks = coded.iter().zip(table.chunks(block_entries(layout)));
    Ok(blocks.map(|(block, table)| block.step * query_sum(layout, block.digits, table)).sum())
}

/// The sum over a block's layers of their weights times what the block's part of the query table holds.
fn query_sum(layout: Layout, digits: &[u8], table: &[i32]) -> i64 {
    let layers = digits.chunks(8).enumerate();
    layers.map(|(m, layer)| layout.weight(m) * i64::from(table[entry_number(layout.q, layer)])).sum()
}
