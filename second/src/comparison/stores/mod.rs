//! Stores: both programs on the best hour, plain and with a lent table.

pub mod damage;
pub mod faults;
pub mod hours;
pub mod laws;
pub mod orders;

use second::drawn::{drawn_query, drawn_record, drawn_steps, lent};
use second::layers::Layout;
use second::lent::{to_write_over, Entry};
use second::random::Random;
use second::records::Vector;
use second::stores::{best_hour, best_hour_with_table};

use super::operations::{Asked, Operation};
use super::tables::query_entries;
use crate::boundary::{self, answers::HourAnswer};

/// The best hour of a store for an fvecs record.
pub const BEST_HOUR: Operation<u8, u8, HourAnswer> = Operation {
    second: |settings, [steps, _], [query, store], _| best_hour(settings, steps, Vector::Record(query), store).into(),
    library: |settings, [steps, _], [query, store], _| boundary::best_hour(settings, steps, query, store),
    drawn: |random, layout, blocks| drawn_search(random, layout, blocks, Vec::new()),
    greatest_q: 16,
};

/// The best hour by a table that is filled.
pub const BEST_HOUR_WITH_TABLE: Operation<u8, i32, HourAnswer> = Operation {
    second: |settings, [steps, _], [query, store], table| {
        best_hour_with_table(settings, steps, Vector::Record(query), store, table).into()
    },
    library: |settings, [steps, _], [query, store], table| {
        boundary::best_hour_with_table(settings, steps, query, store, table)
    },
    drawn: |random, layout, blocks| drawn_search(random, layout, blocks, to_write_over(query_entries(layout, blocks))),
    greatest_q: 4,
};

/// A query of so many blocks, a store of one to four records for it, of long ones at most two, and a table.
fn drawn_search<R: Entry>(random: &mut Random, layout: Layout, blocks: usize, table: Vec<R>) -> Asked<u8, R> {
    let steps = drawn_steps(random);
    let query = drawn_query(random, blocks);
    let records = 1 + random.place(if blocks > 8 { 2 } else { 4 });
    let store: Vec<u8> = (0..records).flat_map(|_| drawn_record(random, layout, blocks, steps.len())).collect();
    Asked::lending(lent(layout), [&steps, &[]], [&query, &store], table)
}
