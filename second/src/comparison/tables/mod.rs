//! Tables: both programs on filling them, and on scoring by what a lent table holds.

pub mod filling;
pub mod laws;
pub mod orders;
pub mod rooms;
pub mod scoring;

use second::drawn::{drawn_query, drawn_steps, drawn_table, lent};
use second::layers::Layout;
use second::lent::to_write_over;
use second::records::Vector;
use second::tables::{fill_pair_table, fill_query_table, pair_score_by_table, query_score_by_table};

use super::operations::{Asked, Operation};
use super::scores::{drawn_longer_record, drawn_pair};
use crate::boundary::{self, answers::ValueAnswer};

/// The number of entries of the pair table.
const PAIR_ENTRIES: usize = 65_536;

/// Filling the pair table.
pub const FILL_PAIR_TABLE: Operation<u8, i8, ValueAnswer> = Operation {
    second: |settings, _, _, table| fill_pair_table(settings, table).into(),
    library: |settings, _, _, table| boundary::fill_pair_table(settings, table),
    drawn: |_, layout, _| Asked::lending(lent(layout), [&[], &[]], [&[], &[]], to_write_over(PAIR_ENTRIES)),
    greatest_q: 2,
};

/// Filling the query table of an fvecs record.
pub const FILL_QUERY_TABLE: Operation<u8, i32, ValueAnswer> = Operation {
    second: |settings, _, [query, _], table| fill_query_table(settings, Vector::Record(query), table).into(),
    library: |settings, _, [query, _], table| boundary::fill_query_table(settings, query, table),
    drawn: |random, layout, blocks| {
        let room = to_write_over(query_entries(layout, blocks));
        Asked::lending(lent(layout), [&[], &[]], [&drawn_query(random, blocks), &[]], room)
    },
    greatest_q: 4,
};

/// The pair score by a table.
pub const PAIR_SCORE_BY_TABLE: Operation<u8, i8, ValueAnswer> = Operation {
    second: |settings, [steps0, steps1], [record0, record1], table| {
        pair_score_by_table(settings, steps0, record0, steps1, record1, table).into()
    },
    library: |settings, steps, records, table| boundary::pair_score_by_table(settings, steps, records, table),
    drawn: |random, layout, blocks| {
        let table = drawn_table(random, PAIR_ENTRIES);
        drawn_pair(random, layout, blocks, table)
    },
    greatest_q: 2,
};

/// The query score by a table.
pub const QUERY_SCORE_BY_TABLE: Operation<u8, i32, ValueAnswer> = Operation {
    second: |settings, [steps, _], [record, _], table| query_score_by_table(settings, steps, record, table).into(),
    library: |settings, [steps, _], [record, _], table| boundary::query_score_by_table(settings, steps, record, table),
    drawn: |random, layout, blocks| {
        let steps = drawn_steps(random);
        let record = drawn_longer_record(random, layout, blocks, &steps);
        let table = drawn_table(random, query_entries(layout, blocks));
        Asked::lending(lent(layout), [&steps, &[]], [&record, &[]], table)
    },
    greatest_q: 4,
};

/// The number K q^8 of entries of the query table of so many blocks.
pub fn query_entries(layout: Layout, blocks: usize) -> usize {
    blocks * layout.q.pow(8) as usize
}
