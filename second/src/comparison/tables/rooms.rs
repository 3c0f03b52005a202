//! Lent tables of many lengths: too short by any number of entries, exact, and longer.

use std::fmt::Debug;

use second::drawn::drawn_table;
use second::layers::Layout;
use second::lent::Entry;
use second::random::Random;

use super::{query_entries, FILL_PAIR_TABLE, FILL_QUERY_TABLE, PAIR_SCORE_BY_TABLE, QUERY_SCORE_BY_TABLE};
use crate::comparison::operations::Operation;
use crate::comparison::{Group, Work};

/// The groups of lent tables.
pub const GROUPS: &[(&str, Work)] = &[
    ("ek_fill_pair_table, table", |group, _| compare_tables(group, 611, &FILL_PAIR_TABLE, |_| 256)),
    ("ek_fill_query_table, table", |group, _| compare_tables(group, 612, &FILL_QUERY_TABLE, block_entries)),
    ("ek_pair_score_by_table, table", |group, _| compare_tables(group, 613, &PAIR_SCORE_BY_TABLE, |_| 256)),
    ("ek_query_score_by_table, table", |group, _| compare_tables(group, 614, &QUERY_SCORE_BY_TABLE, block_entries)),
];

/// The number of entries of a query table's block.
pub fn block_entries(layout: Layout) -> usize {
    query_entries(layout, 1)
}

/// Compares an operation with tables of any contents, of lengths about what it needs and of a part more or less.
pub fn compare_tables<R: Entry, A: Debug + PartialEq>(
    group: &mut Group,
    seed: u64,
    operation: &Operation<u8, R, A>,
    part: fn(Layout) -> usize,
) {
    let mut random = Random::new(seed);
    for layout in operation.layouts() {
        for blocks in [1, 2, 3] {
            let mut asked = (operation.drawn)(&mut random, layout, blocks);
            let (need, part) = (asked.room.len(), part(layout));
            let any = random.place(need);
            for length in [0, 1, any, need - part, need - 2, need - 1, need, need + 1, need + 15, need + part] {
                asked.room = drawn_table(&mut random, length);
                operation.compare(group, &asked);
            }
        }
    }
}
