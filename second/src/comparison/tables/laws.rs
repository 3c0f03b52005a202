//! The library alone: by a table that it filled, each score is the plain one.

use second::drawn::{drawn_query, drawn_steps, lent};
use second::lent::to_write_over;
use second::random::Random;

use super::{query_entries, FILL_QUERY_TABLE, PAIR_ENTRIES, PAIR_SCORE_BY_TABLE};
use crate::boundary;
use crate::comparison::scores::{drawn_longer_record, PAIR_SCORE};
use crate::comparison::{Group, Work};

/// The groups of laws of tables.
pub const GROUPS: &[(&str, Work)] = &[
    ("pair scores by the filled table are the plain ones", pair_scores),
    ("query scores by the filled table are the plain ones", query_scores),
];

/// Pair scores of one to eight blocks.
fn pair_scores(group: &mut Group, amount: u64) {
    let mut random = Random::new(641);
    let layouts = PAIR_SCORE_BY_TABLE.layouts();
    let mut table = to_write_over(PAIR_ENTRIES);
    boundary::fill_pair_table(lent(layouts[0]), &mut table);
    for layout in layouts.repeat(1_000 * amount as usize) {
        let blocks = 1 + random.place(8);
        let asked = (PAIR_SCORE.drawn)(&mut random, layout, blocks);
        let steps = asked.steps.each_ref().map(Vec::as_slice);
        let records = asked.inputs.each_ref().map(Vec::as_slice);
        let plain = boundary::pair_score(asked.settings, steps, records);
        let by_table = boundary::pair_score_by_table(asked.settings, steps, records, &table);
        group.compare(&asked, plain, by_table);
    }
}

/// Query scores of one or two blocks, of many records by each table.
fn query_scores(group: &mut Group, amount: u64) {
    let mut random = Random::new(642);
    for layout in FILL_QUERY_TABLE.layouts().repeat(5 * amount as usize) {
        let blocks = 1 + random.place(2);
        let query = drawn_query(&mut random, blocks);
        let mut table = to_write_over(query_entries(layout, blocks));
        boundary::fill_query_table(lent(layout), &query, &mut table);
        for _ in 0..100 {
            let steps = drawn_steps(&mut random);
            let record = drawn_longer_record(&mut random, layout, blocks, &steps);
            let plain = boundary::query_score(lent(layout), &steps, &query, &record);
            let by_table = boundary::query_score_by_table(lent(layout), &steps, &record, &table);
            group.compare(&(layout, &steps, &query, &record), plain, by_table);
        }
    }
}
