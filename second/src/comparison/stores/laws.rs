//! The library alone: the best hour is the earliest of the greatest query scores, with a table and without.

use second::drawn::lent;
use second::lent::Lent;
use second::random::Random;
use second::stores::Hour;

use super::{BEST_HOUR, BEST_HOUR_WITH_TABLE};
use crate::boundary::{self, answers::HourAnswer};
use crate::comparison::faults::record_bytes;
use crate::comparison::tables::query_entries;
use crate::comparison::{Group, Work};

/// The groups of laws of the best hour.
pub const GROUPS: &[(&str, Work)] = &[
    ("the best hour has the greatest query score", greatest_score),
    ("the best hour with a table is the plain one and leaves the filled table", with_table),
];

/// Every record's query score by itself, and the earliest of the greatest.
fn greatest_score(group: &mut Group, amount: u64) {
    let mut random = Random::new(751);
    for layout in BEST_HOUR.layouts().repeat(50 * amount as usize) {
        let blocks = 1 + random.place(4);
        let asked = (BEST_HOUR.drawn)(&mut random, layout, blocks);
        let (settings, steps, [query, store]) = (asked.settings, &asked.steps[0], &asked.inputs);
        let score = |record| boundary::query_score(settings, steps, query, record).value;
        let scores = (0..).zip(store.chunks(record_bytes(store)).map(score));
        let hours = scores.map(|(hour, score)| Hour { hour, score });
        let best = hours.reduce(|best, next| if next.score > best.score { next } else { best });
        let expected = HourAnswer::from(Ok(best.expect("a store has records")));
        group.compare(&asked, expected, boundary::best_hour(settings, steps, query, store));
    }
}

/// The answer of the plain search, and the table that filling leaves.
fn with_table(group: &mut Group, amount: u64) {
    let mut random = Random::new(752);
    for layout in BEST_HOUR_WITH_TABLE.layouts().repeat(10 * amount as usize) {
        let blocks = 1 + random.place(2);
        let asked = (BEST_HOUR.drawn)(&mut random, layout, blocks);
        let (steps, [query, store]) = (&asked.steps[0], &asked.inputs);
        let [mut filled, mut left] = [(); 2].map(|()| Lent::<i32>::room_of(query_entries(layout, blocks) + 5));
        boundary::fill_query_table(lent(layout), query, filled.room());
        let plain = boundary::best_hour(lent(layout), steps, query, store);
        let searched = boundary::best_hour_with_table(lent(layout), steps, query, store, left.room());
        group.compare(&asked, (plain, None), (searched, left.first_change(&filled)));
    }
}
