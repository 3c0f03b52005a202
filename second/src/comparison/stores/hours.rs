//! The best hour of good stores: both programs on few records and on many, with equal scores, low ones and great ones.

use second::built::fvecs_of_units;
use second::drawn::{drawn_digits, drawn_record, great_query, great_record};
use second::layers::Layout;
use second::lent::Entry;
use second::random::Random;

use super::{BEST_HOUR, BEST_HOUR_WITH_TABLE};
use crate::boundary::answers::HourAnswer;
use crate::comparison::faults::record_bytes;
use crate::comparison::operations::Operation;
use crate::comparison::scores::queries::negated;
use crate::comparison::tables::rooms::{block_entries, compare_tables};
use crate::comparison::{Group, Work};

/// The groups of the best hour of good stores.
pub const GROUPS: &[(&str, Work)] = &[
    ("ek_best_hour, every q, M and K", |group, amount| BEST_HOUR.every_count(group, 701, amount)),
    ("ek_best_hour, a few blocks", |group, amount| BEST_HOUR.few_blocks(group, 702, 100 * amount)),
    ("ek_best_hour, equal scores", |group, amount| equal_scores(group, 703, 20 * amount, &BEST_HOUR)),
    ("ek_best_hour, low and great scores", |group, amount| signed_scores(group, 704, 2 * amount, &BEST_HOUR)),
    ("ek_best_hour, scores that are close", |group, amount| close_scores(group, 707, 2 * amount, &BEST_HOUR)),
    ("ek_best_hour, the best at each place", |group, amount| best_at_each_place(group, 705, amount, &BEST_HOUR)),
    ("ek_best_hour, thousands of hours", |group, amount| thousands(group, 706, amount, &BEST_HOUR)),
    ("ek_best_hour_with_table, every q, M and K", |group, amount| BEST_HOUR_WITH_TABLE.every_count(group, 711, amount)),
    ("ek_best_hour_with_table, a few blocks", |group, amount| BEST_HOUR_WITH_TABLE.few_blocks(group, 712, 15 * amount)),
    ("ek_best_hour_with_table, equal scores", |group, amount| {
        equal_scores(group, 713, 8 * amount, &BEST_HOUR_WITH_TABLE);
    }),
    ("ek_best_hour_with_table, low and great scores", |group, amount| {
        signed_scores(group, 714, 2 * amount, &BEST_HOUR_WITH_TABLE);
    }),
    ("ek_best_hour_with_table, scores that are close", |group, amount| {
        close_scores(group, 718, 2 * amount, &BEST_HOUR_WITH_TABLE);
    }),
    ("ek_best_hour_with_table, the best at each place", |group, amount| {
        best_at_each_place(group, 715, amount, &BEST_HOUR_WITH_TABLE);
    }),
    ("ek_best_hour_with_table, thousands of hours", |group, amount| {
        thousands(group, 716, amount, &BEST_HOUR_WITH_TABLE);
    }),
    ("ek_best_hour_with_table, table", |group, _| compare_tables(group, 717, &BEST_HOUR_WITH_TABLE, block_entries)),
];

/// An operation that searches a store.
pub type Search<R> = Operation<u8, R, HourAnswer>;

/// Settings of few and of many digits to a block, for long stores.
const LONG_STORES: [Layout; 4] =
    [Layout { q: 2, layers: 1 }, Layout { q: 3, layers: 2 }, Layout { q: 4, layers: 3 }, Layout { q: 8, layers: 4 }];

/// The fvecs record of so many blocks with no reading other than 0, but for one of this many units.
fn one_reading(random: &mut Random, blocks: usize, x: i32) -> Vec<u8> {
    let mut units = vec![0; 8 * blocks];
    units[random.place(8 * blocks)] = x;
    fvecs_of_units(&units)
}

/// Stores of a few records over and over, against a query, one reading, and no reading but 0.
fn equal_scores<R: Entry>(group: &mut Group, seed: u64, rounds: u64, operation: &Search<R>) {
    let mut random = Random::new(seed);
    for layout in operation.layouts().repeat(rounds as usize) {
        let blocks = 1 + random.place(2);
        let mut asked = (operation.drawn)(&mut random, layout, blocks);
        let records: Vec<&[u8]> = asked.inputs[1].chunks(record_bytes(&asked.inputs[1])).collect();
        let hours = 1 + random.place(40);
        asked.inputs[1] = (0..hours).flat_map(|_| random.pick(&records)).copied().collect();
        operation.compare(group, &asked);
        for x in [-5, 0] {
            asked.inputs[0] = one_reading(&mut random, blocks, x);
            operation.compare(group, &asked);
        }
    }
}

/// A record with another T in each block.
fn with_steps(layout: Layout, record: &[u8], mut t: impl FnMut() -> u8) -> Vec<u8> {
    let mut other = record.to_vec();
    for block in other[4..].chunks_mut(layout.block_bytes()) {
        block[0] = t();
    }
    other
}

/// The greatest readings against one record in several steps, with all scores below 0 and with all above.
fn signed_scores<R: Entry>(group: &mut Group, seed: u64, rounds: u64, operation: &Search<R>) {
    let mut random = Random::new(seed);
    for layout in operation.layouts().repeat(rounds as usize) {
        for blocks in [1, operation.most_blocks(layout)] {
            let mut asked = (operation.drawn)(&mut random, layout, blocks);
            let record = great_record(&mut random, layout, blocks, 1);
            let query = great_query(&mut random, layout, &record);
            let hours = 1 + random.place(8);
            asked.steps[0] = vec![1, 1022, 1023, 1024];
            let stored = |_| with_steps(layout, &record, || random.place(4) as u8);
            asked.inputs[1] = (0..hours).flat_map(stored).collect();
            for query in [negated(&query), query] {
                asked.inputs[0] = query;
                operation.compare(group, &asked);
            }
        }
    }
}

/// The greatest readings but for one unit in the last block, against records that differ in that block's layer 0 alone.
fn close_scores<R: Entry>(group: &mut Group, seed: u64, rounds: u64, operation: &Search<R>) {
    let mut random = Random::new(seed);
    for layout in operation.layouts().repeat(rounds as usize) {
        let blocks = operation.most_blocks(layout);
        let mut asked = (operation.drawn)(&mut random, layout, blocks);
        let record = with_steps(layout, &great_record(&mut random, layout, blocks, 1), || 1);
        asked.steps[0] = vec![1, 1024];
        asked.inputs[1] = (0..12).flat_map(|_| with_small_block(&mut random, layout, &record)).collect();
        asked.inputs[0] = great_query(&mut random, layout, &record);
        let small = one_reading(&mut random, 1, 1);
        asked.inputs[0].splice(4 + 32 * (blocks - 1).., small[4..].iter().copied());
        operation.compare(group, &asked);
    }
}

/// A record with T 0 in its last block, digits drawn for layer 0 and zeros above.
fn with_small_block(random: &mut Random, layout: Layout, record: &[u8]) -> Vec<u8> {
    let mut other = record[..record.len() - layout.digits() - 1].to_vec();
    other.push(0);
    other.extend(drawn_digits(random, Layout { layers: 1, ..layout }));
    other.resize(record.len(), 0);
    other
}

/// Stores of one record over and over, but for a better one at each place or at each two.
fn best_at_each_place<R: Entry>(group: &mut Group, seed: u64, rounds: u64, operation: &Search<R>) {
    let mut random = Random::new(seed);
    for layout in operation.layouts().repeat(rounds as usize) {
        let mut asked = (operation.drawn)(&mut random, layout, 1);
        let better = great_record(&mut random, layout, 1, 1);
        let other = asked.inputs[1][..better.len()].to_vec();
        asked.inputs[0] = great_query(&mut random, layout, &better);
        for (one, two) in (0..6).flat_map(|one| (one..6).map(move |two| (one, two))) {
            let record = |hour: usize| if hour == one || hour == two { &better } else { &other };
            asked.inputs[1] = (0..6).flat_map(record).copied().collect();
            operation.compare(group, &asked);
        }
    }
}

/// Stores of thousands of hours of one block, against a query and against one reading.
fn thousands<R: Entry>(group: &mut Group, seed: u64, rounds: u64, operation: &Search<R>) {
    let mut random = Random::new(seed);
    let layouts = LONG_STORES.into_iter().filter(|layout| layout.q <= operation.greatest_q);
    for layout in layouts.cycle().take(4 * rounds as usize) {
        let mut asked = (operation.drawn)(&mut random, layout, 1);
        let (steps, hours) = (asked.steps[0].len(), random.between(2_000, 5_000));
        asked.inputs[1] = (0..hours).flat_map(|_| drawn_record(&mut random, layout, 1, steps)).collect();
        operation.compare(group, &asked);
        asked.inputs[0] = one_reading(&mut random, 1, 1 << 24);
        operation.compare(group, &asked);
    }
}
