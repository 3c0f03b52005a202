//! Scores by a table: both programs on tables of any contents and code records, good and damaged.

use second::lent::Entry;
use second::random::Random;

use super::{PAIR_SCORE_BY_TABLE, QUERY_SCORE_BY_TABLE};
use crate::boundary::answers::ValueAnswer;
use crate::comparison::faults::{
    bad_byte, bad_frame, bad_settings, bad_steps, other_frame, other_q, short_room, Fault,
};
use crate::comparison::operations::Operation;
use crate::comparison::{Group, Work};

/// The groups of scores by a table.
pub const GROUPS: &[(&str, Work)] = &[
    ("ek_pair_score_by_table, every M and K", |group, amount| PAIR_SCORE_BY_TABLE.every_count(group, 621, 4 * amount)),
    ("ek_pair_score_by_table, a few blocks", |group, amount| PAIR_SCORE_BY_TABLE.few_blocks(group, 622, 300 * amount)),
    ("ek_pair_score_by_table, extreme entries and steps", |group, amount| {
        extreme_entries(group, 623, 10 * amount, &PAIR_SCORE_BY_TABLE);
    }),
    ("ek_pair_score_by_table, settings and step lists", |group, _| {
        PAIR_SCORE_BY_TABLE.every_setting(group, 624);
        PAIR_SCORE_BY_TABLE.refused_steps(group, 625, 2);
    }),
    ("ek_pair_score_by_table, damaged first record", |group, amount| {
        PAIR_SCORE_BY_TABLE.damaged_codes(group, 626, 50 * amount, 0);
    }),
    ("ek_pair_score_by_table, damaged second record", |group, amount| {
        PAIR_SCORE_BY_TABLE.damaged_codes(group, 627, 50 * amount, 1);
    }),
    ("ek_pair_score_by_table, every set of faults", |group, amount| {
        PAIR_SCORE_BY_TABLE.every_set(group, 628, 4 * amount, &PAIR_FAULTS);
    }),
    ("ek_query_score_by_table, every q, M and K", |group, amount| {
        QUERY_SCORE_BY_TABLE.every_count(group, 631, amount);
    }),
    ("ek_query_score_by_table, a few blocks", |group, amount| {
        QUERY_SCORE_BY_TABLE.few_blocks(group, 632, 100 * amount);
    }),
    ("ek_query_score_by_table, extreme entries and steps", |group, amount| {
        extreme_entries(group, 633, 5 * amount, &QUERY_SCORE_BY_TABLE);
    }),
    ("ek_query_score_by_table, settings and step lists", |group, _| {
        QUERY_SCORE_BY_TABLE.every_setting(group, 634);
        QUERY_SCORE_BY_TABLE.refused_steps(group, 635, 1);
    }),
    ("ek_query_score_by_table, damaged record", |group, amount| {
        QUERY_SCORE_BY_TABLE.damaged_codes(group, 636, 50 * amount, 0);
    }),
    ("ek_query_score_by_table, every set of faults", |group, amount| {
        QUERY_SCORE_BY_TABLE.every_set(group, 637, 8 * amount, &QUERY_FAULTS);
    }),
];

/// The faults of the pair score by a table.
const PAIR_FAULTS: [Fault<u8, i8>; 9] = [
    bad_byte::<1, _>,
    other_frame::<1, _>,
    bad_byte::<0, _>,
    bad_frame::<0, _>,
    short_room,
    bad_steps::<1, _, _>,
    bad_steps::<0, _, _>,
    other_q::<2, _, _>,
    bad_settings,
];

/// The faults of the query score by a table; a record of another K asks for another length of the table.
const QUERY_FAULTS: [Fault<u8, i32>; 6] =
    [bad_byte::<0, _>, short_room, other_frame::<0, _>, bad_steps::<0, _, _>, other_q::<4, _, _>, bad_settings];

/// Tables whose entries are all the least or all the greatest, with the greatest steps, for one block and for the most.
fn extreme_entries<R: Entry>(group: &mut Group, seed: u64, rounds: u64, operation: &Operation<u8, R, ValueAnswer>) {
    let mut random = Random::new(seed);
    for layout in operation.layouts().repeat(rounds as usize) {
        for blocks in [1, operation.most_blocks(layout)] {
            let mut asked = (operation.drawn)(&mut random, layout, blocks);
            asked.steps = asked.steps.map(|steps| (1025 - steps.len() as i32..=1024).collect());
            for bits in [1 << 63, u64::MAX >> 1] {
                asked.room.fill(R::of_high_bits(bits));
                operation.compare(group, &asked);
            }
        }
    }
}
