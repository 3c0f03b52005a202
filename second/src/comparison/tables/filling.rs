//! Filling: both programs on settings and queries, good and damaged.

use second::built::fvecs_of_units;
use second::random::Random;

use super::{FILL_PAIR_TABLE, FILL_QUERY_TABLE};
use crate::comparison::faults::{
    bad_frame, bad_settings, infinite_reading, missing_reading, other_q, short_room, Fault,
};
use crate::comparison::{Group, Work};

/// The groups of filling.
pub const GROUPS: &[(&str, Work)] = &[
    ("ek_fill_pair_table, every setting", |group, _| FILL_PAIR_TABLE.every_setting(group, 601)),
    ("ek_fill_pair_table, every set of faults", |group, amount| {
        FILL_PAIR_TABLE.every_set(group, 602, 20 * amount, &PAIR_FAULTS);
    }),
    ("ek_fill_query_table, every q, M and K", |group, amount| FILL_QUERY_TABLE.every_count(group, 603, amount)),
    ("ek_fill_query_table, a few blocks", |group, amount| FILL_QUERY_TABLE.few_blocks(group, 604, 20 * amount)),
    ("ek_fill_query_table, great readings", great_readings),
    ("ek_fill_query_table, every setting", |group, _| FILL_QUERY_TABLE.every_setting(group, 605)),
    ("ek_fill_query_table, damaged query", |group, amount| {
        FILL_QUERY_TABLE.damaged_vectors(group, 606, 50 * amount);
    }),
    ("ek_fill_query_table, every set of faults", |group, amount| {
        FILL_QUERY_TABLE.every_set(group, 607, 10 * amount, &QUERY_FAULTS);
    }),
];

/// The faults of filling the pair table.
const PAIR_FAULTS: [Fault<u8, i8>; 3] = [short_room, other_q::<2, _, _>, bad_settings];

/// The faults of filling a query table.
const QUERY_FAULTS: [Fault<u8, i32>; 6] =
    [infinite_reading, missing_reading, short_room, bad_frame::<0, _>, other_q::<4, _, _>, bad_settings];

/// Readings at and beside their limits, of any signs, some of them 0.
fn great_readings(group: &mut Group, amount: u64) {
    let (mut random, far) = (Random::new(608), 1 << 24);
    for layout in FILL_QUERY_TABLE.layouts().repeat(10 * amount as usize) {
        let blocks = 1 + random.place(2);
        let mut asked = (FILL_QUERY_TABLE.drawn)(&mut random, layout, blocks);
        let units: Vec<i32> =
            (0..8 * blocks).map(|_| random.pick(&[far, far, far - 1, -far, -far, 1 - far, 0])).collect();
        asked.inputs[0] = fvecs_of_units(&units);
        FILL_QUERY_TABLE.compare(group, &asked);
    }
}
