//! Several faults at once: every set of the faults that a search can meet.

use second::random::Random;

use super::{BEST_HOUR, BEST_HOUR_WITH_TABLE};
use crate::comparison::faults::{any_fault, any_record, bad_byte, bad_frame, bad_settings, bad_steps, cut_short};
use crate::comparison::faults::{infinite_reading, missing_reading, other_count, other_q, short_room, Fault};
use crate::comparison::operations::Asked;
use crate::comparison::Work;

/// The groups of several faults.
pub const GROUPS: &[(&str, Work)] = &[
    ("ek_best_hour, settings and step lists", |group, _| {
        BEST_HOUR.every_setting(group, 741);
        BEST_HOUR.refused_steps(group, 742, 1);
    }),
    ("ek_best_hour, every set of faults", |group, amount| BEST_HOUR.every_set(group, 743, amount, &FAULTS)),
    ("ek_best_hour_with_table, settings and step lists", |group, _| {
        BEST_HOUR_WITH_TABLE.every_setting(group, 744);
        BEST_HOUR_WITH_TABLE.refused_steps(group, 745, 1);
    }),
    ("ek_best_hour_with_table, every set of faults", |group, amount| {
        BEST_HOUR_WITH_TABLE.every_set(group, 746, amount, &FAULTS_WITH_TABLE);
    }),
];

/// The faults of a search.
const FAULTS: [Fault<u8, u8>; 9] = [
    bad_byte::<1, _>,
    bad_stored_frame,
    short_tail,
    empty_store,
    infinite_reading,
    missing_reading,
    bad_frame::<0, _>,
    bad_steps::<0, _, _>,
    bad_settings,
];

/// The faults of a search with a table.
const FAULTS_WITH_TABLE: [Fault<u8, i32>; 11] = [
    bad_byte::<1, _>,
    bad_stored_frame,
    short_tail,
    empty_store,
    infinite_reading,
    missing_reading,
    short_room,
    bad_frame::<0, _>,
    bad_steps::<0, _, _>,
    other_q::<4, _, _>,
    bad_settings,
];

/// Any record of a store with a dimension that is right for none.
fn wrong_stored_dimension<R>(random: &mut Random, asked: &mut Asked<u8, R>) {
    let start = any_record(random, asked, 1);
    asked.inputs[1][start] ^= 1;
}

/// A store with a record of a wrong dimension or of another K, or cut at any byte.
fn bad_stored_frame<R>(random: &mut Random, asked: &mut Asked<u8, R>) {
    any_fault(random, asked, &[wrong_stored_dimension, other_count::<1, R>, cut_short::<1, R>]);
}

/// One to three bytes after the last record.
fn short_tail<R>(random: &mut Random, asked: &mut Asked<u8, R>) {
    let length = 1 + random.place(3);
    asked.inputs[1].extend(vec![9; length]);
}

/// A store of no record.
fn empty_store<R>(_: &mut Random, asked: &mut Asked<u8, R>) {
    asked.inputs[1].clear();
}
