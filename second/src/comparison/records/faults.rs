//! Several faults at once: every set of the faults that an operation on records can meet.

use super::reports::REPORT;
use super::{DECODE, ENCODE, ENCODE_UNITS};
use crate::comparison::faults::{bad_digit, bad_settings, bad_steps, bad_t, cut_short, far_units, Fault};
use crate::comparison::faults::{infinite_reading, loud_reading, loud_units, missing_reading, short_room};
use crate::comparison::faults::{wrong_count, wrong_dimension};
use crate::comparison::Work;

/// The groups of several faults.
pub const GROUPS: &[(&str, Work)] = &[
    ("ek_encode, every set of faults", |group, amount| ENCODE.every_set(group, 451, 2 * amount, &ENCODE_FAULTS)),
    ("ek_encode_units, every set of faults", |group, amount| {
        ENCODE_UNITS.every_set(group, 452, 5 * amount, &ENCODE_UNITS_FAULTS);
    }),
    ("ek_decode, every set of faults", |group, amount| DECODE.every_set(group, 453, 4 * amount, &DECODE_FAULTS)),
    ("ek_report, every set of faults", |group, amount| REPORT.every_set(group, 454, 10 * amount, &REPORT_FAULTS)),
];

/// The faults of encoding a record.
const ENCODE_FAULTS: [Fault<u8, u8>; 8] = [
    loud_reading,
    infinite_reading,
    missing_reading,
    wrong_dimension::<0, _>,
    cut_short::<0, _>,
    short_room,
    bad_steps::<0, _, _>,
    bad_settings,
];

/// The faults of encoding units.
const ENCODE_UNITS_FAULTS: [Fault<i32, u8>; 6] =
    [loud_units, far_units, wrong_count, short_room, bad_steps::<0, _, _>, bad_settings];

/// The faults of decoding.
const DECODE_FAULTS: [Fault<u8, u8>; 7] = [
    bad_digit::<0, _>,
    bad_t::<0, _>,
    wrong_dimension::<0, _>,
    cut_short::<0, _>,
    short_room,
    bad_steps::<0, _, _>,
    bad_settings,
];

/// The faults of a report.
const REPORT_FAULTS: [Fault<i32, u8>; 5] = [loud_units, far_units, wrong_count, bad_steps::<0, _, _>, bad_settings];
