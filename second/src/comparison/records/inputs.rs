//! Encoding what is not a good vector: wrong counts, damaged records, readings that are missing or out of range.

use second::drawn::allowed_layouts;
use second::layers::Layout;
use second::random::Random;

use super::{code_length, ENCODE, ENCODE_UNITS};
use crate::comparison::operations::{Asked, MOST_BLOCKS};
use crate::comparison::vectors::{at_several_places, one_at_each_place, SOME_LAYOUTS};
use crate::comparison::{Group, Work};

/// The groups of encoding from wrong inputs.
pub const GROUPS: &[(&str, Work)] = &[
    ("ek_encode_units, every count", every_count),
    ("ek_encode, every dimension", |group, _| {
        ENCODE.every_reading_count(group, &mut Random::new(411), MOST_BLOCKS);
    }),
    ("ek_encode, each bit of the dimension", |group, _| {
        ENCODE.reading_count_bits(group, &mut Random::new(412), MOST_BLOCKS);
    }),
    ("ek_encode, records cut anywhere", |group, _| {
        ENCODE.vectors_cut_anywhere(group, &mut Random::new(413));
    }),
    ("ek_encode, a bad reading at each place", |group, _| {
        ENCODE.bad_readings(group, &mut Random::new(414));
    }),
    ("ek_encode, several bad readings", |group, amount| {
        ENCODE.several_bad_readings(group, &mut Random::new(415), 200 * amount);
    }),
    ("ek_encode_units, a bad reading at each place", bad_units),
    ("ek_encode_units, several bad readings", several_bad_units),
];

/// The greatest units in range.
const UNITS_GREATEST: [i32; 2] = [1 << 24, -(1 << 24)];

/// Units out of range.
const UNITS_OUT: [i32; 8] =
    [(1 << 24) + 1, -(1 << 24) - 1, 1 << 25, -(1 << 25), 1 << 30, i32::MAX, i32::MIN, i32::MIN + 1];

/// Compares the encoding of units at these settings.
fn compare_units(group: &mut Group, layout: Layout, units: &[i32]) {
    ENCODE_UNITS.compare(group, &Asked::new(layout, &[9], units, code_length(layout, units.len() / 8)));
}

/// Every number of units from none to past the greatest, all of them 0.
fn every_count(group: &mut Group, _: u64) {
    for layout in SOME_LAYOUTS {
        for count in (0..=530).chain([576, 1024, 65_536 + 8]) {
            compare_units(group, layout, &vec![0; count]);
        }
    }
}

/// One number of units that is out of range or as great as can be, at each place of a vector.
fn bad_units(group: &mut Group, _: u64) {
    let kinds = [&UNITS_OUT[..], &UNITS_GREATEST].concat();
    for (layout, blocks) in SOME_LAYOUTS.into_iter().zip([3, 2, MOST_BLOCKS]) {
        for units in one_at_each_place(&kinds, blocks) {
            compare_units(group, layout, &units);
        }
    }
}

/// Several numbers of units that are out of range or as great as can be, at every allowed setting.
fn several_bad_units(group: &mut Group, amount: u64) {
    let mut random = Random::new(416);
    for layout in allowed_layouts().repeat(100 * amount as usize) {
        let blocks = random.between(1, 4) as usize;
        let units = at_several_places(&mut random, &[&UNITS_OUT, &UNITS_GREATEST], blocks);
        compare_units(group, layout, &units);
    }
}
