//! Taking one reading: both programs on patterns and on whole units.

use second::random::Random;
use second::readings;

use super::{Group, Work};
use crate::boundary;

/// The groups of taking.
pub const GROUPS: &[(&str, Work)] = &[
    ("ek_take_bits, every exponent", every_exponent),
    ("ek_take_bits, around the limits", around_the_limits),
    ("ek_take_bits, halves of a unit", halves_of_a_unit),
    ("ek_take_bits, random patterns", random_patterns),
    ("ek_take_bits, random readings", random_readings),
    ("ek_take_units, edges", edge_units),
    ("ek_take_units, random", random_units),
];

/// The pattern's sign bit.
const MINUS: u32 = 1 << 31;

/// Compares the taking of one pattern.
fn compare_bits(group: &mut Group, bits: u32) {
    group.compare(&bits, readings::take_bits(bits).into(), boundary::take_bits(bits));
}

/// Compares the taking of a pattern and of those up to so many beside it, with either sign.
fn compare_bits_around(group: &mut Group, bits: u32, beside: u32) {
    for near in bits.saturating_sub(beside)..=bits + beside {
        compare_bits(group, near & !MINUS);
        compare_bits(group, near | MINUS);
    }
}

/// Every sign and exponent, fractions at and beside powers of two: zeros, subnormals, infinities, NaNs of every kind.
fn every_exponent(group: &mut Group, _: u64) {
    for exponent in 0..256 {
        let start = exponent << 23;
        compare_bits_around(group, start, 3);
        compare_bits_around(group, start | 0x7f_ffff, 3);
        for power in 2..23 {
            compare_bits_around(group, start + (1 << power), 2);
        }
    }
}

/// The patterns around 16384, 32768, 1/2048, 1/1024 and the infinities.
fn around_the_limits(group: &mut Group, _: u64) {
    for limit in [16384.0, 32768.0, 1.0 / 2048.0, 1.0 / 1024.0, f32::INFINITY] {
        compare_bits_around(group, limit.to_bits(), 1_000);
    }
}

/// Odd multiples of half a unit at every exponent that holds them, with the patterns beside them.
fn halves_of_a_unit(group: &mut Group, amount: u64) {
    let mut random = Random::new(101);
    for power in 0..24 {
        let least = 1u32 << power;
        for _ in 0..150 * amount {
            let halves = (least + random.below(u64::from(least)) as u32) | 1;
            compare_bits_around(group, (halves as f32 / 2048.0).to_bits(), 2);
        }
        compare_bits_around(group, ((2 * least - 1) as f32 / 2048.0).to_bits(), 2);
    }
}

/// Patterns drawn from all of them.
fn random_patterns(group: &mut Group, amount: u64) {
    let mut random = Random::new(102);
    for _ in 0..40_000 * amount {
        compare_bits(group, random.draw() as u32);
    }
}

/// Patterns drawn from those of about 1/16384 to 65536 in magnitude.
fn random_readings(group: &mut Group, amount: u64) {
    let mut random = Random::new(103);
    for _ in 0..40_000 * amount {
        let exponent = random.between(113, 143) as u32;
        compare_bits(group, exponent << 23 | random.draw() as u32 & 0x807f_ffff);
    }
}

/// Every one of the 2^32 patterns.
pub fn every_pattern(group: &mut Group, _: u64) {
    for bits in 0..=u32::MAX {
        compare_bits(group, bits);
    }
}

/// Compares the taking of one number of units.
fn compare_units(group: &mut Group, x: i32) {
    group.compare(&x, readings::take_units(x).into(), boundary::take_units(x));
}

/// Units at and beside each power of two, with either sign.
fn edge_units(group: &mut Group, _: u64) {
    for power in 0..32 {
        for beside in -40..=40 {
            let x = (1i32 << power).wrapping_add(beside);
            compare_units(group, x);
            compare_units(group, x.wrapping_neg());
        }
    }
}

/// Units drawn from all numbers, and from those about the allowed ones.
fn random_units(group: &mut Group, amount: u64) {
    let mut random = Random::new(104);
    for _ in 0..20_000 * amount {
        compare_units(group, random.draw() as i32);
        compare_units(group, random.between(-(1 << 25), 1 << 25) as i32);
    }
}
