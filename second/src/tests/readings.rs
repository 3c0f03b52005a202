//! Taking one reading (01, Readings and units).

use crate::random::Random;
use crate::readings::{take_bits, take_units, value_of_units, Taken};

/// What a reading is taken as.
fn taken(reading: f32) -> Taken {
    take_bits(reading.to_bits())
}

#[test]
fn named_readings() {
    assert_eq!(taken(7.25), Taken::Units(7424));
    assert_eq!(taken(1.0 / 2048.0), Taken::Units(0));
    assert_eq!(taken(-1.0 / 2048.0), Taken::Units(-1));
    assert_eq!(taken(3.0 / 2048.0), Taken::Units(1));
    assert_eq!(taken(-3.0 / 2048.0), Taken::Units(-2));
}

#[test]
fn both_zeros_and_subnormals_are_0() {
    for bits in [0, 0x8000_0000, 1, 0x8000_0001, 0x007f_ffff, 0x807f_ffff, 0x0080_0000, 0x8080_0000] {
        assert_eq!(take_bits(bits), Taken::Units(0));
    }
    assert_eq!(value_of_units(0).to_bits(), 0);
}

#[test]
fn greatest_magnitudes() {
    let greatest = 16384.0f32.to_bits();
    assert_eq!(take_bits(greatest), Taken::Units(1 << 24));
    assert_eq!(take_bits(greatest | 1 << 31), Taken::Units(-(1 << 24)));
    assert_eq!(take_bits(greatest + 1), Taken::OutOfRange);
    assert_eq!(take_bits((greatest + 1) | 1 << 31), Taken::OutOfRange);
    assert_eq!(take_bits(greatest - 1), Taken::Units((1 << 24) - 1));
    assert_eq!(taken(f32::MAX), Taken::OutOfRange);
    assert_eq!(taken(f32::INFINITY), Taken::OutOfRange);
    assert_eq!(taken(f32::NEG_INFINITY), Taken::OutOfRange);
}

#[test]
fn every_nan_is_missing() {
    for bits in [0x7f80_0001, 0x7fc0_0000, 0x7fff_ffff, 0xff80_0001, 0xffc0_0000, 0xffff_ffff] {
        assert_eq!(take_bits(bits), Taken::Missing);
    }
}

#[test]
fn units_up_to_the_limit() {
    assert_eq!(take_units(1 << 24), Taken::Units(1 << 24));
    assert_eq!(take_units(-(1 << 24)), Taken::Units(-(1 << 24)));
    for x in [(1 << 24) + 1, -(1 << 24) - 1, i32::MAX, i32::MIN] {
        assert_eq!(take_units(x), Taken::OutOfRange);
    }
}

#[test]
fn the_value_of_units_is_taken_back() {
    let mut random = Random::new(11);
    for _ in 0..20_000 {
        let x = random.between(-(1 << 24), 1 << 24);
        assert_eq!(taken(value_of_units(x)), Taken::Units(x));
    }
}

#[test]
fn double_precision_gives_the_same_units() {
    let mut random = Random::new(12);
    for _ in 0..200_000 {
        let bits = random.draw() as u32;
        let scaled = f64::from(f32::from_bits(bits)) * 1024.0;
        let expected = if scaled.is_nan() {
            Taken::Missing
        } else if scaled.abs() > 16_777_216.0 {
            Taken::OutOfRange
        } else {
            Taken::Units((scaled - 0.5).ceil() as i64)
        };
        assert_eq!(take_bits(bits), expected, "{bits:#x}");
    }
}
