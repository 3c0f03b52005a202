//! Taking one reading, from its bits or from whole units (01, Readings and units).

use crate::refusals::{Answer, Refusal, MISSING, OUT_OF_RANGE};

/// The greatest magnitude of a reading in units of 1/1024.
const GREATEST_UNITS: i64 = 1 << 24;

/// A reading as taken: its whole number X of units of 1/1024, or why there is none.
#[derive(Clone, Copy, Debug, PartialEq, Eq)]
pub enum Taken {
    /// The whole number X.
    Units(i64),
    /// No reading: the pattern is a NaN.
    Missing,
    /// An infinity, or a magnitude above 16384.
    OutOfRange,
}

/// Takes a whole number of units.
pub fn take_units(x: i32) -> Taken {
    in_range(i64::from(x))
}

/// Takes a binary32 pattern, judged exactly from its bits.
pub fn take_bits(bits: u32) -> Taken {
    let sign = if bits >> 31 == 0 { 1 } else { -1 };
    let exponent = (bits >> 23 & 0xff) as i32;
    let fraction = i64::from(bits & 0x7f_ffff);
    match exponent {
        255 if fraction != 0 => Taken::Missing,
        255 => Taken::OutOfRange,
        0 => take_scaled(sign * fraction, -139),
        _ => take_scaled(sign * (fraction + (1 << 23)), exponent - 140),
    }
}

/// Takes the reading of numerator times 2^power units, the numerator below 2^24 and past power 1 at least 2^23.
fn take_scaled(numerator: i64, power: i32) -> Taken {
    match power {
        2.. => Taken::OutOfRange,
        0..=1 => in_range(numerator << power),
        -40..=-1 => in_range(nearest_whole(numerator, 1 << -power)),
        _ => Taken::Units(0),
    }
}

/// The whole number nearest to a quotient, an exact half going to the lower one.
fn nearest_whole(numerator: i64, denominator: i64) -> i64 {
    let lower = numerator.div_euclid(denominator);
    let past_half = 2 * numerator.rem_euclid(denominator) > denominator;
    lower + i64::from(past_half)
}

/// The units if their magnitude is allowed.
fn in_range(x: i64) -> Taken {
    if x.abs() <= GREATEST_UNITS {
        Taken::Units(x)
    } else {
        Taken::OutOfRange
    }
}

/// The value X/1024 in single precision.
pub fn value_of_units(x: i64) -> f32 {
    x as f32 / 1024.0
}

/// Whether a vector may have this many readings.
pub fn count_allowed(count: usize) -> bool {
    (8..=512).contains(&count) && count.is_multiple_of(8)
}

/// Whole numbers of units as taken.
pub fn taken_units(units: &[i32]) -> Vec<Taken> {
    units.iter().map(|&x| take_units(x)).collect()
}

/// The units X of all readings, or 4 or 5 at the first that has none.
pub fn all_units(readings: &[Taken]) -> Answer<Vec<i64>> {
    readings.iter().zip(0..).map(|(&taken, place)| units_at(place, taken)).collect()
}

/// The units X of the reading at this place, or its refusal.
fn units_at(place: u64, taken: Taken) -> Answer<i64> {
    match taken {
        Taken::Units(x) => Ok(x),
        Taken::Missing => Err(Refusal { number: MISSING, place }),
        Taken::OutOfRange => Err(Refusal { number: OUT_OF_RANGE, place }),
    }
}
