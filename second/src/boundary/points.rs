//! One reading and one point: taking, the nearest point, the point coder and decoder.

use second::layers::Settings;

use super::answers::{LentSettings, PointAnswer, TakenAnswer};

extern "C" {
    fn ek_take_bits(bits: u32) -> TakenAnswer;
    fn ek_take_units(x: i32) -> TakenAnswer;
    fn ek_nearest(d: *const i32, d_len: usize, s: i32) -> PointAnswer;
    fn ek_digits_of_point(
        settings: LentSettings,
        e: *const i32,
        e_len: usize,
        out: *mut u8,
        out_len: usize,
    ) -> PointAnswer;
    fn ek_point_of_digits(settings: LentSettings, digits: *const u8, digits_len: usize) -> PointAnswer;
}

/// The library's taking of a pattern.
pub fn take_bits(bits: u32) -> TakenAnswer {
    unsafe { ek_take_bits(bits) }
}

/// The library's taking of whole units.
pub fn take_units(x: i32) -> TakenAnswer {
    unsafe { ek_take_units(x) }
}

/// The library's nearest point.
pub fn nearest(d: &[i32], s: i32) -> PointAnswer {
    unsafe { ek_nearest(d.as_ptr(), d.len(), s) }
}

/// The library's point coder.
pub fn digits_of_point(settings: Settings, e: &[i32], out: &mut [u8]) -> PointAnswer {
    unsafe { ek_digits_of_point(settings.into(), e.as_ptr(), e.len(), out.as_mut_ptr(), out.len()) }
}

/// The library's point decoder.
pub fn point_of_digits(settings: Settings, digits: &[u8]) -> PointAnswer {
    unsafe { ek_point_of_digits(settings.into(), digits.as_ptr(), digits.len()) }
}
