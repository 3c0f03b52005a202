//! Records: encoding, decoding, and the report on a block.

use second::layers::Settings;

use super::answers::{LentSettings, ReportAnswer, ValueAnswer};
use super::parts;

extern "C" {
    fn ek_encode(
        settings: LentSettings,
        steps: *const i32,
        steps_len: usize,
        record: *const u8,
        record_len: usize,
        out: *mut u8,
        out_len: usize,
    ) -> ValueAnswer;
    fn ek_encode_units(
        settings: LentSettings,
        steps: *const i32,
        steps_len: usize,
        units: *const i32,
        units_len: usize,
        out: *mut u8,
        out_len: usize,
    ) -> ValueAnswer;
    fn ek_decode(
        settings: LentSettings,
        steps: *const i32,
        steps_len: usize,
        record: *const u8,
        record_len: usize,
        out: *mut u8,
        out_len: usize,
    ) -> ValueAnswer;
    fn ek_report(
        settings: LentSettings,
        steps: *const i32,
        steps_len: usize,
        units: *const i32,
        units_len: usize,
    ) -> ReportAnswer;
}

/// The library's encoding of an fvecs record.
pub fn encode(settings: Settings, steps: &[i32], record: &[u8], out: &mut [u8]) -> ValueAnswer {
    let (steps, steps_len) = parts(steps);
    unsafe { ek_encode(settings.into(), steps, steps_len, record.as_ptr(), record.len(), out.as_mut_ptr(), out.len()) }
}

/// The library's encoding of whole units.
pub fn encode_units(settings: Settings, steps: &[i32], units: &[i32], out: &mut [u8]) -> ValueAnswer {
    let (steps, steps_len) = parts(steps);
    let (out, out_len) = (out.as_mut_ptr(), out.len());
    unsafe { ek_encode_units(settings.into(), steps, steps_len, units.as_ptr(), units.len(), out, out_len) }
}

/// The library's decoding of a bvecs record.
pub fn decode(settings: Settings, steps: &[i32], record: &[u8], out: &mut [u8]) -> ValueAnswer {
    let (steps, steps_len) = parts(steps);
    unsafe { ek_decode(settings.into(), steps, steps_len, record.as_ptr(), record.len(), out.as_mut_ptr(), out.len()) }
}

/// The library's report on a block of whole units.
pub fn report(settings: Settings, steps: &[i32], units: &[i32]) -> ReportAnswer {
    unsafe { ek_report(settings.into(), steps.as_ptr(), steps.len(), units.as_ptr(), units.len()) }
}
