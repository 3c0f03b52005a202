//! Scores: two records against each other, and readings against a record.

use second::layers::Settings;

use super::answers::{LentSettings, ValueAnswer};
use super::parts;

extern "C" {
    fn ek_pair_score(
        settings: LentSettings,
        steps0: *const i32,
        steps0_len: usize,
        record0: *const u8,
        record0_len: usize,
        steps1: *const i32,
        steps1_len: usize,
        record1: *const u8,
        record1_len: usize,
    ) -> ValueAnswer;
    fn ek_query_score(
        settings: LentSettings,
        steps: *const i32,
        steps_len: usize,
        query: *const u8,
        query_len: usize,
        record: *const u8,
        record_len: usize,
    ) -> ValueAnswer;
}

/// The library's pair score.
pub fn pair_score(settings: Settings, steps: [&[i32]; 2], records: [&[u8]; 2]) -> ValueAnswer {
    let [(steps0, steps0_len), (steps1, steps1_len)] = steps.map(parts);
    let [(record0, record0_len), (record1, record1_len)] = records.map(parts);
    let settings = settings.into();
    unsafe {
        ek_pair_score(settings, steps0, steps0_len, record0, record0_len, steps1, steps1_len, record1, record1_len)
    }
}

/// The library's query score of an fvecs record with a bvecs record.
pub fn query_score(settings: Settings, steps: &[i32], query: &[u8], record: &[u8]) -> ValueAnswer {
    let (steps, steps_len) = parts(steps);
    let (query, query_len) = parts(query);
    unsafe { ek_query_score(settings.into(), steps, steps_len, query, query_len, record.as_ptr(), record.len()) }
}
