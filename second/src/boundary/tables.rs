//! Tables: filling them, and scoring by what they hold.

use second::layers::Settings;

use super::answers::{LentSettings, ValueAnswer};
use super::parts;

extern "C" {
    fn ek_fill_pair_table(settings: LentSettings, table: *mut i8, table_len: usize) -> ValueAnswer;
    fn ek_fill_query_table(
        settings: LentSettings,
        query: *const u8,
        query_len: usize,
        table: *mut i32,
        table_len: usize,
    ) -> ValueAnswer;
    fn ek_pair_score_by_table(
        settings: LentSettings,
        steps0: *const i32,
        steps0_len: usize,
        record0: *const u8,
        record0_len: usize,
        steps1: *const i32,
        steps1_len: usize,
        record1: *const u8,
        record1_len: usize,
        table: *const i8,
        table_len: usize,
    ) -> ValueAnswer;
    fn ek_query_score_by_table(
        settings: LentSettings,
        steps: *const i32,
        steps_len: usize,
        record: *const u8,
        record_len: usize,
        table: *const i32,
        table_len: usize,
    ) -> ValueAnswer;
}

/// The library's filling of the pair table.
pub fn fill_pair_table(settings: Settings, table: &mut [i8]) -> ValueAnswer {
    unsafe { ek_fill_pair_table(settings.into(), table.as_mut_ptr(), table.len()) }
}

/// The library's filling of the query table of an fvecs record.
pub fn fill_query_table(settings: Settings, query: &[u8], table: &mut [i32]) -> ValueAnswer {
    unsafe { ek_fill_query_table(settings.into(), query.as_ptr(), query.len(), table.as_mut_ptr(), table.len()) }
}

/// The library's pair score by a table.
pub fn pair_score_by_table(settings: Settings, steps: [&[i32]; 2], records: [&[u8]; 2], table: &[i8]) -> ValueAnswer {
    let [(steps0, steps0_len), (steps1, steps1_len)] = steps.map(parts);
    let [(record0, record0_len), (record1, record1_len)] = records.map(parts);
    let (settings, table, table_len) = (settings.into(), table.as_ptr(), table.len());
    unsafe {
        ek_pair_score_by_table(
            settings,
            steps0,
            steps0_len,
            record0,
            record0_len,
            steps1,
            steps1_len,
            record1,
            record1_len,
            table,
            table_len,
        )
    }
}

/// The library's query score by a table.
pub fn query_score_by_table(settings: Settings, steps: &[i32], record: &[u8], table: &[i32]) -> ValueAnswer {
    let (steps, steps_len) = parts(steps);
    let (record, record_len) = parts(record);
    unsafe {
        ek_query_score_by_table(settings.into(), steps, steps_len, record, record_len, table.as_ptr(), table.len())
    }
}
