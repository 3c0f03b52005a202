//! Stores: the best hour, plain and with a lent table.

use second::layers::Settings;

use super::answers::{HourAnswer, LentSettings};
use super::parts;

extern "C" {
    fn ek_best_hour(
        settings: LentSettings,
        steps: *const i32,
        steps_len: usize,
        query: *const u8,
        query_len: usize,
        store: *const u8,
        store_len: usize,
    ) -> HourAnswer;
    fn ek_best_hour_with_table(
        settings: LentSettings,
        steps: *const i32,
        steps_len: usize,
        query: *const u8,
        query_len: usize,
        store: *const u8,
        store_len: usize,
        table: *mut i32,
        table_len: usize,
    ) -> HourAnswer;
}

/// The library's best hour of a store for an fvecs record.
pub fn best_hour(settings: Settings, steps: &[i32], query: &[u8], store: &[u8]) -> HourAnswer {
    let (steps, steps_len) = parts(steps);
    let (query, query_len) = parts(query);
    unsafe { ek_best_hour(settings.into(), steps, steps_len, query, query_len, store.as_ptr(), store.len()) }
}

/// The library's best hour by a table that it fills.
pub fn best_hour_with_table(
    settings: Settings,
    steps: &[i32],
    query: &[u8],
    store: &[u8],
    table: &mut [i32],
) -> HourAnswer {
    let (steps, steps_len) = parts(steps);
    let (query, query_len) = parts(query);
    let (store, store_len) = parts(store);
    let (table, table_len) = (table.as_mut_ptr(), table.len());
    unsafe {
        ek_best_hour_with_table(settings.into(), steps, steps_len, query, query_len, store, store_len, table, table_len)
    }
}
