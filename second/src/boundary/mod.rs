//! The proved library's C boundary: its functions, with slices for pointers and lengths.

pub mod answers;
mod points;
mod records;
mod scores;
mod stores;
mod tables;

pub use points::{digits_of_point, nearest, point_of_digits, take_bits, take_units};
pub use records::{decode, encode, encode_units, report};
pub use scores::{pair_score, query_score};
pub use stores::{best_hour, best_hour_with_table};
pub use tables::{fill_pair_table, fill_query_table, pair_score_by_table, query_score_by_table};

/// A slice as C is lent it: its pointer and its length.
fn parts<E>(slice: &[E]) -> (*const E, usize) {
    (slice.as_ptr(), slice.len())
}
