//! Document 01's vectors, edges and laws, run against this program alone.

mod blocks;
mod drawn;
mod edges;
mod lattice;
mod layers;
mod lent;
mod orders;
mod readings;
mod records;
mod scores;
mod showing;
mod stores;
mod tables;

use crate::layers::Settings;
use crate::refusals::refused;

/// Settings q and M.
fn settings(q: i32, m: i32) -> Settings {
    Settings { q, m }
}

/// Eight numbers that begin so and end in zeros.
fn eight<N: Copy + Default>(start: &[N]) -> [N; 8] {
    std::array::from_fn(|i| start.get(i).copied().unwrap_or_default())
}
