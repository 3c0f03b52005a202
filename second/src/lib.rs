//! Document 01's rules a second time, each computed as it is defined, to be compared with the proved library.

pub mod built;
pub mod drawn;
pub mod lattice;
pub mod layers;
pub mod lent;
pub mod random;
pub mod readings;
pub mod records;
pub mod refusals;
pub mod scores;
pub mod showing;
pub mod stores;
pub mod tables;

#[cfg(test)]
mod tests;
