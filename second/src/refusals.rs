//! Refusals: a number of document 01's table and a place (01, When the unit says no).

/// A refusal: its number and its place.
#[derive(Clone, Copy, Debug, PartialEq, Eq)]
pub struct Refusal {
    /// The row of the table, 1 to 11.
    pub number: u64,
    /// What the row's last column says.
    pub place: u64,
}

/// A value, or the refusal that stands in its stead.
pub type Answer<V> = Result<V, Refusal>;

/// The answer that refuses with this number and place.
pub fn refused<V>(number: u64, place: u64) -> Answer<V> {
    Err(Refusal { number, place })
}

/// q, M or q^M outside limits.
pub const SETTINGS: u64 = 1;
/// A step list outside its rule.
pub const STEPS: u64 = 2;
/// A count that is not allowed, or lent room that is too short.
pub const SIZE: u64 = 3;
/// A missing reading.
pub const MISSING: u64 = 4;
/// A reading out of range.
pub const OUT_OF_RANGE: u64 = 5;
/// A block that no listed step fits.
pub const OVERLOAD: u64 = 6;
/// A digit of at least q, or a T past the list.
pub const DIGIT: u64 = 7;
/// A table asked for a q it isn't for.
pub const TABLE: u64 = 8;
/// Not a doubled E8 point, or numbers past their limits.
pub const POINT: u64 = 9;
/// A wrong dimension, or a record cut short.
pub const RECORD: u64 = 10;
/// An empty store.
pub const STORE: u64 = 11;

/// The place of refusal 3 for what is read.
pub const AT_INPUT: u64 = 0;
/// The place of refusal 3 for the room the answer is written to.
pub const AT_OUTPUT: u64 = 1;
/// The place of refusal 3 for a table.
pub const AT_TABLE: u64 = 2;

/// Refuses with this number at the index of the first fault, if there is one.
pub fn demand_none(first_fault: Option<usize>, number: u64) -> Answer<()> {
    match first_fault {
        Some(index) => refused(number, index as u64),
        None => Ok(()),
    }
}

/// Refuses with this number and place unless the rule holds.
pub fn demand(rule: bool, number: u64, place: u64) -> Answer<()> {
    if rule {
        Ok(())
    } else {
        refused(number, place)
    }
}
