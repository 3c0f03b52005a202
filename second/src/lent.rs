//! Buffers to lend: the content stands between guard entries, and all of it is compared afterwards.

use std::fmt::Debug;

/// The number of guard entries on each side, odd so that bytes stand at an odd address.
const GUARDS: usize = 17;

/// A kind of entry that is lent.
pub trait Entry: Copy + Debug + PartialEq {
    /// What stands beside the content.
    const GUARD: Self;

    /// The entry of the highest of 64 bits.
    fn of_high_bits(bits: u64) -> Self;
}

/// Makes integers of one kind lendable, with this guard.
macro_rules! lendable {
    ($integer:ty, $guard:expr) => {
        impl Entry for $integer {
            const GUARD: Self = $guard;

            fn of_high_bits(bits: u64) -> Self {
                (bits >> (u64::BITS - Self::BITS)) as Self
            }
        }
    };
}

lendable!(u8, 0xa5);
lendable!(i8, 0x5a);
lendable!(i32, 0x5a5a_5a5a);

/// So many entries to write over: no digit, no entry of a filled table, and no two alike in the same wide table.
pub fn to_write_over<E: Entry>(length: usize) -> Vec<E> {
    (0..length as u64).map(|i| E::of_high_bits((100 + i % 28) << 56 | i << 32)).collect()
}

/// A lent buffer with its guards; two are equal when content and guards are.
#[derive(Clone, Debug, PartialEq, Eq)]
pub struct Lent<E> {
    entries: Vec<E>,
}

impl<E: Entry> Lent<E> {
    /// A buffer with this content between guards.
    pub fn new(content: &[E]) -> Self {
        let guards = [E::GUARD; GUARDS];
        Lent { entries: [&guards, content, &guards].concat() }
    }

    /// So many entries to write over.
    pub fn room_of(length: usize) -> Self {
        Lent::new(&to_write_over(length))
    }

    /// The content, to be read.
    pub fn content(&self) -> &[E] {
        &self.entries[GUARDS..self.entries.len() - GUARDS]
    }

    /// The content, to be written to.
    pub fn room(&mut self) -> &mut [E] {
        let end = self.entries.len() - GUARDS;
        &mut self.entries[GUARDS..end]
    }

    /// Where this buffer first differs from one of the same length: the place, counted from the content's start, what is
    /// expected there and what this buffer holds.
    pub fn first_change(&self, expected: &Self) -> Option<(i64, E, E)> {
        if self.entries == expected.entries {
            return None;
        }
        let place = (0..self.entries.len()).find(|&place| self.entries[place] != expected.entries[place])?;
        Some((place as i64 - GUARDS as i64, expected.entries[place], self.entries[place]))
    }
}
