//! Records: both programs on lent step lists, readings, code records and room.

pub mod decoding;
pub mod encoding;
pub mod faults;
pub mod inputs;
pub mod orders;
pub mod reports;
pub mod rooms;
pub mod round_trips;

use second::built::fvecs_of_units;
use second::drawn::{drawn_record, drawn_steps, drawn_units, NEVER};
use second::layers::Layout;
use second::random::Random;
use second::records::{decode, encode, Vector};

use super::operations::{Asked, Operation};
use crate::boundary::{self, answers::ValueAnswer};

/// Encoding an fvecs record.
pub const ENCODE: Operation<u8, u8, ValueAnswer> = Operation {
    second: |settings, [steps, _], [record, _], room| encode(settings, steps, Vector::Record(record), room).into(),
    library: |settings, [steps, _], [record, _], room| boundary::encode(settings, steps, record, room),
    drawn: |random, layout, blocks| {
        let asked = fitting_units(random, layout, blocks);
        Asked::new(layout, &asked.steps[0], &fvecs_of_units(&asked.inputs[0]), asked.room.len())
    },
    greatest_q: 16,
};

/// Encoding whole units.
pub const ENCODE_UNITS: Operation<i32, u8, ValueAnswer> = Operation {
    second: |settings, [steps, _], [units, _], room| encode(settings, steps, Vector::Units(units), room).into(),
    library: |settings, [steps, _], [units, _], room| boundary::encode_units(settings, steps, units, room),
    drawn: fitting_units,
    greatest_q: 16,
};

/// Decoding a bvecs record.
pub const DECODE: Operation<u8, u8, ValueAnswer> = Operation {
    second: |settings, [steps, _], [record, _], room| decode(settings, steps, record, room).into(),
    library: |settings, [steps, _], [record, _], room| boundary::decode(settings, steps, record, room),
    drawn: |random, layout, blocks| {
        let steps = drawn_steps(random);
        let record = drawn_record(random, layout, blocks, steps.len());
        Asked::new(layout, &steps, &record, readings_length(blocks))
    },
    greatest_q: 16,
};

/// A step list and units of so many blocks that it most often fits.
fn fitting_units(random: &mut Random, layout: Layout, blocks: usize) -> Asked<i32, u8> {
    let steps = drawn_steps(random);
    let units = drawn_units(random, layout, &steps, blocks, NEVER);
    Asked::new(layout, &steps, &units, code_length(layout, blocks))
}

/// The length of a code record of so many blocks.
pub fn code_length(layout: Layout, blocks: usize) -> usize {
    4 + blocks * layout.block_bytes()
}

/// The length of an fvecs record of so many blocks.
pub fn readings_length(blocks: usize) -> usize {
    4 + 32 * blocks
}
