//! Lent room of every length: too short by any number of bytes, exact, and longer.

use second::built::fvecs_of_units;
use second::drawn::{allowed_layouts, drawn_record, drawn_units, NEVER};
use second::layers::Layout;
use second::lent::Entry;
use second::random::Random;

use super::{code_length, readings_length, DECODE, ENCODE, ENCODE_UNITS};
use crate::boundary::answers::ValueAnswer;
use crate::comparison::operations::{Asked, Operation, MOST_BLOCKS};
use crate::comparison::{Group, Work};

/// The groups of room.
pub const GROUPS: &[(&str, Work)] = &[
    ("ek_encode, room", encode_rooms),
    ("ek_encode_units, room", encode_units_rooms),
    ("ek_decode, room", decode_rooms),
];

/// The step list of these groups.
const STEPS: [i32; 2] = [40, 90];

/// An operation that writes bytes.
type ToBytes<E> = Operation<E, u8, ValueAnswer>;

/// Compares an operation with room of every length to 16 past what it needs, for long records with those at the edges.
fn compare_rooms<E: Entry>(group: &mut Group, operation: &ToBytes<E>, layout: Layout, input: &[E], need: usize) {
    let edges = [0, 3, 4, 5, need - 5, need - 4, need - 2, need - 1, need, need + 1, need + 2, 2 * need];
    let lengths = if need > 150 { edges.to_vec() } else { (0..=need + 16).collect() };
    for room in lengths {
        operation.compare(group, &Asked::new(layout, &STEPS, input, room));
    }
}

/// The X of so many blocks, in some draws with loud ones.
fn drawn_readings(random: &mut Random, layout: Layout, blocks: usize) -> Vec<i32> {
    let one_in = random.pick(&[3, NEVER]);
    drawn_units(random, layout, &STEPS, blocks, one_in)
}

/// Room for records of few and of the most blocks, from readings.
fn encode_rooms(group: &mut Group, _: u64) {
    let mut random = Random::new(421);
    for layout in allowed_layouts() {
        for blocks in [1, 2, 3, MOST_BLOCKS] {
            let input = fvecs_of_units(&drawn_readings(&mut random, layout, blocks));
            compare_rooms(group, &ENCODE, layout, &input, code_length(layout, blocks));
        }
    }
}

/// Room for records of few and of the most blocks, from units.
fn encode_units_rooms(group: &mut Group, _: u64) {
    let mut random = Random::new(422);
    for layout in allowed_layouts() {
        for blocks in [1, 2, 3, MOST_BLOCKS] {
            let input = drawn_readings(&mut random, layout, blocks);
            compare_rooms(group, &ENCODE_UNITS, layout, &input, code_length(layout, blocks));
        }
    }
}

/// Room for the readings of few and of the most blocks.
fn decode_rooms(group: &mut Group, _: u64) {
    let mut random = Random::new(423);
    for layout in allowed_layouts() {
        for blocks in [1, 2, 3, MOST_BLOCKS] {
            let input = drawn_record(&mut random, layout, blocks, STEPS.len());
            compare_rooms(group, &DECODE, layout, &input, readings_length(blocks));
        }
    }
}
