//! Records: readings to codes, codes to readings, and the report on a block (01, Bytes; Layers and steps).

use crate::layers::{allowed_steps, first_fitting_step, whole_point, Layout, Settings};
use crate::readings::{all_units, count_allowed, take_bits, taken_units, value_of_units, Taken};
use crate::refusals::{demand, demand_none, Answer, Refusal};
use crate::refusals::{AT_INPUT, AT_OUTPUT, DIGIT, RECORD, SIZE};

/// The greatest number K of blocks.
const MOST_BLOCKS: usize = 64;

/// A vector of readings as it is lent: an fvecs record or whole units.
#[derive(Clone, Copy, Debug)]
pub enum Vector<'a> {
    /// An fvecs record.
    Record(&'a [u8]),
    /// Whole numbers of units of 1/1024.
    Units(&'a [i32]),
}

impl Vector<'_> {
    /// Its readings as taken, or 10 for a wrong record and 3 for a wrong count.
    pub fn readings(self) -> Answer<Vec<Taken>> {
        match self {
            Vector::Record(record) => {
                let words = fvecs_body(record)?.chunks(4);
                Ok(words.map(|word| take_bits(little_endian(word))).collect())
            }
            Vector::Units(units) => {
                demand(count_allowed(units.len()), SIZE, AT_INPUT)?;
                Ok(taken_units(units))
            }
        }
    }
}

/// The number of four bytes, least byte first.
fn little_endian(word: &[u8]) -> u32 {
    word.iter().rev().fold(0, |number, &byte| number << 8 | u32::from(byte))
}

/// A record's dimension, if its four bytes are there.
fn dimension(record: &[u8]) -> Option<usize> {
    record.get(..4).map(|word| little_endian(word) as usize)
}

/// The readings' bytes of an fvecs record, or 10.
fn fvecs_body(record: &[u8]) -> Answer<&[u8]> {
    dimension(record)
        .filter(|&count| count_allowed(count))
        .and_then(|count| record.get(4..4 + 4 * count))
        .ok_or(Refusal { number: RECORD, place: 0 })
}

/// The bytes after the dimension of a code record, with this K where one is given, or 10.
pub fn code_body(layout: Layout, record: &[u8], blocks: Option<usize>) -> Answer<&[u8]> {
    dimension(record)
        .filter(|&size| dimension_right(layout, size, blocks))
        .and_then(|size| record.get(4..4 + size))
        .ok_or(Refusal { number: RECORD, place: 0 })
}

/// Whether a code dimension is K(8M+1) with an allowed K, and with this K where one is given.
fn dimension_right(layout: Layout, dimension: usize, blocks: Option<usize>) -> bool {
    let allowed = match blocks {
        Some(k) => k..=k,
        None => 1..=MOST_BLOCKS,
    };
    dimension.is_multiple_of(layout.block_bytes()) && allowed.contains(&(dimension / layout.block_bytes()))
}

/// A coded block: its step and its digits, layer 0 first.
pub struct Coded<'a> {
    /// The step that T names.
    pub step: i64,
    /// The digits.
    pub digits: &'a [u8],
}

/// The blocks of a code record's body, or 7 at the least byte index that is wrong.
pub fn coded_blocks<'a>(layout: Layout, steps: &[i64], body: &'a [u8]) -> Answer<Vec<Coded<'a>>> {
    let size = layout.block_bytes();
    let limit = |index: usize| if index.is_multiple_of(size) { steps.len() as i64 } else { layout.q };
    demand_none((0..body.len()).find(|&index| i64::from(body[index]) >= limit(index)), DIGIT)?;
    let coded = |block: &'a [u8]| Coded { step: steps[usize::from(block[0])], digits: &block[1..] };
    Ok(body.chunks(size).map(coded).collect())
}

/// Encodes a vector into a bvecs record in lent room and answers its length.
pub fn encode(settings: Settings, steps: &[i32], vector: Vector, room: &mut [u8]) -> Answer<usize> {
    let layout = settings.allowed()?;
    let steps = allowed_steps(steps, 0)?;
    let readings = vector.readings()?;
    demand(room.len() >= 4 + readings.len() / 8 * layout.block_bytes(), SIZE, AT_OUTPUT)?;
    let x = all_units(&readings)?;
    let body = encoded(layout, &steps, &x)?;
    Ok(write_record(room, body.len(), &body))
}

/// The bytes of all blocks in turn, or 6 at the first block that no step fits.
fn encoded(layout: Layout, steps: &[i64], x: &[i64]) -> Answer<Vec<u8>> {
    let mut body = Vec::new();
    for (block, x) in (0..).zip(x.chunks(8)) {
        let fitted = first_fitting_step(layout, steps, x, block)?;
        body.push(fitted.t as u8);
        body.extend(fitted.digits);
    }
    Ok(body)
}

/// Writes a dimension and a body at the start of lent room and answers the record's length.
fn write_record(room: &mut [u8], dimension: usize, body: &[u8]) -> usize {
    room[..4].copy_from_slice(&(dimension as u32).to_le_bytes());
    room[4..4 + body.len()].copy_from_slice(body);
    4 + body.len()
}

/// Decodes a bvecs record into an fvecs record in lent room and answers its length.
pub fn decode(settings: Settings, steps: &[i32], record: &[u8], room: &mut [u8]) -> Answer<usize> {
    let layout = settings.allowed()?;
    let steps = allowed_steps(steps, 0)?;
    let body = code_body(layout, record, None)?;
    let count = 8 * (body.len() / layout.block_bytes());
    demand(room.len() >= 4 + 4 * count, SIZE, AT_OUTPUT)?;
    let decoded: Vec<u8> = coded_blocks(layout, &steps, body)?
        .iter()
        .flat_map(|block| whole_point(layout, block.digits).map(|e| value_of_point(block.step, e)))
        .flat_map(f32::to_le_bytes)
        .collect();
    Ok(write_record(room, count, &decoded))
}

/// The decoded reading s·e/2048 in single precision.
fn value_of_point(s: i64, e: i64) -> f32 {
    value_of_halves(s * e)
}

/// A number of halves of a unit as a reading in single precision.
fn value_of_halves(halves: i64) -> f32 {
    halves as f32 / 2048.0
}

/// What a report says of one reading.
#[derive(Clone, Copy, Debug)]
pub struct Reported {
    /// The reading as taken, X/1024.
    pub taken: f32,
    /// The reading as decoded, s·e/2048.
    pub decoded: f32,
    /// Taken minus decoded.
    pub difference: f32,
}

/// The report on one block of whole units.
pub fn report(settings: Settings, steps: &[i32], units: &[i32]) -> Answer<[Reported; 8]> {
    let layout = settings.allowed()?;
    let steps = allowed_steps(steps, 0)?;
    demand(units.len() == 8, SIZE, AT_INPUT)?;
    let x = all_units(&taken_units(units))?;
    let fitted = first_fitting_step(layout, &steps, &x, 0)?;
    let (s, e) = (steps[fitted.t], whole_point(layout, &fitted.digits));
    Ok(std::array::from_fn(|i| Reported {
        taken: value_of_units(x[i]),
        decoded: value_of_point(s, e[i]),
        difference: value_of_halves(2 * x[i] - s * e[i]),
    }))
}
