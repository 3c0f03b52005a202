//! Faults that an operation can meet, and every set of them at once, so that each pair shows which comes first.

use std::fmt::Debug;

use second::built::bvecs;
use second::drawn::{allowed_layouts, lent, REFUSED_SETTINGS, REFUSED_STEPS};
use second::lent::Entry;
use second::random::Random;

use super::operations::{Asked, Operation};
use super::Group;

/// Puts a fault into what is asked. On an operation's list a fault stands after those whose place it may take away.
pub type Fault<I, R> = fn(&mut Random, &mut Asked<I, R>);

/// Settings that are refused.
pub fn bad_settings<I, R>(random: &mut Random, asked: &mut Asked<I, R>) {
    asked.settings = random.pick(&REFUSED_SETTINGS);
}

/// Settings that are allowed, with a q past this one, for which there is no table.
pub fn other_q<const GREATEST: i64, I, R>(random: &mut Random, asked: &mut Asked<I, R>) {
    let mut others = allowed_layouts();
    others.retain(|layout| layout.q > GREATEST && layout.layers == asked.settings.m as usize);
    asked.settings = lent(random.pick(&others));
}

/// A step list that is refused.
pub fn bad_steps<const LIST: usize, I, R>(random: &mut Random, asked: &mut Asked<I, R>) {
    asked.steps[LIST] = random.pick(&REFUSED_STEPS).to_vec();
}

/// Room that is too short by one entry or more.
pub fn short_room<I, R>(random: &mut Random, asked: &mut Asked<I, R>) {
    let any = random.place(asked.room.len());
    asked.room.truncate(random.pick(&[asked.room.len() - 1, any, 0]));
}

/// A record with a dimension that is right for none.
pub fn wrong_dimension<const INPUT: usize, R>(random: &mut Random, asked: &mut Asked<u8, R>) {
    let wrong = random.pick(&[0, 7, 520, 5_000, 1 << 31, u32::MAX]);
    asked.inputs[INPUT][..4].copy_from_slice(&wrong.to_le_bytes());
}

/// A record that is cut at any byte.
pub fn cut_short<const INPUT: usize, R>(random: &mut Random, asked: &mut Asked<u8, R>) {
    let length = random.place(asked.inputs[INPUT].len());
    asked.inputs[INPUT].truncate(length);
}

/// The dimension that a record starts with.
fn dimension(record: &[u8]) -> usize {
    u32::from_le_bytes(std::array::from_fn(|i| record[i])) as usize
}

/// Puts a pattern in the place of any reading.
fn put_pattern<R>(random: &mut Random, asked: &mut Asked<u8, R>, pattern: u32) {
    let start = 4 + 4 * random.place(dimension(&asked.inputs[0]));
    asked.inputs[0][start..start + 4].copy_from_slice(&pattern.to_le_bytes());
}

/// A reading in range that no step fits.
pub fn loud_reading<R>(random: &mut Random, asked: &mut Asked<u8, R>) {
    put_pattern(random, asked, 16_000.0f32.to_bits());
}

/// A reading out of range.
pub fn infinite_reading<R>(random: &mut Random, asked: &mut Asked<u8, R>) {
    put_pattern(random, asked, f32::INFINITY.to_bits());
}

/// A missing reading.
pub fn missing_reading<R>(random: &mut Random, asked: &mut Asked<u8, R>) {
    put_pattern(random, asked, 0x7fc0_0000);
}

/// Puts a number of units in any place.
fn put_units<R>(random: &mut Random, asked: &mut Asked<i32, R>, x: i32) {
    let place = random.place(asked.inputs[0].len());
    asked.inputs[0][place] = x;
}

/// Units in range that no step fits.
pub fn loud_units<R>(random: &mut Random, asked: &mut Asked<i32, R>) {
    put_units(random, asked, -16_000_000);
}

/// Units out of range.
pub fn far_units<R>(random: &mut Random, asked: &mut Asked<i32, R>) {
    put_units(random, asked, i32::MIN);
}

/// A count of units that is not allowed.
pub fn wrong_count<R>(random: &mut Random, asked: &mut Asked<i32, R>) {
    let count = asked.inputs[0].len();
    asked.inputs[0].resize(random.pick(&[0, 7, count - 1, count + 1, 520]), 0);
}

/// The number of bytes of a block at the settings that are asked for.
pub fn block_bytes<R>(asked: &Asked<u8, R>) -> usize {
    8 * asked.settings.m as usize + 1
}

/// The number of bytes of each code record of an input, by the first one's dimension.
pub fn record_bytes(records: &[u8]) -> usize {
    4 + dimension(records)
}

/// Where any code record of an input starts.
pub fn any_record<R>(random: &mut Random, asked: &Asked<u8, R>, input: usize) -> usize {
    let record = record_bytes(&asked.inputs[input]);
    random.place(asked.inputs[input].len() / record) * record
}

/// Where any block of any code record of an input starts.
fn any_block<R>(random: &mut Random, asked: &Asked<u8, R>, input: usize) -> usize {
    let blocks = record_bytes(&asked.inputs[input]) / block_bytes(asked);
    any_record(random, asked, input) + 4 + random.place(blocks) * block_bytes(asked)
}

/// A digit that is not below q, in any block.
pub fn bad_digit<const INPUT: usize, R>(random: &mut Random, asked: &mut Asked<u8, R>) {
    let digit = random.place(block_bytes(asked) - 1);
    let place = any_block(random, asked, INPUT) + 1 + digit;
    asked.inputs[INPUT][place] = asked.settings.q as u8;
}

/// A T past the list, in any block.
pub fn bad_t<const INPUT: usize, R: Entry>(random: &mut Random, asked: &mut Asked<u8, R>) {
    let place = any_block(random, asked, INPUT);
    asked.inputs[INPUT][place] = asked.list_of(INPUT).len() as u8;
}

/// Any code record of an input with one block more, or with one block less.
pub fn other_count<const INPUT: usize, R>(random: &mut Random, asked: &mut Asked<u8, R>) {
    let (start, record) = (any_record(random, asked, INPUT), record_bytes(&asked.inputs[INPUT]));
    let (length, block) = (record - 4, block_bytes(asked));
    let less = if length > block { length - block } else { length + block };
    let mut body = asked.inputs[INPUT][start + 4..start + record].to_vec();
    body.resize(random.pick(&[less, length + block]), 0);
    asked.inputs[INPUT].splice(start..start + record, bvecs(&body));
}

/// Puts one of these faults into what is asked.
pub fn any_fault<I, R>(random: &mut Random, asked: &mut Asked<I, R>, faults: &[Fault<I, R>]) {
    random.pick(faults)(random, asked);
}

/// A digit that is not below q or a T past the list, in any block.
pub fn bad_byte<const INPUT: usize, R: Entry>(random: &mut Random, asked: &mut Asked<u8, R>) {
    any_fault(random, asked, &[bad_digit::<INPUT, R>, bad_t::<INPUT, R>]);
}

/// A record with a dimension that is right for none, or cut at any byte.
pub fn bad_frame<const INPUT: usize, R>(random: &mut Random, asked: &mut Asked<u8, R>) {
    any_fault(random, asked, &[wrong_dimension::<INPUT, R>, cut_short::<INPUT, R>]);
}

/// A code record with a dimension that is right for none or for another K, or cut at any byte.
pub fn other_frame<const INPUT: usize, R>(random: &mut Random, asked: &mut Asked<u8, R>) {
    any_fault(random, asked, &[wrong_dimension::<INPUT, R>, cut_short::<INPUT, R>, other_count::<INPUT, R>]);
}

impl<I: Entry, R: Entry, A: Debug + PartialEq> Operation<I, R, A> {
    /// One to three blocks at every setting, under every set of these faults, none and all among them.
    pub fn every_set(&self, group: &mut Group, seed: u64, rounds: u64, faults: &[Fault<I, R>]) {
        let mut random = Random::new(seed);
        for layout in self.layouts().repeat(rounds as usize) {
            let blocks = 1 + random.place(3);
            let good = (self.drawn)(&mut random, layout, blocks);
            for set in 0..1 << faults.len() {
                let mut asked = good.clone();
                for (_, fault) in faults.iter().enumerate().filter(|(i, _)| set >> i & 1 == 1) {
                    fault(&mut random, &mut asked);
                }
                self.compare(group, &asked);
            }
        }
    }
}
