//! The library alone: what is encoded and decoded, decoded and encoded, or coded in two ways, comes out as the rules say.

use second::built::{bvecs, fvecs, fvecs_of_units};
use second::drawn::{allowed_layouts, drawn_record, drawn_steps, drawn_units, lent, NEVER};
use second::layers::Layout;
use second::lent::Lent;
use second::random::Random;

use super::{code_length, readings_length, ENCODE};
use crate::boundary::{self, answers::ReadingAnswer};
use crate::comparison::operations::Asked;
use crate::comparison::{Group, Work};

/// The groups of round trips.
pub const GROUPS: &[(&str, Work)] = &[
    ("encoded and decoded: the nearest points", nearest_points),
    ("decoded and encoded with one step: the same record", one_step_again),
    ("decoded and encoded with the whole list", list_again),
    ("readings and units encode alike", forms_alike),
    ("each block encodes as it does alone", blocks_alone),
    ("a report is what encoding and decoding give", report_alike),
];

/// A vector that its step list may fit, at settings.
struct Drawn {
    layout: Layout,
    steps: Vec<i32>,
    units: Vec<i32>,
}

impl Drawn {
    /// A step list and the X of up to so many blocks, none of them loud.
    fn new(random: &mut Random, layout: Layout, most: i64) -> Self {
        let (steps, blocks) = (drawn_steps(random), random.between(1, most) as usize);
        let units = drawn_units(random, layout, &steps, blocks, NEVER);
        Drawn { layout, steps, units }
    }

    /// The library's record of units, if it accepts them.
    fn coded(&self, units: &[i32]) -> Option<Vec<u8>> {
        let mut room = Lent::room_of(code_length(self.layout, units.len() / 8));
        let answer = boundary::encode_units(lent(self.layout), &self.steps, units, room.room());
        (answer.value > 0).then(|| room.content().to_vec())
    }
}

/// The library's readings of a record.
pub fn decoded(layout: Layout, steps: &[i32], record: &[u8]) -> Vec<u8> {
    let mut room = Lent::room_of(readings_length(record.len() / layout.block_bytes()));
    boundary::decode(lent(layout), steps, record, room.room());
    room.content().to_vec()
}

/// The readings of the points nearest to X over the step that each block's T names.
fn nearest_readings(drawn: &Drawn, record: &[u8]) -> Vec<u8> {
    let blocks = drawn.units.chunks(8).zip(record[4..].chunks(drawn.layout.block_bytes()));
    let readings: Vec<f32> = blocks
        .flat_map(|(x, block)| {
            let s = drawn.steps[usize::from(block[0])];
            let doubled: Vec<i32> = x.iter().map(|x| 2 * x).collect();
            boundary::nearest(&doubled, s).e.map(|e| (s * e) as f32 / 2048.0)
        })
        .collect();
    fvecs(&readings)
}

/// What an accepted record decodes to is s e / 2048, e the nearest point at the step that T names.
fn nearest_points(group: &mut Group, amount: u64) {
    let mut random = Random::new(461);
    for layout in allowed_layouts().repeat(200 * amount as usize) {
        let drawn = Drawn::new(&mut random, layout, 4);
        if let Some(record) = drawn.coded(&drawn.units) {
            let readings = decoded(layout, &drawn.steps, &record);
            group.compare(&(layout, &drawn.steps, &drawn.units), nearest_readings(&drawn, &record), readings);
        }
    }
}

/// With one step of 2 or more, every record is the one that its decoded readings encode to.
fn one_step_again(group: &mut Group, amount: u64) {
    let mut random = Random::new(462);
    for layout in allowed_layouts().repeat(200 * amount as usize) {
        let (step, blocks) = ([random.between(2, 1024) as i32], random.between(1, 4) as usize);
        let record = drawn_record(&mut random, layout, blocks, 1);
        let readings = decoded(layout, &step, &record);
        let mut again = Lent::room_of(record.len());
        boundary::encode(lent(layout), &step, &readings, again.room());
        group.compare(&(layout, step), Lent::new(&record), again);
    }
}

/// Both programs encode the library's decoded readings of a record of any T alike.
fn list_again(group: &mut Group, amount: u64) {
    let mut random = Random::new(463);
    for layout in allowed_layouts().repeat(60 * amount as usize) {
        let (steps, blocks) = (drawn_steps(&mut random), random.between(1, 4) as usize);
        let record = drawn_record(&mut random, layout, blocks, steps.len());
        let readings = decoded(layout, &steps, &record);
        ENCODE.compare(group, &Asked::new(layout, &steps, &readings, record.len()));
    }
}

/// A record of readings and the same readings as units give the same answer and room.
fn forms_alike(group: &mut Group, amount: u64) {
    let mut random = Random::new(464);
    for layout in allowed_layouts().repeat(200 * amount as usize) {
        let Drawn { steps, units, .. } = Drawn::new(&mut random, layout, 8);
        let length = code_length(layout, units.len() / 8);
        let (mut by_units, mut by_record) = (Lent::room_of(length), Lent::room_of(length));
        let of_units = boundary::encode_units(lent(layout), &steps, &units, by_units.room());
        let of_record = boundary::encode(lent(layout), &steps, &fvecs_of_units(&units), by_record.room());
        group.compare(&(layout, steps, units), (of_units, by_units), (of_record, by_record));
    }
}

/// A record is the bytes of its blocks, each encoded by itself.
fn blocks_alone(group: &mut Group, amount: u64) {
    let mut random = Random::new(465);
    for layout in allowed_layouts().repeat(50 * amount as usize) {
        let drawn = Drawn::new(&mut random, layout, 64);
        let alone: Option<Vec<Vec<u8>>> =
            drawn.units.chunks(8).map(|x| drawn.coded(x).map(|record| record[4..].to_vec())).collect();
        let together = drawn.coded(&drawn.units);
        group.compare(&(layout, &drawn.steps, &drawn.units), alone.map(|blocks| bvecs(&blocks.concat())), together);
    }
}

/// The readings that a report gives as decoded, as a record.
fn reported(reading: [ReadingAnswer; 8]) -> Vec<u8> {
    fvecs(&reading.map(|reading| reading.decoded.value()))
}

/// A report's decoded readings are those that the encoded block decodes to.
fn report_alike(group: &mut Group, amount: u64) {
    let mut random = Random::new(466);
    for layout in allowed_layouts().repeat(200 * amount as usize) {
        let drawn = Drawn::new(&mut random, layout, 1);
        if let Some(record) = drawn.coded(&drawn.units) {
            let report = boundary::report(lent(layout), &drawn.steps, &drawn.units);
            let readings = decoded(layout, &drawn.steps, &record);
            group.compare(&(layout, &drawn.steps, &drawn.units), readings, reported(report.reading));
        }
    }
}
