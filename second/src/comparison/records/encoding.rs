//! Encoding good vectors: both programs on readings that fit a first or a later step, or none.

use second::built::fvecs_of_patterns;
use second::drawn::{allowed_layouts, drawn_pattern, drawn_steps, drawn_units, NEVER, REFUSED_STEPS};
use second::layers::Layout;
use second::random::Random;

use super::{code_length, ENCODE, ENCODE_UNITS};
use crate::comparison::operations::{Asked, MOST_BLOCKS};
use crate::comparison::{Group, Work};

/// The groups of encoding.
pub const GROUPS: &[(&str, Work)] = &[
    ("encoding, every q, M and K", every_count),
    ("encoding, a few blocks", few_blocks),
    ("encoding, readings of every size", every_size),
    ("encoding, rich in ties", rich_in_ties),
    ("encoding, all of a small box", small_box),
    ("encoding, halves, zeros and subnormals", halves_and_zeros),
    ("encoding, step lists", step_lists),
];

/// Step lists at and beside their limits.
const EDGE_STEPS: [&[i32]; 12] = [
    &[1],
    &[2],
    &[1023],
    &[1024],
    &[1, 2],
    &[1, 1024],
    &[1023, 1024],
    &[1, 2, 3],
    &[1, 512, 1024],
    &[1, 2, 3, 4],
    &[1021, 1022, 1023, 1024],
    &[7, 60, 400, 1000],
];

/// Compares the encoding of units, and of readings near them, into room that is longer by 0 to 15.
fn compare_forms(group: &mut Group, random: &mut Random, layout: Layout, steps: &[i32], units: &[i32]) {
    let room = code_length(layout, units.len() / 8) + random.place(16);
    let patterns: Vec<u32> = units.iter().map(|&x| drawn_pattern(random, x)).collect();
    ENCODE_UNITS.compare(group, &Asked::new(layout, steps, units, room));
    ENCODE.compare(group, &Asked::new(layout, steps, &fvecs_of_patterns(&patterns), room));
}

/// A vector of each K at every allowed setting, about half of them without loud blocks.
fn every_count(group: &mut Group, amount: u64) {
    let mut random = Random::new(401);
    for layout in allowed_layouts() {
        for blocks in (1..=MOST_BLOCKS).cycle().take(MOST_BLOCKS * amount as usize) {
            let steps = drawn_steps(&mut random);
            let one_in = random.pick(&[NEVER, 50]);
            let units = drawn_units(&mut random, layout, &steps, blocks, one_in);
            compare_forms(group, &mut random, layout, &steps, &units);
        }
    }
}

/// Vectors of one to four blocks.
fn few_blocks(group: &mut Group, amount: u64) {
    let mut random = Random::new(402);
    for layout in allowed_layouts() {
        for _ in 0..500 * amount {
            let steps = drawn_steps(&mut random);
            let blocks = random.between(1, 4) as usize;
            let units = drawn_units(&mut random, layout, &steps, blocks, 6);
            compare_forms(group, &mut random, layout, &steps, &units);
        }
    }
}

/// Readings drawn up to each power of two, at every allowed setting.
fn every_size(group: &mut Group, amount: u64) {
    let mut random = Random::new(403);
    for layout in allowed_layouts() {
        for power in (0..=24).cycle().take(100 * amount as usize) {
            let steps = drawn_steps(&mut random);
            let units: Vec<i32> =
                (0..8 * random.between(1, 2)).map(|_| random.between(-(1 << power), 1 << power) as i32).collect();
            compare_forms(group, &mut random, layout, &steps, &units);
        }
    }
}

/// Readings that are halves of a step's multiples, and steps that are small.
fn rich_in_ties(group: &mut Group, amount: u64) {
    let mut random = Random::new(404);
    for layout in allowed_layouts() {
        for _ in 0..300 * amount {
            let s = random.between(1, 12) as i32;
            let far = random.pick(&[1, 2, 4, layout.q]);
            let units: [i32; 8] = std::array::from_fn(|_| random.between(-far, far) as i32 * s / 2);
            let count = random.between(1, 4) as usize;
            let steps = random.pick(&[[s, s + 1, s + 2, s + 3], [s, 2 * s, 3 * s, 4 * s], [1, 2, 3, 4]]);
            compare_forms(group, &mut random, layout, &steps[..count], &units);
        }
    }
}

/// All readings of at most one unit in magnitude, with small steps, for q = 2 and 3.
fn small_box(group: &mut Group, _: u64) {
    let mut random = Random::new(405);
    for number in 0..3i32.pow(8) {
        let units: [i32; 8] = std::array::from_fn(|i| number / 3i32.pow(i as u32) % 3 - 1);
        for (q, layers) in [(2, 1), (2, 3), (3, 1)] {
            compare_forms(group, &mut random, Layout { q, layers }, &[1, 2, 3], &units);
        }
    }
}

/// A pattern that is a few halves of a unit, or one beside such a pattern, or a zero, or next to one.
fn fine_pattern(random: &mut Random) -> u32 {
    let halves = (random.between(-9, 9) as f32 / 2048.0).to_bits();
    let tiny = random.pick(&[0, 1, 0x7f_ffff, 0x80_0000, 0x80_0001, (1.0f32 / 4096.0).to_bits()]);
    let sign = random.pick(&[0, 1 << 31]);
    random.pick(&[halves, halves, halves ^ 1, tiny | sign])
}

/// Readings of a few halves of a unit, zeros of either sign and the smallest numbers there are.
fn halves_and_zeros(group: &mut Group, amount: u64) {
    let mut random = Random::new(406);
    for layout in allowed_layouts() {
        for _ in 0..200 * amount {
            let patterns: Vec<u32> = (0..8 * random.between(1, 2)).map(|_| fine_pattern(&mut random)).collect();
            let steps = random.pick(&[&[1][..], &[2], &[1, 2], &[1, 2, 3, 4]]);
            let room = code_length(layout, patterns.len() / 8);
            ENCODE.compare(group, &Asked::new(layout, steps, &fvecs_of_patterns(&patterns), room));
        }
    }
}

/// Step lists at and beside their limits, and those that are refused, at every allowed setting.
fn step_lists(group: &mut Group, amount: u64) {
    let mut random = Random::new(407);
    for layout in allowed_layouts() {
        for _ in 0..amount {
            for steps in EDGE_STEPS {
                let units = drawn_units(&mut random, layout, steps, 2, 6);
                compare_forms(group, &mut random, layout, steps, &units);
            }
            for steps in REFUSED_STEPS {
                let units = drawn_units(&mut random, layout, &[1], 2, 6);
                compare_forms(group, &mut random, layout, steps, &units);
            }
        }
    }
}
