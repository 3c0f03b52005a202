//! Decoding: both programs on code records, good and damaged.

use second::built::bvecs;
use second::drawn::{allowed_layouts, drawn_record, drawn_steps};
use second::layers::Layout;
use second::random::Random;

use super::{readings_length, DECODE};
use crate::comparison::operations::{Asked, MOST_BLOCKS};
use crate::comparison::{Group, Work};

/// The groups of decoding.
pub const GROUPS: &[(&str, Work)] = &[
    ("ek_decode, every q, M and K", |group, amount| DECODE.every_count(group, 431, amount)),
    ("ek_decode, a few blocks", few_blocks),
    ("ek_decode, edges", edge_records),
    ("ek_decode, settings and step lists", settings_and_steps),
    ("ek_decode, every dimension", |group, _| {
        DECODE.every_dimension(group, &mut Random::new(436), 0, MOST_BLOCKS);
    }),
    ("ek_decode, each bit of the dimension", |group, _| {
        DECODE.dimension_bits(group, &mut Random::new(437), 0, MOST_BLOCKS);
    }),
    ("ek_decode, records cut anywhere", |group, _| {
        DECODE.codes_cut_anywhere(group, &mut Random::new(438), 0);
    }),
    ("ek_decode, a bad byte at each place", |group, _| {
        DECODE.bad_bytes(group, &mut Random::new(439), 0, 3);
    }),
    ("ek_decode, several bad bytes", |group, amount| {
        DECODE.several_bad_bytes(group, &mut Random::new(471), 200 * amount, 0);
    }),
    ("ek_decode, bytes of any kind", |group, amount| {
        DECODE.any_bytes(group, &mut Random::new(472), 200 * amount, 0);
    }),
];

/// Compares the decoding of a record into room that is longer by 0 to 15.
fn compare_decode(group: &mut Group, random: &mut Random, layout: Layout, steps: &[i32], input: &[u8]) {
    let room = readings_length(input.len() / layout.block_bytes()) + random.place(16);
    DECODE.compare(group, &Asked::new(layout, steps, input, room));
}

/// Records of one to four blocks, with bytes past their end or none.
fn few_blocks(group: &mut Group, amount: u64) {
    let mut random = Random::new(432);
    for layout in allowed_layouts() {
        for _ in 0..500 * amount {
            let steps = drawn_steps(&mut random);
            let blocks = random.between(1, 4) as usize;
            let mut input = drawn_record(&mut random, layout, blocks, steps.len());
            input.extend(random.pick(&[&[][..], &[255], &[0, 99, 255, 1]]));
            compare_decode(group, &mut random, layout, &steps, &input);
        }
    }
}

/// Records whose digits are all alike with every T of lists at their limits.
fn edge_records(group: &mut Group, _: u64) {
    let mut random = Random::new(433);
    for layout in allowed_layouts() {
        for digit in 0..layout.q as u8 {
            let block = |t: u8| [&[t][..], &vec![digit; layout.digits()]].concat();
            compare_decode(group, &mut random, layout, &[1, 2, 1023, 1024], &bvecs(&[0, 1, 2, 3].map(block).concat()));
        }
    }
}

/// Settings of every kind, and step lists that are refused.
fn settings_and_steps(group: &mut Group, _: u64) {
    DECODE.every_setting(group, 434);
    DECODE.refused_steps(group, 435, 1);
}
