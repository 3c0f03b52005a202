//! Code records that are damaged, lent to any operation that takes one, all else being good.

use std::fmt::Debug;

use second::built::{bvecs, record};
use second::lent::Entry;
use second::random::Random;

use super::faults::{block_bytes, record_bytes};
use super::operations::{Asked, Operation, MOST_BLOCKS};
use super::Group;

/// The greatest number of bytes of a block.
const MOST_BLOCK_BYTES: usize = 33;

/// What a byte of a code record must be below: the list's length for a T, q for a digit.
fn limit<R: Entry>(asked: &Asked<u8, R>, input: usize, place: usize) -> u8 {
    let in_record = place % record_bytes(&asked.inputs[input]);
    if in_record >= 4 && (in_record - 4).is_multiple_of(block_bytes(asked)) {
        asked.list_of(input).len() as u8
    } else {
        asked.settings.q as u8
    }
}

/// A dimension with each one of its bits turned over.
pub fn bits_turned(dimension: u32) -> [u32; 32] {
    std::array::from_fn(|bit| dimension ^ 1 << bit)
}

impl<R: Entry, A: Debug + PartialEq> Operation<u8, R, A> {
    /// A few blocks, with a code record or a store that is damaged in every way below.
    pub fn damaged_codes(&self, group: &mut Group, seed: u64, rounds: u64, input: usize) {
        let random = &mut Random::new(seed);
        self.every_dimension(group, random, input, 1);
        self.dimension_bits(group, random, input, 1);
        self.codes_cut_anywhere(group, random, input);
        self.bad_bytes(group, random, input, 2);
        self.several_bad_bytes(group, random, rounds, input);
        self.any_bytes(group, random, rounds, input);
    }

    /// Every dimension from 0 to past the greatest, those of other M and of K = 0 and 65 among them, before zeros enough,
    /// before just as many, and before bytes that are wrong.
    pub fn every_dimension(&self, group: &mut Group, random: &mut Random, input: usize, blocks: usize) {
        let longest = (MOST_BLOCKS + 1) * MOST_BLOCK_BYTES + 1;
        for layout in self.light_layouts() {
            let mut asked = (self.drawn)(random, layout, blocks);
            let far = [1 << 16, (1 << 16) + layout.block_bytes(), 1 << 24, 1 << 31, u32::MAX as usize];
            for dimension in (0..=(MOST_BLOCKS + 1) * layout.block_bytes() + 1).chain(far) {
                for (byte, length) in [(0, longest), (0, dimension.min(longest)), (255, longest)] {
                    asked.inputs[input] = record(dimension as u32, &vec![byte; length]);
                    self.compare(group, &asked);
                }
            }
        }
    }

    /// Good dimensions with each one of their bits turned over, before zeros enough for every allowed K.
    pub fn dimension_bits(&self, group: &mut Group, random: &mut Random, input: usize, blocks: usize) {
        for layout in self.light_layouts() {
            let mut asked = (self.drawn)(random, layout, blocks);
            for dimension in [1, 2, 7, 32, 63, 64].map(|k| (k * layout.block_bytes()) as u32).map(bits_turned).concat()
            {
                asked.inputs[input] = record(dimension, &[0; MOST_BLOCKS * MOST_BLOCK_BYTES]);
                self.compare(group, &asked);
            }
        }
    }

    /// Records of one to three blocks, cut at every byte, and whole.
    pub fn codes_cut_anywhere(&self, group: &mut Group, random: &mut Random, input: usize) {
        for layout in self.light_layouts() {
            for blocks in 1..=3 {
                let mut asked = (self.drawn)(random, layout, blocks);
                let whole = asked.inputs[input].clone();
                for length in 0..=whole.len() {
                    asked.inputs[input] = whole[..length].to_vec();
                    self.compare(group, &asked);
                }
            }
        }
    }

    /// Records of so many blocks with one T at the list's length or past it, or one digit of q or more, at each place.
    pub fn bad_bytes(&self, group: &mut Group, random: &mut Random, input: usize, blocks: usize) {
        for layout in self.light_layouts() {
            let good = (self.drawn)(random, layout, blocks);
            for place in 4..good.inputs[input].len() {
                let (mut asked, limit) = (good.clone(), limit(&good, input, place));
                for damage in [limit - 1, limit, limit + 1, 127, 128, 255] {
                    asked.inputs[input][place] = damage;
                    self.compare(group, &asked);
                }
            }
        }
    }

    /// Records of one to three blocks with several bytes that are wrong.
    pub fn several_bad_bytes(&self, group: &mut Group, random: &mut Random, rounds: u64, input: usize) {
        for layout in self.light_layouts().repeat(rounds as usize) {
            let blocks = 1 + random.place(3);
            let mut asked = (self.drawn)(random, layout, blocks);
            for _ in 0..random.between(2, 6) {
                let damage = [asked.list_of(input).len() as u8, layout.q as u8, 16, 255];
                let place = random.between(4, asked.inputs[input].len() as i64 - 1) as usize;
                asked.inputs[input][place] = random.pick(&damage);
            }
            self.compare(group, &asked);
        }
    }

    /// Records whose bytes are drawn from few or from all.
    pub fn any_bytes(&self, group: &mut Group, random: &mut Random, rounds: u64, input: usize) {
        for layout in self.light_layouts().repeat(rounds as usize) {
            let blocks = 1 + random.place(3);
            let mut asked = (self.drawn)(random, layout, blocks);
            let most = random.pick(&[1, asked.list_of(input).len() as i64, layout.q, 255]);
            let body: Vec<u8> = (0..blocks * layout.block_bytes()).map(|_| random.between(0, most) as u8).collect();
            asked.inputs[input] = bvecs(&body);
            self.compare(group, &asked);
        }
    }
}
