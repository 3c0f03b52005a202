//! Vectors that are damaged, lent to any operation that takes an fvecs record, all else being good.

use std::fmt::Debug;

use second::built::{fvecs_of_patterns, record};
use second::layers::Layout;
use second::lent::Entry;
use second::random::Random;

use super::codes::bits_turned;
use super::operations::{Operation, MOST_BLOCKS};
use super::Group;

/// Patterns of missing readings: quiet and signalling NaNs of either sign and several payloads.
const MISSING: [u32; 8] =
    [0x7fc0_0000, 0x7f80_0001, 0x7fff_ffff, 0x7fa0_0000, 0x7fc1_2345, 0xff80_0001, 0xffc0_0000, 0xffff_ffff];

/// Patterns out of range: infinities, the next above 16384, powers of two, the greatest there are.
const OUT_OF_RANGE: [u32; 8] =
    [0x7f80_0000, 0xff80_0000, 0x4680_0001, 0xc680_0001, 0x4700_0000, 0xc780_0000, 0x7f7f_ffff, 0xff7f_ffff];

/// Patterns of the greatest readings in range.
const GREATEST: [u32; 3] = [0x4680_0000, 0xc680_0000, 0x467f_ffff];

/// Settings with few and with many digits to a block.
pub const SOME_LAYOUTS: [Layout; 3] =
    [Layout { q: 2, layers: 1 }, Layout { q: 4, layers: 3 }, Layout { q: 8, layers: 4 }];

/// Vectors of zeros of so many blocks, with one entry of each kind at each place.
pub fn one_at_each_place<E: Copy + Default>(kinds: &[E], blocks: usize) -> impl Iterator<Item = Vec<E>> + '_ {
    let places = (0..8 * blocks).flat_map(move |place| kinds.iter().map(move |&kind| (place, kind)));
    places.map(move |(place, kind)| {
        let mut vector = vec![E::default(); 8 * blocks];
        vector[place] = kind;
        vector
    })
}

/// A vector of zeros of so many blocks, with several entries of any kind.
pub fn at_several_places<E: Copy + Default>(random: &mut Random, kinds: &[&[E]], blocks: usize) -> Vec<E> {
    let mut vector = vec![E::default(); 8 * blocks];
    for _ in 0..random.between(2, 6) {
        let place = random.place(vector.len());
        let kind = random.pick(kinds);
        vector[place] = random.pick(kind);
    }
    vector
}

impl<R: Entry, A: Debug + PartialEq> Operation<u8, R, A> {
    /// Some settings that the operation is for.
    fn some_layouts(&self) -> impl Iterator<Item = Layout> + '_ {
        SOME_LAYOUTS.into_iter().filter(|layout| layout.q <= self.greatest_q)
    }

    /// A vector that is damaged in every way below, for an operation that takes few blocks.
    pub fn damaged_vectors(&self, group: &mut Group, seed: u64, rounds: u64) {
        let random = &mut Random::new(seed);
        self.every_reading_count(group, random, 1);
        self.reading_count_bits(group, random, 1);
        self.vectors_cut_anywhere(group, random);
        self.bad_readings(group, random);
        self.several_bad_readings(group, random, rounds);
    }

    /// Every dimension from 0 to past the greatest and some far ones, before 530 zeros, before as many as it says, before
    /// fewer by 1, and before readings that are all missing.
    pub fn every_reading_count(&self, group: &mut Group, random: &mut Random, blocks: usize) {
        let far = [576, 1_024, 1_032, 65_536 + 8, 1 << 24, 1 << 31, (1 << 31) + 8, u32::MAX - 7, u32::MAX];
        for layout in self.some_layouts() {
            let mut asked = (self.drawn)(random, layout, blocks);
            for dimension in (0..=530).chain(far) {
                let (all, fewer) = (dimension.min(530), dimension.clamp(1, 530) - 1);
                for (byte, readings) in [(0, 530), (0, all), (0, fewer), (255, 530)] {
                    asked.inputs[0] = record(dimension, &vec![byte; 4 * readings as usize]);
                    self.compare(group, &asked);
                }
            }
        }
    }

    /// Good dimensions with each one of their bits turned over, before readings enough for every allowed count.
    pub fn reading_count_bits(&self, group: &mut Group, random: &mut Random, blocks: usize) {
        for layout in self.some_layouts() {
            let mut asked = (self.drawn)(random, layout, blocks);
            for dimension in [8, 16, 24, 256, 504, 512].map(bits_turned).concat() {
                asked.inputs[0] = record(dimension, &[0; 4 * 512]);
                self.compare(group, &asked);
            }
        }
    }

    /// Records of one or two blocks, cut at every byte, whole, and with bytes past their end, at every setting.
    pub fn vectors_cut_anywhere(&self, group: &mut Group, random: &mut Random) {
        for layout in self.layouts() {
            let blocks = 1 + random.place(2);
            let mut asked = (self.drawn)(random, layout, blocks);
            let (whole, longer) = (asked.inputs[0].len(), [&asked.inputs[0][..], &[0xff; 40]].concat());
            for length in (0..=whole + 5).chain([whole + 32, whole + 40]) {
                asked.inputs[0] = longer[..length].to_vec();
                self.compare(group, &asked);
            }
        }
    }

    /// One reading that is missing, out of range or as great as can be, at each place of a vector.
    pub fn bad_readings(&self, group: &mut Group, random: &mut Random) {
        let kinds = [&MISSING[..], &OUT_OF_RANGE, &GREATEST].concat();
        for (layout, blocks) in self.some_layouts().zip([3, 2, MOST_BLOCKS]) {
            let mut asked = (self.drawn)(random, layout, blocks);
            for patterns in one_at_each_place(&kinds, blocks) {
                asked.inputs[0] = fvecs_of_patterns(&patterns);
                self.compare(group, &asked);
            }
        }
    }

    /// Readings of all kinds mixed, at every setting: bad ones, the greatest, zeros.
    pub fn several_bad_readings(&self, group: &mut Group, random: &mut Random, rounds: u64) {
        for layout in self.layouts().repeat(rounds as usize) {
            let blocks = 1 + random.place(self.most_blocks(layout).min(4));
            let mut asked = (self.drawn)(random, layout, blocks);
            let patterns = at_several_places(random, &[&MISSING, &OUT_OF_RANGE, &GREATEST], blocks);
            asked.inputs[0] = fvecs_of_patterns(&patterns);
            self.compare(group, &asked);
        }
    }
}
