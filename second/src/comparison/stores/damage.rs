//! The best hour of damaged stores: both programs on tails, wrong dimensions, records of another K and bytes at fault.

use second::lent::Entry;
use second::random::Random;

use super::hours::Search;
use super::{BEST_HOUR, BEST_HOUR_WITH_TABLE};
use crate::comparison::codes::bits_turned;
use crate::comparison::faults::{bad_byte, other_count, record_bytes};
use crate::comparison::{Group, Work};

/// The groups of damaged stores.
pub const GROUPS: &[(&str, Work)] = &[
    ("ek_best_hour, damaged query", |group, amount| BEST_HOUR.damaged_vectors(group, 721, 20 * amount)),
    ("ek_best_hour, damaged store", |group, amount| BEST_HOUR.damaged_codes(group, 722, 50 * amount, 1)),
    ("ek_best_hour, tails", |group, _| tails(group, 723, &BEST_HOUR)),
    ("ek_best_hour, a wrong dimension at each record", |group, _| wrong_dimensions(group, 724, &BEST_HOUR)),
    ("ek_best_hour, a record of another K", |group, amount| another_count(group, 725, 20 * amount, &BEST_HOUR)),
    ("ek_best_hour, several bad records", |group, amount| several_bad_records(group, 726, 100 * amount, &BEST_HOUR)),
    ("ek_best_hour_with_table, damaged query", |group, amount| {
        BEST_HOUR_WITH_TABLE.damaged_vectors(group, 731, 20 * amount);
    }),
    ("ek_best_hour_with_table, damaged store", |group, amount| {
        BEST_HOUR_WITH_TABLE.damaged_codes(group, 732, 50 * amount, 1);
    }),
    ("ek_best_hour_with_table, tails", |group, _| tails(group, 733, &BEST_HOUR_WITH_TABLE)),
    ("ek_best_hour_with_table, a wrong dimension at each record", |group, _| {
        wrong_dimensions(group, 734, &BEST_HOUR_WITH_TABLE);
    }),
    ("ek_best_hour_with_table, a record of another K", |group, amount| {
        another_count(group, 735, 20 * amount, &BEST_HOUR_WITH_TABLE);
    }),
    ("ek_best_hour_with_table, several bad records", |group, amount| {
        several_bad_records(group, 736, 100 * amount, &BEST_HOUR_WITH_TABLE);
    }),
];

/// Good stores, and one of no record, with a tail of every length up to a record's: zeros, or a record that is cut.
fn tails<R: Entry>(group: &mut Group, seed: u64, operation: &Search<R>) {
    let mut random = Random::new(seed);
    for layout in operation.layouts() {
        let mut asked = (operation.drawn)(&mut random, layout, 1);
        let store = asked.inputs[1].clone();
        let record = store[..record_bytes(&store)].to_vec();
        for (start, length) in
            [&store[..], &[]].into_iter().flat_map(|start| (0..=record.len()).map(move |n| (start, n)))
        {
            for tail in [&vec![0; length], &record[..length]] {
                asked.inputs[1] = [start, tail].concat();
                operation.compare(group, &asked);
            }
        }
    }
}

/// Writes a dimension at the start of a stored record.
fn put_dimension(store: &mut [u8], start: usize, dimension: u32) {
    store[start..start + 4].copy_from_slice(&dimension.to_le_bytes());
}

/// Stores in which one record has a dimension with a bit turned over, of K = 0, of one byte more or less, of another K or
/// M, or one that takes in the next record.
fn wrong_dimensions<R: Entry>(group: &mut Group, seed: u64, operation: &Search<R>) {
    let mut random = Random::new(seed);
    for layout in operation.layouts() {
        let good = (operation.drawn)(&mut random, layout, 2);
        let (size, block) = (record_bytes(&good.inputs[1]), layout.block_bytes() as u32);
        let dimension = size as u32 - 4;
        let others = [0, 9, 17, 25, 33, dimension - 1, dimension + 1, block, 3 * block, 64 * block, 2 * dimension + 4];
        for start in (0..good.inputs[1].len()).step_by(size) {
            let mut asked = good.clone();
            for other in [&bits_turned(dimension)[..], &others].concat() {
                put_dimension(&mut asked.inputs[1], start, other);
                operation.compare(group, &asked);
            }
        }
    }
}

/// Stores in which one record has a block more or less, some with a byte at fault in any record.
fn another_count<R: Entry>(group: &mut Group, seed: u64, rounds: u64, operation: &Search<R>) {
    let mut random = Random::new(seed);
    for layout in operation.layouts().repeat(rounds as usize) {
        let blocks = 1 + random.place(3);
        let mut asked = (operation.drawn)(&mut random, layout, blocks);
        if random.below(2) == 0 {
            bad_byte::<1, _>(&mut random, &mut asked);
        }
        other_count::<1, _>(&mut random, &mut asked);
        operation.compare(group, &asked);
    }
}

/// Stores with up to three bytes at fault, up to two wrong dimensions, and a tail of up to three bytes.
fn several_bad_records<R: Entry>(group: &mut Group, seed: u64, rounds: u64, operation: &Search<R>) {
    let mut random = Random::new(seed);
    for layout in operation.layouts().repeat(rounds as usize) {
        let blocks = 1 + random.place(2);
        let mut asked = (operation.drawn)(&mut random, layout, blocks);
        let size = record_bytes(&asked.inputs[1]);
        for _ in 0..random.place(4) {
            bad_byte::<1, _>(&mut random, &mut asked);
        }
        let records = asked.inputs[1].len() / size;
        for _ in 0..random.place(3) {
            let dimension = random.pick(&bits_turned(size as u32 - 4));
            put_dimension(&mut asked.inputs[1], random.place(records) * size, dimension);
        }
        asked.inputs[1].extend(random.pick(&[&[][..], &[], &[9], &[9, 0], &[9, 0, 0]]));
        operation.compare(group, &asked);
    }
}
