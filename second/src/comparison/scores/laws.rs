//! The library alone: how the scores of two records, of their blocks and of decoded readings go together.

use second::built::bvecs;
use second::drawn::{allowed_layouts, drawn_query, drawn_record, drawn_steps, lent};
use second::layers::Layout;
use second::random::Random;

use crate::boundary::{self, answers::ValueAnswer};
use crate::comparison::records::round_trips::decoded;
use crate::comparison::{Group, Work};

/// The groups of laws of scores.
pub const GROUPS: &[(&str, Work)] = &[
    ("a pair score is the same from either side", either_side),
    ("decoded readings score twice the pair score", decoded_readings),
    ("scores are the sums of their blocks' scores", sums_of_blocks),
];

/// A step list and a good record for it.
struct Coded {
    steps: Vec<i32>,
    record: Vec<u8>,
}

impl Coded {
    /// A record of so many blocks with its step list.
    fn drawn(random: &mut Random, layout: Layout, blocks: usize) -> Self {
        let steps = drawn_steps(random);
        let record = drawn_record(random, layout, blocks, steps.len());
        Coded { steps, record }
    }

    /// One of its blocks, as a record.
    fn block(&self, layout: Layout, block: usize) -> Coded {
        let start = 4 + block * layout.block_bytes();
        Coded { steps: self.steps.clone(), record: bvecs(&self.record[start..start + layout.block_bytes()]) }
    }

    /// The library's pair score with another record.
    fn pair_score(&self, layout: Layout, other: &Coded) -> ValueAnswer {
        boundary::pair_score(lent(layout), [&self.steps, &other.steps], [&self.record, &other.record])
    }

    /// The library's query score.
    fn query_score(&self, layout: Layout, query: &[u8]) -> ValueAnswer {
        boundary::query_score(lent(layout), &self.steps, query, &self.record)
    }
}

/// The answer that accepts with this value.
fn accepted(value: i64) -> ValueAnswer {
    Ok(value).into()
}

/// Records may change places, with their step lists.
fn either_side(group: &mut Group, amount: u64) {
    let mut random = Random::new(541);
    for layout in allowed_layouts().repeat(100 * amount as usize) {
        let blocks = 1 + random.place(8);
        let [one, other] = [(); 2].map(|()| Coded::drawn(&mut random, layout, blocks));
        let score = one.pair_score(layout, &other);
        let asked = (layout, &one.record, &other.record);
        group.compare(&asked, accepted(score.value), other.pair_score(layout, &one));
    }
}

/// With one even step, decoded readings are whole units, and their query score is in halves of the pair score's unit.
fn decoded_readings(group: &mut Group, amount: u64) {
    let mut random = Random::new(542);
    for layout in allowed_layouts().repeat(100 * amount as usize) {
        let blocks = 1 + random.place(8);
        let even = vec![2 * random.between(1, 512) as i32];
        let one = Coded { record: drawn_record(&mut random, layout, blocks, 1), steps: even };
        let other = Coded::drawn(&mut random, layout, blocks);
        let readings = decoded(layout, &one.steps, &one.record);
        let twice = 2 * one.pair_score(layout, &other).value;
        group.compare(&(layout, &one.record, &other.record), accepted(twice), other.query_score(layout, &readings));
    }
}

/// A score is the sum of its blocks' scores, each of them alone.
fn sums_of_blocks(group: &mut Group, amount: u64) {
    let mut random = Random::new(543);
    for layout in allowed_layouts().repeat(20 * amount as usize) {
        let blocks = 2 + random.place(15);
        let [one, other] = [(); 2].map(|()| Coded::drawn(&mut random, layout, blocks));
        let query = drawn_query(&mut random, blocks);
        let alone = |block: usize| one.block(layout, block).pair_score(layout, &other.block(layout, block)).value;
        let pairs = accepted((0..blocks).map(alone).sum());
        let readings = |block: usize| [&8u32.to_le_bytes(), &query[4 + 32 * block..36 + 32 * block]].concat();
        let scored = |block: usize| one.block(layout, block).query_score(layout, &readings(block)).value;
        let queries = accepted((0..blocks).map(scored).sum());
        let together = (one.pair_score(layout, &other), one.query_score(layout, &query));
        group.compare(&(layout, &one.record, &other.record, &query), (pairs, queries), together);
    }
}
