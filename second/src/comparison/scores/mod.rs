//! Scores: both programs on two code records, and on readings and a code record.

pub mod laws;
pub mod orders;
pub mod pairs;
pub mod queries;

use second::drawn::{drawn_query, drawn_record, drawn_steps, lent};
use second::layers::Layout;
use second::lent::Entry;
use second::random::Random;
use second::records::Vector;
use second::scores::{pair_score, query_score};

use super::operations::{Asked, Operation};
use crate::boundary::{self, answers::ValueAnswer};

/// The pair score of two code records.
pub const PAIR_SCORE: Operation<u8, u8, ValueAnswer> = Operation {
    second: |settings, [steps0, steps1], [record0, record1], _| {
        pair_score(settings, steps0, record0, steps1, record1).into()
    },
    library: |settings, steps, records, _| boundary::pair_score(settings, steps, records),
    drawn: |random, layout, blocks| drawn_pair(random, layout, blocks, Vec::new()),
    greatest_q: 16,
};

/// The query score of an fvecs record with a code record.
pub const QUERY_SCORE: Operation<u8, u8, ValueAnswer> = Operation {
    second: |settings, [steps, _], [query, record], _| {
        query_score(settings, steps, Vector::Record(query), record).into()
    },
    library: |settings, [steps, _], [query, record], _| boundary::query_score(settings, steps, query, record),
    drawn: |random, layout, blocks| {
        let steps = drawn_steps(random);
        let record = drawn_longer_record(random, layout, blocks, &steps);
        Asked::lending(lent(layout), [&steps, &[]], [&drawn_query(random, blocks), &record], Vec::new())
    },
    greatest_q: 16,
};

/// Two code records of so many blocks, each with its step list, and a table.
pub fn drawn_pair<R: Entry>(random: &mut Random, layout: Layout, blocks: usize, table: Vec<R>) -> Asked<u8, R> {
    let steps = [drawn_steps(random), drawn_steps(random)];
    let records = steps.each_ref().map(|steps| drawn_longer_record(random, layout, blocks, steps));
    Asked::lending(lent(layout), steps.each_ref().map(Vec::as_slice), records.each_ref().map(Vec::as_slice), table)
}

/// A code record, as often as not with bytes past its end: a few that are wrong, or a block more.
pub fn drawn_longer_record(random: &mut Random, layout: Layout, blocks: usize, steps: &[i32]) -> Vec<u8> {
    let mut record = drawn_record(random, layout, blocks, steps.len());
    let block = &drawn_record(random, layout, 1, steps.len())[4..];
    record.extend(random.pick(&[&[][..], &[], &[0, 99, 255, 1], block]));
    record
}
