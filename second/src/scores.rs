//! Scores: two records against each other, and whole readings against a record (01, Scores).

use crate::lattice::Point;
use crate::layers::{allowed_steps, whole_point, Layout, Settings};
use crate::readings::all_units;
use crate::records::{code_body, coded_blocks, Coded, Vector};
use crate::refusals::Answer;

/// The pair score of two records, in units of 1/1024 squared.
pub fn pair_score(settings: Settings, steps0: &[i32], record0: &[u8], steps1: &[i32], record1: &[u8]) -> Answer<i64> {
    let layout = settings.allowed()?;
    let steps0 = allowed_steps(steps0, 0)?;
    let steps1 = allowed_steps(steps1, 1)?;
    let (coded0, coded1) = coded_pair(layout, &steps0, record0, &steps1, record1)?;
    let block_score = |(one, other): (&Coded, &Coded)| {
        let (e, f) = (whole_point(layout, one.digits), whole_point(layout, other.digits));
        one.step * other.step * inner_product(&e, &f)
    };
    Ok(coded0.iter().zip(&coded1).map(block_score).sum())
}

/// The blocks of two records: the first checked whole before the second, which must have the first one's K.
pub fn coded_pair<'a>(
    layout: Layout,
    steps0: &[i64],
    record0: &'a [u8],
    steps1: &[i64],
    record1: &'a [u8],
) -> Answer<(Vec<Coded<'a>>, Vec<Coded<'a>>)> {
    let coded0 = coded_blocks(layout, steps0, code_body(layout, record0, None)?)?;
    let coded1 = coded_blocks(layout, steps1, code_body(layout, record1, Some(coded0.len()))?)?;
    Ok((coded0, coded1))
}

/// The inner product of two points that are lent doubled, itself not doubled.
pub fn inner_product(e: &Point, f: &Point) -> i64 {
    let doubled_twice = product_sum(e, f);
    assert!(doubled_twice % 4 == 0, "E8 has whole inner products");
    doubled_twice / 4
}

/// The sum of the products of eight numbers with eight.
pub fn product_sum(one: &[i64], other: &[i64]) -> i64 {
    one.iter().zip(other).map(|(a, b)| a * b).sum()
}

/// The query score of whole readings with a record, in halves of the pair score's unit.
pub fn query_score(settings: Settings, steps: &[i32], query: Vector, record: &[u8]) -> Answer<i64> {
    let layout = settings.allowed()?;
    let steps = allowed_steps(steps, 0)?;
    let x = all_units(&query.readings()?)?;
    let coded = coded_blocks(layout, &steps, code_body(layout, record, Some(x.len() / 8))?)?;
    Ok(score_of_blocks(layout, &x, &coded))
}

/// The query score of readings X with the blocks of a record.
pub fn score_of_blocks(layout: Layout, x: &[i64], coded: &[Coded]) -> i64 {
    let block_score = |(x, block): (&[i64], &Coded)| block.step * product_sum(x, &whole_point(layout, block.digits));
    x.chunks(8).zip(coded).map(block_score).sum()
}
