//! Scores, most of them computed by hand (01, Scores).

use super::{eight, settings};
use crate::built::{bvecs, fvecs};
use crate::drawn::lent;
use crate::layers::{digits_and_leftover, Layout};
use crate::records::Vector;
use crate::refusals::Answer;
use crate::scores::{pair_score, query_score};

/// The block at q 2, M 1 and T 0 whose point is (2, 0..).
const TWO: [u8; 9] = [0, 1, 0, 0, 0, 0, 0, 0, 0];

/// The block at q 2, M 1 and T 0 whose point is (1, -1, 0..), block G's.
const ONES: [u8; 9] = [0, 0, 1, 0, 0, 0, 0, 0, 0];

/// The block at q 2, M 1 and T 0 whose point is eight halves, block J's.
const HALVES: [u8; 9] = [0, 0, 0, 0, 0, 0, 0, 0, 1];

/// The pair score of two blocks at q 2, M 1 and steps 1.
fn paired(one: [u8; 9], other: [u8; 9]) -> Answer<i64> {
    pair_score(settings(2, 1), &[1], &bvecs(&one), &[1], &bvecs(&other))
}

#[test]
fn pair_scores_are_inner_products() {
    assert_eq!([paired(TWO, TWO), paired(ONES, ONES), paired(HALVES, HALVES)], [Ok(4), Ok(2), Ok(2)]);
    assert_eq!([paired(TWO, ONES), paired(TWO, HALVES), paired(ONES, HALVES)], [Ok(2), Ok(1), Ok(0)]);
}

#[test]
fn a_pair_score_sums_blocks_with_both_steps() {
    let one = bvecs(&[TWO, [1, 0, 1, 0, 0, 0, 0, 0, 0]].concat());
    let other = bvecs(&[[2, 0, 0, 0, 0, 0, 0, 0, 1], ONES].concat());
    let score = pair_score(settings(2, 1), &[3, 10], &one, &[5, 6, 7], &other);
    assert_eq!(score, Ok(3 * 7 + 10 * 5 * 2));
}

#[test]
fn a_query_score_is_in_halves() {
    let query = [10, 20, 30, 0, 0, 0, 0, -1];
    let scored = |block: [u8; 9]| query_score(settings(2, 1), &[4], Vector::Units(&query), &bvecs(&block));
    assert_eq!([scored(TWO), scored(ONES), scored(HALVES)], [Ok(4 * 40), Ok(4 * (20 - 40)), Ok(4 * 59)]);
}

#[test]
fn a_query_score_weighs_layers_and_sums_blocks() {
    let h = [0, 0, 1, 0, 0, 0, 0, 0, 0, 0, 1, 0, 0, 0, 0, 0, 0];
    let upper = [1, 0, 0, 0, 0, 0, 0, 0, 0, 0, 1, 0, 0, 0, 0, 0, 0];
    let query = [eight(&[1]), eight(&[0, 100])].concat();
    let score = query_score(settings(2, 2), &[1, 9], Vector::Units(&query), &bvecs(&[h, upper].concat()));
    assert_eq!(score, Ok(6 - 9 * 400));
}

#[test]
fn the_greatest_pair_score() {
    let digits = digits_and_leftover(Layout { q: 8, layers: 1 }, eight(&[16])).0.repeat(4);
    let record = bvecs(&[&[0], &digits[..]].concat().repeat(64));
    let score = pair_score(settings(8, 4), &[1024], &record, &[1024], &record);
    assert_eq!(score, Ok(1_469_845_182_873_600));
}

/// The query score of 64 blocks with this point in every layer and the greatest readings of its signs.
fn great_query_score(layout: Layout, layer: [i64; 8]) -> Answer<i64> {
    let (digits, leftover) = digits_and_leftover(Layout { layers: 1, ..layout }, layer);
    assert_eq!(leftover, [0; 8]);
    let record = bvecs(&[&[0], &digits.repeat(layout.layers)[..]].concat().repeat(64));
    let query = layer.map(|l| l.signum() as i32 * (1 << 24)).repeat(64);
    query_score(lent(layout), &[1024], Vector::Units(&query), &record)
}

#[test]
fn the_greatest_query_scores() {
    let score = great_query_score(Layout { q: 8, layers: 4 }, [7, -5, -5, -5, -5, -5, -5, -5]);
    assert_eq!(score, Ok(27_015_000_694_456_320));
    let score = great_query_score(Layout { q: 16, layers: 3 }, [12, 12, 10, 10, 10, 10, 10, -10]);
    assert_eq!(score, Ok(64 * 1024 * (1 << 24) * 84 * (1 + 16 + 256)));
}

#[test]
fn a_query_of_readings_is_taken_first() {
    let record = bvecs(&[0, 0, 1, 0, 0, 0, 0, 0, 0]);
    let query = fvecs(&eight(&[1.0 / 2048.0, 3.0 / 2048.0]));
    assert_eq!(query_score(settings(3, 1), &[5], Vector::Record(&query), &record), Ok(10));
    assert_eq!(query_score(settings(3, 1), &[5], Vector::Units(&eight(&[0, 1])), &record), Ok(10));
}
