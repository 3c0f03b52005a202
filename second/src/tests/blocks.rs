//! Blocks A to J (01, The proved blocks).

use super::{eight, refused, settings};
use crate::built::bvecs;
use crate::lattice::{is_point, nearest, nearest_point, Point};
use crate::layers::point_of_digits;
use crate::records::{encode, Vector};
use crate::refusals::Answer;
use crate::scores::pair_score;

/// The nearest point to whole units X over s.
fn nearest_to_units(x: [i32; 8], s: i32) -> Point {
    nearest_point(&x.map(|x| 2 * x), s).expect("within the limits")
}

/// The body of a single block's record, or the refusal.
fn coded(x: [i32; 8], steps: &[i32]) -> Answer<Vec<u8>> {
    let mut room = [0xee; 13];
    encode(settings(2, 1), steps, Vector::Units(&x), &mut room).map(|length| room[4..length].to_vec())
}

#[test]
fn block_a() {
    assert_eq!(nearest_to_units([0; 8], 1), [0; 8]);
}

#[test]
fn block_b() {
    assert_eq!(nearest_to_units(eight(&[1]), 1), [0; 8]);
}

#[test]
fn block_b_among_16_equals() {
    let d = eight(&[2]);
    let distance = |e: &Point| e.iter().zip(&d).map(|(e, d)| (d - e) * (d - e)).sum::<i64>();
    let numbers = 0..7i64.pow(8);
    let whole_box =
        numbers.map(|number| -> Point { std::array::from_fn(|i| number / 7i64.pow(i as u32) % 7 - 3 + d[i]) });
    let near: Vec<Point> = whole_box.filter(|e| is_point(e) && distance(e) <= 4).collect();
    assert_eq!(near.len(), 16);
    assert!(near.iter().all(|e| distance(e) == 4));
    assert_eq!(near.iter().min(), Some(&nearest(&d, 1)));
}

#[test]
fn block_c() {
    assert_eq!(nearest_to_units(eight(&[0, 1]), 1), eight(&[-2, 2]));
}

#[test]
fn block_d() {
    assert_eq!(nearest_to_units(eight(&[-1]), 1), eight(&[-4]));
}

#[test]
fn block_e() {
    assert_eq!(nearest_to_units([1; 8], 2), [1; 8]);
}

#[test]
fn block_f() {
    assert_eq!(nearest_to_units([1, 1, 1, 1, 1, 1, 1, -1], 2), [-1, 1, 1, 1, 1, 1, 1, -1]);
}

#[test]
fn block_g() {
    assert_eq!(point_of_digits(settings(2, 1), &eight(&[0, 1])), Ok(eight(&[2, -2])));
}

#[test]
fn block_h() {
    let digits = [eight(&[0, 1]), eight(&[0, 1])].concat();
    assert_eq!(point_of_digits(settings(2, 2), &digits), Ok(eight(&[6, -6])));
    let record = bvecs(&[&[0], &digits[..]].concat());
    assert_eq!(pair_score(settings(2, 2), &[1], &record, &[1], &record), Ok(18));
}

#[test]
fn block_i() {
    assert_eq!(coded(eight(&[0, 1]), &[1]), refused(6, 0));
    assert_eq!(coded(eight(&[0, 1]), &[1, 2]), Ok(vec![1, 0, 0, 0, 0, 0, 0, 0, 0]));
}

#[test]
fn block_j() {
    assert_eq!(coded([1; 8], &[2]), Ok(vec![0, 0, 0, 0, 0, 0, 0, 0, 1]));
}
