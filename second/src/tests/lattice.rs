//! The nearest point against all points of a box, and its law (01, The lattice).

use super::refused;
use crate::lattice::{is_point, nearest, nearest_point, Point};
use crate::random::Random;

/// The best point of a box of three coordinates a place and parity, every one of them looked at.
fn nearest_of_all(d: &Point, s: i64) -> Point {
    let coordinate = |i: usize, number: usize, parity: i64| {
        let centre = d[i].div_euclid(s);
        let start = centre - 2 + (centre + parity).rem_euclid(2);
        start + 2 * (number / 3usize.pow(i as u32) % 3) as i64
    };
    let cost = |e: &Point| e.iter().zip(d).map(|(e, d)| (d - s * e).pow(2)).sum::<i64>();
    let points =
        (0..2 * 3usize.pow(8)).map(|n| -> Point { std::array::from_fn(|i| coordinate(i, n / 2, n as i64 % 2)) });
    points.filter(is_point).min_by_key(|e| (cost(e), *e)).expect("the box holds points")
}

/// Numerators with many ties at this divisor.
fn tie_rich(random: &mut Random, s: i64) -> Point {
    std::array::from_fn(|_| random.between(-6, 6) * s / 2)
}

#[test]
fn nearest_is_the_best_of_a_box() {
    let mut random = Random::new(21);
    for _ in 0..400 {
        let s = random.between(1, 12);
        let ties = tie_rich(&mut random, s);
        assert_eq!(nearest(&ties, s), nearest_of_all(&ties, s), "{ties:?} {s}");
        let any: Point = std::array::from_fn(|_| random.between(-40, 40));
        assert_eq!(nearest(&any, s), nearest_of_all(&any, s), "{any:?} {s}");
    }
}

#[test]
fn a_moved_input_has_its_winner_moved_alike() {
    let mut random = Random::new(22);
    for _ in 0..2_000 {
        let s = random.between(1, 1024);
        let d = tie_rich(&mut random, s);
        let any: Point = std::array::from_fn(|_| random.between(-4000, 4000));
        let moved_by = nearest(&any, random.between(1, 9));
        let moved: Point = std::array::from_fn(|i| d[i] + s * moved_by[i]);
        let winner = nearest(&d, s);
        assert_eq!(nearest(&moved, s), std::array::from_fn(|i| winner[i] + moved_by[i]));
        assert!(is_point(&winner));
    }
}

#[test]
fn no_reading_is_more_than_two_steps_off() {
    let mut random = Random::new(23);
    for _ in 0..20_000 {
        let s = random.between(1, 1024);
        let d: Point = std::array::from_fn(|_| random.between(-(1 << 26), 1 << 26));
        let e = nearest(&d, s);
        assert!(d.iter().zip(e).all(|(d, e)| (d - s * e).abs() <= 2 * s));
        assert!(d.iter().zip(e).map(|(d, e)| (d - s * e).pow(2)).sum::<i64>() <= 4 * s * s);
    }
}

#[test]
fn membership() {
    assert!(is_point(&[1; 8]));
    assert!(is_point(&[-1, 1, 1, 1, 1, 1, 1, -1]));
    assert!(!is_point(&[-1, 1, 1, 1, 1, 1, 1, 1]));
    assert!(!is_point(&[2, 0, 0, 0, 0, 0, 0, 0]));
    assert!(!is_point(&[1, 1, 1, 1, 0, 0, 0, 0]));
}

#[test]
fn limits_of_the_nearest_point() {
    let far = 1 << 26;
    assert!(nearest_point(&[far; 8], 1).is_ok());
    assert!(nearest_point(&[-far; 8], 1024).is_ok());
    assert_eq!(nearest_point(&[0, 0, 0, 0, 0, 0, 0, far + 1], 1), refused(9, 0));
    assert_eq!(nearest_point(&[i32::MIN, 0, 0, 0, 0, 0, 0, 0], 1), refused(9, 0));
    for s in [0, -1, 1025, i32::MIN, i32::MAX] {
        assert_eq!(nearest_point(&[0; 8], s), refused(9, 0));
    }
    assert_eq!(nearest_point(&[0; 7], 0), refused(3, 0));
    assert_eq!(nearest_point(&[i32::MIN; 9], 1), refused(3, 0));
}
