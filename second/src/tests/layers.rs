//! Digits, leftover and decoding for every allowed q and M (01, Layers and steps).

use super::{eight, settings};
use crate::drawn::{allowed_layouts, drawn_digits, drawn_point, lent};
use crate::lattice::{is_point, Point};
use crate::layers::{coefficients_of_point, digits_and_leftover, digits_of_point, layer_point};
use crate::layers::{point_of_coefficients, point_of_digits, whole_point, Layout};
use crate::random::Random;

#[test]
fn the_basis_and_its_way_back() {
    let mut random = Random::new(31);
    for _ in 0..2_000 {
        let c: Point = std::array::from_fn(|_| random.between(-900, 900));
        let e = point_of_coefficients(&c);
        assert!(is_point(&e));
        assert_eq!(coefficients_of_point(&e), c);
        let point = drawn_point(&mut random, 900);
        assert_eq!(point_of_coefficients(&coefficients_of_point(&point)), point);
    }
}

#[test]
fn a_digit_list_is_its_point_s_digits_with_nothing_left_over() {
    let mut random = Random::new(32);
    for layout in allowed_layouts() {
        for _ in 0..100 {
            let digits = drawn_digits(&mut random, layout);
            let point = whole_point(layout, &digits);
            assert_eq!(digits_and_leftover(layout, point), (digits, [0; 8]));
        }
    }
}

#[test]
fn a_point_is_the_decoded_one_plus_the_leftover() {
    let mut random = Random::new(33);
    for layout in allowed_layouts() {
        for _ in 0..100 {
            let point = drawn_point(&mut random, 1 << 26);
            let mut digits = vec![0; layout.digits()];
            let leftover = digits_of_point(lent(layout), &point.map(|e| e as i32), &mut digits).expect("a point");
            let decoded = point_of_digits(lent(layout), &digits).expect("digits below q");
            assert_eq!(point, std::array::from_fn(|i| decoded[i] + layout.weight(layout.layers) * leftover[i]));
        }
    }
}

#[test]
fn points_a_multiple_of_the_greatest_weight_apart_have_equal_digits() {
    let mut random = Random::new(34);
    for layout in allowed_layouts() {
        for _ in 0..20 {
            let (point, apart) = (drawn_point(&mut random, 3_000), drawn_point(&mut random, 3_000));
            let moved = std::array::from_fn(|i| point[i] + layout.weight(layout.layers) * apart[i]);
            assert_eq!(digits_and_leftover(layout, point).0, digits_and_leftover(layout, moved).0);
        }
    }
}

#[test]
fn coordinates_keep_their_bounds() {
    let mut random = Random::new(35);
    for layout in allowed_layouts() {
        let greatest: i64 = (1..=layout.layers as u32).map(|m| 2 * layout.q.pow(m)).sum();
        assert!(greatest < 16384);
        for _ in 0..100 {
            let digits = drawn_digits(&mut random, layout);
            assert!(layer_point(layout.q, &digits[..8]).iter().all(|l| l.abs() <= 2 * layout.q));
            assert!(whole_point(layout, &digits).iter().all(|e| e.abs() <= greatest));
        }
    }
}

#[test]
fn the_greatest_coordinate_is_reached() {
    let (digits, leftover) = digits_and_leftover(Layout { q: 8, layers: 1 }, eight(&[16]));
    assert_eq!(leftover, [0; 8]);
    assert_eq!(point_of_digits(settings(8, 4), &digits.repeat(4)), Ok(eight(&[9360])));
}

#[test]
fn fifty_two_settings_are_allowed() {
    assert_eq!(allowed_layouts().len(), 52);
}
