//! The edges that document 01 names (01, When the unit says no).

use super::{eight, refused, settings};
use crate::built::{bvecs, fvecs};
use crate::layers::{allowed_steps, digits_of_point, point_of_digits};
use crate::records::{encode, Vector};
use crate::scores::query_score;

#[test]
fn edges_of_the_settings() {
    for (q, m) in [(16, 3), (8, 4), (2, 1), (2, 4), (16, 1)] {
        assert!(settings(q, m).allowed().is_ok());
    }
    for (q, m) in [(16, 4), (9, 4), (2, 0), (1, 1), (17, 1), (2, 5), (-2, 2), (2, -1), (i32::MAX, 4), (2, i32::MAX)] {
        assert_eq!(settings(q, m).allowed(), refused(1, 0));
    }
}

#[test]
fn edges_of_the_steps() {
    assert_eq!(allowed_steps(&[1], 0), Ok(vec![1]));
    assert_eq!(allowed_steps(&[1, 1024], 0), Ok(vec![1, 1024]));
    let wrong: [&[i32]; 8] = [&[], &[0], &[1025], &[2, 2], &[3, 2], &[1, 2, 3, 4, 5], &[i32::MIN], &[1, i32::MAX]];
    for steps in wrong {
        assert_eq!(allowed_steps(steps, 1), refused(2, 1));
    }
}

#[test]
fn edges_of_the_reading_count() {
    let encoded = |count: usize| encode(settings(2, 1), &[1], Vector::Units(&vec![0; count]), &mut [0; 580]);
    for count in [0, 7, 9, 12, 520] {
        assert_eq!(encoded(count), refused(3, 0));
    }
    assert_eq!(encoded(8), Ok(13));
    assert_eq!(encoded(512), Ok(580));
}

#[test]
fn edges_of_a_reading() {
    let scored = |first: f32| {
        let query = fvecs(&eight(&[first]));
        query_score(settings(2, 1), &[1], Vector::Record(&query), &bvecs(&[0; 9]))
    };
    assert_eq!(scored(16384.0), Ok(0));
    assert_eq!(scored(-16384.0), Ok(0));
    assert_eq!(scored(f32::from_bits(16384.0f32.to_bits() + 1)), refused(5, 0));
}

#[test]
fn edges_of_the_point_coder() {
    let mut room = [0xee; 9];
    let far = 1 << 26;
    assert!(digits_of_point(settings(2, 1), &eight(&[far]), &mut room).is_ok());
    assert_eq!(room[8], 0xee);
    assert_eq!(digits_of_point(settings(2, 1), &eight(&[far + 4]), &mut room), refused(9, 0));
    assert_eq!(digits_of_point(settings(2, 1), &eight(&[2]), &mut room), refused(9, 0));
    assert_eq!(digits_of_point(settings(2, 1), &eight(&[i32::MIN]), &mut room), refused(9, 0));
}

#[test]
fn edges_of_the_point_decoder() {
    assert_eq!(point_of_digits(settings(2, 0), &[2; 8]), refused(1, 0));
    for length in [0, 7, 9, 16] {
        assert_eq!(point_of_digits(settings(2, 1), &vec![2; length]), refused(3, 0));
    }
    assert_eq!(point_of_digits(settings(2, 1), &[0, 1, 2, 0, 3, 0, 0, 0]), refused(7, 2));
    assert_eq!(point_of_digits(settings(16, 1), &[15, 15, 15, 15, 15, 15, 15, 16]), refused(7, 7));
}
