//! The best hour of stores that are computed by hand (01, Scores).

use super::{eight, settings};
use crate::built::bvecs;
use crate::records::Vector;
use crate::refusals::Answer;
use crate::stores::{best_hour, best_hour_with_table, Hour};

/// The best hour at q 2, M 1 and these steps for one reading of x units, in a store of block G's digits with these T.
fn searched(x: i32, steps: &[i32], store: &[u8]) -> Answer<Hour> {
    let records: Vec<u8> = store.iter().flat_map(|&t| bvecs(&[t, 0, 1, 0, 0, 0, 0, 0, 0])).collect();
    let (units, mut table) = (eight(&[x]), [0; 256]);
    let plain = best_hour(settings(2, 1), steps, Vector::Units(&units), &records);
    assert_eq!(best_hour_with_table(settings(2, 1), steps, Vector::Units(&units), &records, &mut table), plain);
    plain
}

#[test]
fn of_two_equal_records_the_first_is_the_best_hour() {
    assert_eq!(searched(7, &[5], &[0, 0]), Ok(Hour { hour: 0, score: 70 }));
    assert_eq!(searched(-7, &[5], &[0, 0]), Ok(Hour { hour: 0, score: -70 }));
    assert_eq!(searched(0, &[5, 6], &[0, 1]), Ok(Hour { hour: 0, score: 0 }));
}

#[test]
fn a_best_hour_may_be_below_0() {
    assert_eq!(searched(-7, &[5, 6], &[1, 0, 1, 0]), Ok(Hour { hour: 1, score: -70 }));
    assert_eq!(searched(7, &[5, 6], &[0, 1, 0, 1]), Ok(Hour { hour: 1, score: 84 }));
}

#[test]
fn one_record_is_the_best_hour() {
    assert_eq!(searched(-7, &[5], &[0]), Ok(Hour { hour: 0, score: -70 }));
}

#[test]
fn the_best_hour_is_the_earliest_of_equals() {
    let (zero, one) = (bvecs(&[0; 9]), bvecs(&[0, 0, 1, 0, 0, 0, 0, 0, 0]));
    let store = [&zero[..], &one, &zero, &one].concat();
    let asked = |x: &[i32; 8]| best_hour(settings(3, 1), &[1], Vector::Units(x), &store);
    assert_eq!(asked(&eight(&[0, 1])), Ok(Hour { hour: 1, score: 2 }));
    assert_eq!(asked(&eight(&[1])), Ok(Hour { hour: 0, score: 0 }));
}
