//! Two faults at once: the one that document 01's order names first is given, and lent room stays as it was.

use super::{eight, refused, settings};
use crate::built::{bvecs, fvecs, record};
use crate::layers::digits_of_point;
use crate::lent::Lent;
use crate::records::{decode, encode, Vector};
use crate::scores::{pair_score, query_score};
use crate::showing::show;
use crate::stores::{best_hour, best_hour_with_table};
use crate::tables::{fill_query_table, pair_score_by_table, query_score_by_table};

/// The X of a block that step 26 fits and step 29 overloads at q 2, M 2.
const FITS_26_NOT_29: [i32; 8] = [21, 7, -11, -9, 3, 49, 16, 7];

/// A block that overloads at q 2, M 1 and step 1.
const OVERLOAD: [f32; 8] = [0.0, 1.0 / 1024.0, 0.0, 0.0, 0.0, 0.0, 0.0, 0.0];

/// A good body of one block at M 1.
const ZERO_BLOCK: [u8; 9] = [0; 9];

/// A body of one block at M 1 whose byte 3 is wrong for every q.
const BAD_DIGIT: [u8; 9] = [0, 0, 0, 99, 0, 0, 0, 0, 0];

/// Checks that encoding at q 2, M 1 and step 1 refuses so and leaves its room alone.
fn encode_refuses(steps: &[i32], vector: Vector, room_length: usize, number: u64, place: u64) {
    let before = Lent::new(&vec![0xee; room_length]);
    let mut after = before.clone();
    assert_eq!(encode(settings(2, 1), steps, vector, after.room()), refused(number, place));
    assert_eq!(after, before);
}

/// Checks that decoding at q 2, M 1 and step 1 refuses so and leaves its room alone.
fn decode_refuses(record: &[u8], room_length: usize, number: u64, place: u64) {
    let before = Lent::new(&vec![0xee; room_length]);
    let mut after = before.clone();
    assert_eq!(decode(settings(2, 1), &[1], record, after.room()), refused(number, place));
    assert_eq!(after, before);
}

#[test]
fn encode_settings_before_steps() {
    assert_eq!(encode(settings(2, 0), &[], Vector::Units(&[0; 8]), &mut [0; 13]), refused(1, 0));
}

#[test]
fn encode_takes_the_first_fitting_step() {
    let mut room = [0; 21];
    let vector = Vector::Units(&FITS_26_NOT_29);
    assert_eq!(encode(settings(2, 2), &[26, 29], vector, &mut room), Ok(21));
    assert_eq!(room, [17, 0, 0, 0, 0, 0, 1, 1, 1, 1, 1, 1, 0, 1, 0, 0, 0, 0, 0, 1, 0]);
    assert_eq!(encode(settings(2, 2), &[29], vector, &mut room), refused(6, 0));
}

#[test]
fn encode_steps_before_record() {
    encode_refuses(&[2, 2], Vector::Record(&fvecs(&[0.0; 7])), 13, 2, 0);
}

#[test]
fn encode_record_before_room() {
    encode_refuses(&[1], Vector::Record(&fvecs(&[0.0; 7])), 0, 10, 0);
}

#[test]
fn encode_count_before_room() {
    encode_refuses(&[1], Vector::Units(&[0; 7]), 0, 3, 0);
}

#[test]
fn encode_room_before_readings() {
    encode_refuses(&[1], Vector::Record(&fvecs(&eight(&[f32::NAN]))), 12, 3, 1);
}

#[test]
fn encode_readings_in_index_order() {
    let readings = eight(&[0.0, 0.0, f32::NAN, f32::INFINITY]);
    encode_refuses(&[1], Vector::Record(&fvecs(&readings)), 13, 4, 2);
}

#[test]
fn encode_last_reading_before_overload() {
    let mut readings = [OVERLOAD, [0.0; 8]].concat();
    readings[15] = f32::NAN;
    encode_refuses(&[1], Vector::Record(&fvecs(&readings)), 22, 4, 15);
}

#[test]
fn encode_names_the_first_overload() {
    let readings = [[0.0; 8], OVERLOAD, OVERLOAD].concat();
    encode_refuses(&[1], Vector::Record(&fvecs(&readings)), 31, 6, 1);
}

#[test]
fn encode_keeps_what_is_past_the_record() {
    let mut lent = Lent::new(&[0xee; 15]);
    assert_eq!(encode(settings(2, 1), &[1], Vector::Units(&[0; 8]), lent.room()), Ok(13));
    assert_eq!(lent, Lent::new(&[9, 0, 0, 0, 0, 0, 0, 0, 0, 0, 0, 0, 0, 0xee, 0xee]));
}

#[test]
fn decode_record_before_room() {
    decode_refuses(&record(10, &[0; 10]), 0, 10, 0);
}

#[test]
fn decode_room_before_digits() {
    decode_refuses(&bvecs(&BAD_DIGIT), 35, 3, 1);
}

#[test]
fn decode_names_the_least_byte() {
    let mut body = [ZERO_BLOCK, ZERO_BLOCK].concat();
    body[1] = 2;
    body[9] = 1;
    decode_refuses(&bvecs(&body), 68, 7, 1);
}

#[test]
fn pair_score_first_list_before_second() {
    let good = bvecs(&ZERO_BLOCK);
    assert_eq!(pair_score(settings(2, 1), &[], &good, &[0], &good), refused(2, 0));
    assert_eq!(pair_score(settings(2, 1), &[1], &good, &[0], &good), refused(2, 1));
}

#[test]
fn pair_score_first_record_whole_before_second() {
    assert_eq!(pair_score(settings(2, 1), &[1], &bvecs(&BAD_DIGIT), &[1], &[]), refused(7, 3));
}

#[test]
fn pair_score_of_records_with_other_counts() {
    let two = bvecs(&[ZERO_BLOCK, ZERO_BLOCK].concat());
    assert_eq!(pair_score(settings(2, 1), &[1], &bvecs(&ZERO_BLOCK), &[1], &two), refused(10, 0));
}

#[test]
fn query_score_dimension_before_digits() {
    let two = bvecs(&[ZERO_BLOCK, BAD_DIGIT].concat());
    assert_eq!(query_score(settings(2, 1), &[1], Vector::Units(&[0; 8]), &two), refused(10, 0));
}

#[test]
fn best_hour_readings_before_empty_store() {
    let query = fvecs(&[0.0, 0.0, 0.0, 0.0, 0.0, f32::NAN, 0.0, 0.0]);
    assert_eq!(best_hour(settings(2, 1), &[1], Vector::Record(&query), &[]), refused(4, 5));
    assert_eq!(best_hour(settings(2, 1), &[1], Vector::Units(&[0; 8]), &[]), refused(11, 0));
}

#[test]
fn best_hour_records_in_turn() {
    let store = [&bvecs(&BAD_DIGIT)[..], &[0, 0]].concat();
    assert_eq!(best_hour(settings(2, 1), &[1], Vector::Units(&[0; 8]), &store), refused(7, 4 + 3));
}

#[test]
fn best_hour_tail_of_a_store() {
    let store = [&bvecs(&ZERO_BLOCK).repeat(2)[..], &[0, 0, 0]].concat();
    assert_eq!(best_hour(settings(2, 1), &[1], Vector::Units(&[0; 8]), &store), refused(10, 26));
}

#[test]
fn best_hour_store_of_three_bytes() {
    assert_eq!(best_hour(settings(2, 1), &[1], Vector::Units(&[0; 8]), &[9, 0, 0]), refused(10, 0));
}

#[test]
fn best_hour_with_table_asks_for_its_q_and_room() {
    let mut table = vec![7; 256];
    let mut asked = |q: i32, steps: &[i32], query: Vector, length: usize| {
        best_hour_with_table(settings(q, 1), steps, query, &[], &mut table[..length])
    };
    assert_eq!(asked(5, &[], Vector::Units(&[]), 0), refused(2, 0));
    assert_eq!(asked(5, &[1], Vector::Units(&[]), 0), refused(8, 0));
    assert_eq!(asked(2, &[1], Vector::Record(&[8]), 0), refused(10, 0));
    assert_eq!(asked(2, &[1], Vector::Units(&[i32::MAX; 8]), 255), refused(3, 2));
    assert_eq!(asked(2, &[1], Vector::Units(&[i32::MAX; 8]), 256), refused(5, 0));
    assert_eq!(asked(2, &[1], Vector::Units(&[0; 8]), 256), refused(11, 0));
    assert!(table.iter().all(|&entry| entry == 7));
}

#[test]
fn fill_query_table_q_before_count() {
    assert_eq!(fill_query_table(settings(5, 1), Vector::Units(&[0; 7]), &mut []), refused(8, 0));
}

#[test]
fn fill_query_table_count_before_room() {
    assert_eq!(fill_query_table(settings(2, 1), Vector::Units(&[0; 7]), &mut []), refused(3, 0));
}

#[test]
fn fill_query_table_room_before_readings() {
    let query = fvecs(&eight(&[f32::NAN]));
    assert_eq!(fill_query_table(settings(2, 1), Vector::Record(&query), &mut [0; 255]), refused(3, 2));
}

#[test]
fn pair_table_score_q_before_room() {
    assert_eq!(pair_score_by_table(settings(3, 1), &[1], &[], &[1], &[], &[]), refused(8, 0));
}

#[test]
fn pair_table_score_room_before_records() {
    assert_eq!(pair_score_by_table(settings(2, 1), &[1], &[], &[1], &[], &[0; 65_535]), refused(3, 2));
}

#[test]
fn query_table_score_record_before_room() {
    let cut = &bvecs(&ZERO_BLOCK)[..12];
    assert_eq!(query_score_by_table(settings(2, 1), &[1], cut, &[]), refused(10, 0));
}

#[test]
fn query_table_score_room_before_digits() {
    assert_eq!(query_score_by_table(settings(2, 1), &[1], &bvecs(&BAD_DIGIT), &[0; 255]), refused(3, 2));
}

#[test]
fn point_coder_count_before_room() {
    assert_eq!(digits_of_point(settings(2, 1), &[0; 7], &mut []), refused(3, 0));
}

#[test]
fn point_coder_room_before_point() {
    assert_eq!(digits_of_point(settings(2, 1), &eight(&[1]), &mut [0; 7]), refused(3, 1));
}

#[test]
fn showing_text_before_settings() {
    assert_eq!(show(b"17 1\n1\n0 0 0 0 0 0 0\n"), b"refused 10 0\n");
}

#[test]
fn showing_settings_before_steps() {
    assert_eq!(show(b"17 1\n\n0 0 0 0 0 0 0 0\n"), b"refused 1 0\n");
}

#[test]
fn showing_steps_before_readings() {
    assert_eq!(show(b"3 1\n1 2 3 4 5\n16777217 0 0 0 0 0 0 0\n"), b"refused 2 0\n");
}

#[test]
fn showing_names_the_reading() {
    assert_eq!(show(b"3 1\n1\n0 0 0 0 16777217 0 0 0\n"), b"refused 5 4\n");
}
