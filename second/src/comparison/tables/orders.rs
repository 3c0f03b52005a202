//! Order vectors of tables: named inputs, two faults at once among them, each with its answer written out.

use second::built::{bvecs, fvecs};
use second::layers::Settings;
use second::lent::to_write_over;
use second::refusals::{refused, Answer};

use super::{FILL_PAIR_TABLE, FILL_QUERY_TABLE, PAIR_SCORE_BY_TABLE, QUERY_SCORE_BY_TABLE};
use crate::comparison::operations::Asked;
use crate::comparison::scores::orders::{BAD_DIGIT, BINARY, ZERO_BLOCK};
use crate::comparison::{Group, Work};

/// The group of the order vectors of tables.
pub const GROUPS: &[(&str, Work)] = &[("order vectors of tables", order_vectors)];

/// All rows.
fn order_vectors(group: &mut Group, _: u64) {
    fill_refusals(group);
    zero_query(group);
    pair_refusals(group);
    pair_entries(group);
    query_refusals(group);
    query_entries(group);
}

/// Filling: settings, q, the query's frame, the table, the readings.
fn fill_refusals(group: &mut Group) {
    let (good, seven) = (&fvecs(&[0.0; 8])[..], &fvecs(&[0.0; 7])[..]);
    let missing = &fvecs(&[0.0, 0.0, 0.0, f32::NAN, 0.0, 0.0, 0.0, 0.0])[..];
    for (q, query, length, answer) in [
        (1, seven, 0, (1, 0)),
        (5, seven, 0, (8, 0)),
        (2, seven, 0, (10, 0)),
        (2, missing, 255, (3, 2)),
        (2, missing, 256, (4, 3)),
        (3, good, 6_560, (3, 2)),
        (4, good, 65_535, (3, 2)),
    ] {
        let asked = Asked::lending(Settings { q, m: 1 }, [&[], &[]], [query, &[]], to_write_over(length));
        FILL_QUERY_TABLE.compare_row(group, &asked, refused::<usize>(answer.0, answer.1), &[]);
    }
    for (q, length, answer) in [(17, 0, (1, 0)), (3, 0, (8, 0)), (4, 65_536, (8, 0)), (2, 65_535, (3, 2))] {
        let asked = Asked::lending(Settings { q, m: 1 }, [&[], &[]], [&[], &[]], to_write_over(length));
        FILL_PAIR_TABLE.compare_row(group, &asked, refused::<usize>(answer.0, answer.1), &[]);
    }
}

/// The table of a query of zeros is zeros, and its tail stays.
fn zero_query(group: &mut Group) {
    for (q, entries) in [(2, 256), (3, 6_561), (4, 65_536)] {
        let query = fvecs(&[0.0; 8]);
        let asked = Asked::lending(Settings { q, m: 1 }, [&[], &[]], [&query, &[]], to_write_over(entries + 9));
        FILL_QUERY_TABLE.compare_row(group, &asked, Ok(entries), &vec![0; entries]);
    }
}

/// The pair score by a table: both lists, q, the table, the records.
fn pair_refusals(group: &mut Group) {
    let (good, bad) = (&bvecs(&ZERO_BLOCK)[..], &bvecs(&BAD_DIGIT)[..]);
    let mut row = |q: i32, steps: [&[i32]; 2], records: [&[u8]; 2], length: usize, answer: Answer<i64>| {
        let asked = Asked::lending(Settings { q, m: 1 }, steps, records, to_write_over(length));
        PAIR_SCORE_BY_TABLE.compare_row(group, &asked, answer, &[]);
    };
    row(3, [&[1], &[]], [&[], &[]], 0, refused(2, 1));
    row(3, [&[1], &[1]], [&[], &[]], 0, refused(8, 0));
    row(2, [&[1], &[1]], [&[], &[]], 65_535, refused(3, 2));
    row(2, [&[1], &[1]], [bad, &[]], 65_536, refused(7, 3));
    row(2, [&[1], &[1]], [good, bad], 65_536, refused(7, 3));
}

/// The pair score by a table: the first record's digits stand first in the entry's number, whatever the entry holds.
fn pair_entries(group: &mut Group) {
    let mut table = vec![0; 65_536];
    table[256 * 3 + 128] = -7;
    let one = bvecs(&[0, 1, 1, 0, 0, 0, 0, 0, 0]);
    let other = bvecs(&[0, 0, 0, 0, 0, 0, 0, 0, 1]);
    for (records, score) in [([&one[..], &other], -7_000i64), ([&other, &one], 0)] {
        let asked = Asked::lending(BINARY, [&[10], &[100]], records, table.clone());
        PAIR_SCORE_BY_TABLE.compare_row(group, &asked, Ok(score), &[]);
    }
}

/// The query score by a table: the list, q, the record's frame, the table, the record's bytes.
fn query_refusals(group: &mut Group) {
    let (good, bad) = (&bvecs(&ZERO_BLOCK)[..], &bvecs(&BAD_DIGIT)[..]);
    let two = &bvecs(&[0; 18])[..];
    let mut row = |q: i32, steps: &[i32], record: &[u8], length: usize, answer: Answer<i64>| {
        let asked = Asked::lending(Settings { q, m: 1 }, [steps, &[]], [record, &[]], to_write_over(length));
        QUERY_SCORE_BY_TABLE.compare_row(group, &asked, answer, &[]);
    };
    row(5, &[], good, 0, refused(2, 0));
    row(5, &[1], &[], 0, refused(8, 0));
    row(2, &[1], &good[..12], 0, refused(10, 0));
    row(2, &[1], bad, 255, refused(3, 2));
    row(2, &[1], bad, 256, refused(7, 3));
    row(2, &[1], two, 511, refused(3, 2));
}

/// The query score by a table: each block has its own part of it, each layer its weight.
fn query_entries(group: &mut Group) {
    let mut table = vec![0; 2 * 6_561 + 1];
    (table[5], table[6_561 + 5], table[6_561 + 2]) = (1, 10, i32::MIN);
    let five = [2, 1, 0, 0, 0, 0, 0, 0];
    let two = [2, 0, 0, 0, 0, 0, 0, 0];
    let record = bvecs(&[&[1], &five[..], &five, &[0], &two, &five].concat());
    let asked = Asked::lending(Settings { q: 3, m: 2 }, [&[1, 1000], &[]], [&record, &[]], table);
    QUERY_SCORE_BY_TABLE.compare_row(group, &asked, Ok(1000 * (1 + 3) + 3 * 10 + i64::from(i32::MIN)), &[]);
}
