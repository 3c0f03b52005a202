//! Order vectors of stores: named inputs, two faults at once among them, each with its answer written out.

use second::built::{bvecs, fvecs, fvecs_of_units};
use second::layers::Settings;
use second::lent::to_write_over;
use second::refusals::{refused, Answer};
use second::stores::Hour;

use super::{BEST_HOUR, BEST_HOUR_WITH_TABLE};
use crate::comparison::operations::Asked;
use crate::comparison::scores::orders::{BAD_DIGIT, BINARY, ZERO_BLOCK};
use crate::comparison::{Group, Work};

/// The group of the order vectors of stores.
pub const GROUPS: &[(&str, Work)] = &[("order vectors of stores", order_vectors)];

/// A body of one block at M 1 whose digits are block G's.
const BLOCK_G: [u8; 9] = [0, 0, 1, 0, 0, 0, 0, 0, 0];

/// All rows.
fn order_vectors(group: &mut Group, _: u64) {
    input_refusals(group);
    store_refusals(group);
    table_refusals(group);
    equal_scores(group);
}

/// Compares the library's best hour with what a row says.
fn row(group: &mut Group, settings: Settings, steps: &[i32], inputs: [&[u8]; 2], answer: Answer<Hour>) {
    BEST_HOUR.compare_row(group, &Asked::lending(settings, [steps, &[]], inputs, Vec::new()), answer, &[]);
}

/// Settings, the list, the query's frame and readings, then the empty store.
fn input_refusals(group: &mut Group) {
    let seven = &fvecs(&[0.0; 7])[..];
    let missing = &fvecs(&[0.0, 0.0, 0.0, 0.0, 0.0, f32::NAN, 0.0, 0.0])[..];
    row(group, Settings { q: 9, m: 4 }, &[], [&[], &[]], refused(1, 0));
    row(group, BINARY, &[1025], [seven, &[]], refused(2, 0));
    row(group, BINARY, &[1], [seven, &[]], refused(10, 0));
    row(group, BINARY, &[1], [missing, &[]], refused(4, 5));
    row(group, BINARY, &[1], [missing, &[1]], refused(4, 5));
    row(group, BINARY, &[1], [&fvecs(&[0.0; 8]), &[]], refused(11, 0));
}

/// Stored records in turn, each one's frame before its bytes, places from the store's start.
fn store_refusals(group: &mut Group) {
    let (good, bad, two) = (bvecs(&ZERO_BLOCK), bvecs(&BAD_DIGIT), bvecs(&[0; 18]));
    let query = fvecs(&[0.0; 8]);
    for (store, answer) in [
        (vec![9, 0, 0], refused(10, 0)),
        ([&bad[..], &[0, 0]].concat(), refused(7, 4 + 3)),
        ([&good[..], &good, &[9, 0, 0]].concat(), refused(10, 26)),
        ([&good[..], &good, &good[..12]].concat(), refused(10, 26)),
        ([&good[..], &bad, &bad].concat(), refused(7, 13 + 4 + 3)),
        ([&good[..], &two, &bad].concat(), refused(10, 13)),
        ([&bad[..], &two].concat(), refused(7, 4 + 3)),
        (two, refused(10, 0)),
        (good.clone(), Ok(Hour { hour: 0, score: 0 })),
    ] {
        row(group, BINARY, &[1], [&query, &store], answer);
    }
}

/// With a table: the list before q, q before the query, its frame before the table, the table before the readings.
fn table_refusals(group: &mut Group) {
    let (seven, zeros) = (&fvecs(&[0.0; 7])[..], &fvecs(&[0.0; 8])[..]);
    let infinite = &fvecs(&[f32::INFINITY; 8])[..];
    let (good, bad) = (&bvecs(&ZERO_BLOCK)[..], &bvecs(&BAD_DIGIT)[..]);
    let late = &[good, bad].concat()[..];
    let mut row = |q: i32, steps: &[i32], inputs: [&[u8]; 2], length: usize, number: u64, place: u64| {
        let asked = Asked::lending(Settings { q, m: 1 }, [steps, &[]], inputs, to_write_over(length));
        BEST_HOUR_WITH_TABLE.compare_row(group, &asked, refused::<Hour>(number, place), &[]);
    };
    row(5, &[], [seven, &[]], 0, 2, 0);
    row(5, &[1], [seven, &[]], 0, 8, 0);
    row(2, &[1], [seven, &[]], 0, 10, 0);
    row(2, &[1], [infinite, &[]], 255, 3, 2);
    row(2, &[1], [infinite, &[]], 256, 5, 0);
    row(2, &[1], [zeros, &[]], 256, 11, 0);
    row(2, &[1], [zeros, late], 256, 7, 13 + 4 + 3);
}

/// The earliest of equals, with scores of 0, above and below.
fn equal_scores(group: &mut Group) {
    let (zero, g) = (bvecs(&ZERO_BLOCK), bvecs(&BLOCK_G));
    let one = |x: i32| fvecs_of_units(&[x, 0, 0, 0, 0, 0, 0, 0]);
    let hour = |hour: u64, score: i64| Ok(Hour { hour, score });
    for (x, store, answer) in [
        (0, [&g[..], &g].concat(), hour(0, 0)),
        (3, [&g[..], &g].concat(), hour(0, 6)),
        (-3, [&g[..], &g].concat(), hour(0, -6)),
        (3, [&zero[..], &g, &zero, &g].concat(), hour(1, 6)),
        (-3, [&g[..], &zero, &g, &zero].concat(), hour(1, 0)),
    ] {
        row(group, BINARY, &[1], [&one(x), &store], answer);
        let mut asked = Asked::lending(BINARY, [&[1], &[]], [&one(x), &store], to_write_over(300));
        BEST_HOUR_WITH_TABLE.compare(group, &asked);
        asked.room.truncate(255);
        BEST_HOUR_WITH_TABLE.compare_row(group, &asked, refused::<Hour>(3, 2), &[]);
    }
}
