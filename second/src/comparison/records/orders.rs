//! Order vectors: named inputs, two faults at once among them, each with its answer written out.

use second::built::{bvecs, fvecs, record};
use second::lattice::Point;
use second::layers::Settings;
use second::lent::{to_write_over, Entry, Lent};
use second::records::Reported;
use second::refusals::{refused, Answer};

use super::reports::REPORT;
use super::{DECODE, ENCODE, ENCODE_UNITS};
use crate::boundary::{self, answers::PointAnswer, answers::ValueAnswer};
use crate::comparison::operations::{Asked, Operation};
use crate::comparison::{Group, Work};

/// The group of the order vectors.
pub const GROUPS: &[(&str, Work)] = &[("order vectors", order_vectors)];

/// q 2 and M 1, which most rows use.
const BINARY: Settings = Settings { q: 2, m: 1 };

/// q 2 and M 2.
const BINARY_TWICE: Settings = Settings { q: 2, m: 2 };

/// The X of a block that step 26 fits and step 29 overloads at q 2, M 2.
const FITS_26_NOT_29: [i32; 8] = [21, 7, -11, -9, 3, 49, 16, 7];

/// The X of block C, which overloads at q 2, M 1 and step 1.
const BLOCK_C: [i32; 8] = [0, 1, 0, 0, 0, 0, 0, 0];

/// Block C as readings.
const BLOCK_C_READINGS: [f32; 8] = [0.0, 1.0 / 1024.0, 0.0, 0.0, 0.0, 0.0, 0.0, 0.0];

/// The record of one block of zeros at M 1.
const ZERO_RECORD: [u8; 13] = [9, 0, 0, 0, 0, 0, 0, 0, 0, 0, 0, 0, 0];

/// What a row says: a refusal, which leaves the room as it was, or the record that is written.
enum Outcome<'a> {
    Refused(u64, u64),
    Written(&'a [u8]),
}

use Outcome::{Refused, Written};

impl<E: Entry> Operation<E, u8, ValueAnswer> {
    /// Compares the library's answer and room with what a row says.
    fn row(&self, group: &mut Group, settings: Settings, steps: &[i32], input: &[E], room: usize, outcome: Outcome) {
        let asked = Asked::lending(settings, [steps, &[]], [input, &[]], to_write_over(room));
        match outcome {
            Refused(number, place) => self.compare_row(group, &asked, refused::<usize>(number, place), &[]),
            Written(record) => self.compare_row(group, &asked, Ok(record.len()), record),
        }
    }
}

/// All rows.
fn order_vectors(group: &mut Group, _: u64) {
    encode_rows(group);
    reading_rows(group);
    encode_units_rows(group);
    count_rows(group);
    edge_rows(group);
    decode_rows(group);
    point_rows(group);
    report_rows(group);
}

/// Encoding a record: what comes before its readings.
fn encode_rows(group: &mut Group) {
    let seven = fvecs(&[0.0; 7]);
    ENCODE.row(group, BINARY, &[2, 2], &seven, 13, Refused(2, 0));
    ENCODE.row(group, BINARY, &[1], &seven, 0, Refused(10, 0));
    ENCODE.row(group, BINARY, &[1], &[], 0, Refused(10, 0));
    ENCODE.row(group, BINARY, &[1], &record(0, &[]), 13, Refused(10, 0));
    ENCODE.row(group, BINARY, &[1], &fvecs(&[0.0; 520]), 589, Refused(10, 0));
    ENCODE.row(group, BINARY, &[1], &fvecs(&[0.0; 8]), 13, Written(&ZERO_RECORD));
    ENCODE.row(group, BINARY, &[1], &fvecs(&[0.0; 512]), 580, Written(&[&[64, 2, 0, 0][..], &[0; 576]].concat()));
    ENCODE.row(group, BINARY, &[1], &fvecs(&[f32::NAN, 0.0, 0.0, 0.0, 0.0, 0.0, 0.0, 0.0]), 12, Refused(3, 1));
}

/// Encoding a record: its readings in index order, all of them before overload.
fn reading_rows(group: &mut Group) {
    let (nan, infinity) = (f32::NAN, f32::INFINITY);
    ENCODE.row(group, BINARY, &[1], &fvecs(&[0.0, 0.0, nan, infinity, 0.0, 0.0, 0.0, 0.0]), 13, Refused(4, 2));
    ENCODE.row(group, BINARY, &[1], &fvecs(&[0.0, 0.0, infinity, nan, 0.0, 0.0, 0.0, 0.0]), 13, Refused(5, 2));
    let null_in_the_last_block = [BLOCK_C_READINGS, [0.0, 0.0, 0.0, 0.0, 0.0, 0.0, 0.0, nan]].concat();
    ENCODE.row(group, BINARY, &[1], &fvecs(&null_in_the_last_block), 22, Refused(4, 15));
    let overload_in_blocks_1_and_2 = [[0.0; 8], BLOCK_C_READINGS, BLOCK_C_READINGS].concat();
    ENCODE.row(group, BINARY, &[1], &fvecs(&overload_in_blocks_1_and_2), 31, Refused(6, 1));
    let next_above = f32::from_bits(16384.0f32.to_bits() + 1);
    ENCODE.row(group, BINARY, &[1], &fvecs(&[16384.0, 0.0, 0.0, 0.0, 0.0, 0.0, 0.0, 0.0]), 13, Refused(6, 0));
    ENCODE.row(group, BINARY, &[1], &fvecs(&[next_above, 0.0, 0.0, 0.0, 0.0, 0.0, 0.0, 0.0]), 13, Refused(5, 0));
}

/// Encoding units: blocks I and J, the listing, and a step that fits where a greater one does not.
fn encode_units_rows(group: &mut Group) {
    let fits_26 = [17, 0, 0, 0, 0, 0, 1, 1, 1, 1, 1, 1, 0, 1, 0, 0, 0, 0, 0, 1, 0];
    ENCODE_UNITS.row(group, BINARY_TWICE, &[26, 29], &FITS_26_NOT_29, 21, Written(&fits_26));
    ENCODE_UNITS.row(group, BINARY_TWICE, &[29], &FITS_26_NOT_29, 21, Refused(6, 0));
    ENCODE_UNITS.row(group, BINARY, &[1], &BLOCK_C, 13, Refused(6, 0));
    ENCODE_UNITS.row(group, BINARY, &[1, 2], &BLOCK_C, 13, Written(&[9, 0, 0, 0, 1, 0, 0, 0, 0, 0, 0, 0, 0]));
    ENCODE_UNITS.row(group, BINARY, &[2], &[1; 8], 13, Written(&[9, 0, 0, 0, 0, 0, 0, 0, 0, 0, 0, 0, 1]));
    let listing = [9, 0, 0, 0, 0, 0, 1, 0, 0, 0, 0, 0, 0];
    ENCODE_UNITS.row(group, Settings { q: 3, m: 1 }, &[1], &BLOCK_C, 13, Written(&listing));
}

/// Encoding units: settings before steps, counts before room.
fn count_rows(group: &mut Group) {
    ENCODE_UNITS.row(group, Settings { q: 2, m: 0 }, &[], &[0; 8], 13, Refused(1, 0));
    for count in [0, 7, 520] {
        ENCODE_UNITS.row(group, BINARY, &[1], &vec![0; count], 0, Refused(3, 0));
        ENCODE_UNITS.row(group, BINARY, &[1], &vec![0; count], 600, Refused(3, 0));
    }
    ENCODE_UNITS.row(group, BINARY, &[1], &[0; 8], 13, Written(&ZERO_RECORD));
    ENCODE_UNITS.row(group, BINARY, &[1], &[0; 512], 580, Written(&[&[64, 2, 0, 0][..], &[0; 576]].concat()));
    ENCODE_UNITS.row(group, BINARY, &[1], &[0; 512], 579, Refused(3, 1));
}

/// The edges of settings and step lists.
fn edge_rows(group: &mut Group) {
    for (q, m) in [(16, 4), (9, 4), (2, 0), (1, 1), (17, 1)] {
        ENCODE_UNITS.row(group, Settings { q, m }, &[1], &[0; 8], 37, Refused(1, 0));
    }
    ENCODE_UNITS.row(group, Settings { q: 16, m: 3 }, &[1], &[0; 8], 29, Written(&bvecs(&[0; 25])));
    ENCODE_UNITS.row(group, Settings { q: 8, m: 4 }, &[1], &[0; 8], 37, Written(&bvecs(&[0; 33])));
    for steps in [&[][..], &[0], &[1025], &[2, 2]] {
        ENCODE_UNITS.row(group, BINARY, steps, &[0; 8], 13, Refused(2, 0));
    }
    for steps in [&[1][..], &[1, 1024]] {
        ENCODE_UNITS.row(group, BINARY, steps, &[0; 8], 13, Written(&ZERO_RECORD));
    }
}

/// Decoding: the dimension before room, room before digits, one scan over T and digits; blocks G and H.
fn decode_rows(group: &mut Group) {
    DECODE.row(group, BINARY, &[1], &record(10, &[0; 10]), 0, Refused(10, 0));
    DECODE.row(group, BINARY, &[1], &bvecs(&[0, 0, 0, 99, 0, 0, 0, 0, 0]), 35, Refused(3, 1));
    let digit_then_t = [0, 2, 0, 0, 0, 0, 0, 0, 0, 1, 0, 0, 0, 0, 0, 0, 0, 0];
    DECODE.row(group, BINARY, &[1], &bvecs(&digit_then_t), 68, Refused(7, 1));
    let g = fvecs(&[1.0, -1.0, 0.0, 0.0, 0.0, 0.0, 0.0, 0.0]);
    DECODE.row(group, BINARY, &[1, 1024], &bvecs(&[1, 0, 1, 0, 0, 0, 0, 0, 0]), 36, Written(&g));
    let h = fvecs(&[3.0, -3.0, 0.0, 0.0, 0.0, 0.0, 0.0, 0.0]);
    let both_layers = [0, 0, 1, 0, 0, 0, 0, 0, 0, 0, 1, 0, 0, 0, 0, 0, 0];
    DECODE.row(group, BINARY_TWICE, &[1024], &bvecs(&both_layers), 36, Written(&h));
}

/// The point coder: the count before room, room before the point. The point decoder: block G.
fn point_rows(group: &mut Group) {
    let mut row = |e: &[i32], room: usize, answer: Answer<Point>| {
        let mut library = Lent::room_of(room);
        let given = boundary::digits_of_point(BINARY, e, library.room());
        group.compare(&(e, room), (PointAnswer::from(answer), Lent::room_of(room)), (given, library));
    };
    row(&[0; 7], 0, refused(3, 0));
    row(&[1, 0, 0, 0, 0, 0, 0, 0], 7, refused(3, 1));
    row(&[1, 0, 0, 0, 0, 0, 0, 0], 8, refused(9, 0));
    let g = boundary::point_of_digits(BINARY, &[0, 1, 0, 0, 0, 0, 0, 0]);
    group.compare(&"G", PointAnswer::from(Ok([2, -2, 0, 0, 0, 0, 0, 0])), g);
}

/// The report: each refusal before the next, and block E.
fn report_rows(group: &mut Group) {
    let mut row = |settings: Settings, steps: &[i32], units: &[i32], answer: Answer<[Reported; 8]>| {
        let asked = Asked::lending(settings, [steps, &[]], [units, &[]], Vec::new());
        REPORT.compare_row(group, &asked, answer, &[]);
    };
    row(Settings { q: 1, m: 1 }, &[], &[], refused(1, 0));
    row(BINARY, &[], &[], refused(2, 0));
    row(BINARY, &[1], &[i32::MAX; 16], refused(3, 0));
    row(BINARY, &[1], &[0, 1, 1 << 25, 0, 0, 0, 0, 0], refused(5, 2));
    row(BINARY, &[1], &BLOCK_C, refused(6, 0));
    let e = Reported { taken: 1.0 / 1024.0, decoded: 1.0 / 1024.0, difference: 0.0 };
    row(BINARY, &[2], &[1; 8], Ok([e; 8]));
}
