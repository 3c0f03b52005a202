//! Order vectors of scores: named inputs, two faults at once among them, each with its answer written out.

use second::built::{bvecs, fvecs};
use second::layers::Settings;
use second::refusals::{refused, Answer};

use super::{PAIR_SCORE, QUERY_SCORE};
use crate::comparison::operations::Asked;
use crate::comparison::{Group, Work};

/// The group of the order vectors of scores.
pub const GROUPS: &[(&str, Work)] = &[("order vectors of scores", order_vectors)];

/// q 2 and M 1, which most rows use.
pub const BINARY: Settings = Settings { q: 2, m: 1 };

/// A good body of one block at M 1.
pub const ZERO_BLOCK: [u8; 9] = [0; 9];

/// A body of one block at M 1 whose byte 3 is wrong for every q.
pub const BAD_DIGIT: [u8; 9] = [0, 0, 0, 99, 0, 0, 0, 0, 0];

/// All rows.
fn order_vectors(group: &mut Group, _: u64) {
    pair_refusals(group);
    pair_scores(group);
    query_refusals(group);
    query_scores(group);
}

/// Compares the library's pair score with what a row says.
fn pair_row(group: &mut Group, settings: Settings, steps: [&[i32]; 2], records: [&[u8]; 2], answer: Answer<i64>) {
    PAIR_SCORE.compare_row(group, &Asked::lending(settings, steps, records, Vec::new()), answer, &[]);
}

/// The pair score: settings, both lists, the first record whole, the second.
fn pair_refusals(group: &mut Group) {
    let (good, bad) = (&bvecs(&ZERO_BLOCK)[..], &bvecs(&BAD_DIGIT)[..]);
    let two = &bvecs(&[ZERO_BLOCK, ZERO_BLOCK].concat())[..];
    let two_bad = &bvecs(&[ZERO_BLOCK, BAD_DIGIT].concat())[..];
    pair_row(group, Settings { q: 2, m: 0 }, [&[], &[]], [&[], &[]], refused(1, 0));
    let mut row = |steps: [&[i32]; 2], records: [&[u8]; 2], number: u64, place: u64| {
        pair_row(group, BINARY, steps, records, refused(number, place));
    };
    row([&[], &[0]], [good, good], 2, 0);
    row([&[1], &[0]], [good, good], 2, 1);
    row([&[1], &[0]], [&[], &[]], 2, 1);
    row([&[1], &[1]], [bad, &[]], 7, 3);
    row([&[1], &[1]], [&[], bad], 10, 0);
    row([&[1], &[1]], [good, two], 10, 0);
    row([&[1], &[1]], [good, two_bad], 10, 0);
    row([&[1], &[1]], [two, two_bad], 7, 12);
    row([&[1], &[1]], [two, &two[..21]], 10, 0);
    row([&[1, 2], &[1]], [good, &bvecs(&[1, 0, 0, 0, 0, 0, 0, 0, 0])], 7, 0);
    row([&[1], &[1, 2]], [&bvecs(&[1, 0, 0, 0, 0, 0, 0, 0, 0]), good], 7, 0);
}

/// The pair score: block H, G with steps, and the greatest score there is.
fn pair_scores(group: &mut Group) {
    let twice = Settings { q: 2, m: 2 };
    let h = bvecs(&[0, 0, 1, 0, 0, 0, 0, 0, 0, 0, 1, 0, 0, 0, 0, 0, 0]);
    pair_row(group, twice, [&[1], &[1]], [&h, &h], Ok(18));
    let g = bvecs(&[1, 0, 1, 0, 0, 0, 0, 0, 0]);
    pair_row(group, BINARY, [&[1, 5], &[3, 7]], [&g, &g], Ok(5 * 7 * 2));
    let great = bvecs(&[&[0], &[4u8, 0, 0, 0, 0, 0, 0, 0].repeat(4)[..]].concat().repeat(64));
    pair_row(group, Settings { q: 8, m: 4 }, [&[1024], &[1024]], [&great, &great], Ok(1_469_845_182_873_600));
}

/// Compares the library's query score with what a row says.
fn query_row(group: &mut Group, settings: Settings, steps: &[i32], inputs: [&[u8]; 2], answer: Answer<i64>) {
    QUERY_SCORE.compare_row(group, &Asked::lending(settings, [steps, &[]], inputs, Vec::new()), answer, &[]);
}

/// The query score: settings, the list, the query's frame and readings, the record.
fn query_refusals(group: &mut Group) {
    let (nan, good) = (f32::NAN, &fvecs(&[0.0; 8])[..]);
    let missing = &fvecs(&[0.0, 0.0, nan, f32::INFINITY, 0.0, 0.0, 0.0, 0.0])[..];
    let two_bad = &bvecs(&[ZERO_BLOCK, BAD_DIGIT].concat())[..];
    query_row(group, Settings { q: 17, m: 1 }, &[], [&[], &[]], refused(1, 0));
    query_row(group, BINARY, &[2, 2], [&fvecs(&[0.0; 7]), &[]], refused(2, 0));
    query_row(group, BINARY, &[1], [&fvecs(&[0.0; 7]), &[]], refused(10, 0));
    query_row(group, BINARY, &[1], [missing, &[]], refused(4, 2));
    query_row(group, BINARY, &[1], [good, two_bad], refused(10, 0));
    query_row(group, BINARY, &[1], [good, &bvecs(&BAD_DIGIT)], refused(7, 3));
    query_row(group, BINARY, &[1], [&fvecs(&[0.0; 16]), two_bad], refused(7, 12));
}

/// The query score: a reading of half a unit counts as 0 and one of three halves as 1; the greatest scores there are.
fn query_scores(group: &mut Group) {
    let halves = fvecs(&[1.0 / 2048.0, 3.0 / 2048.0, 0.0, 0.0, 0.0, 0.0, 0.0, 0.0]);
    let record = bvecs(&[0, 0, 1, 0, 0, 0, 0, 0, 0]);
    query_row(group, Settings { q: 3, m: 1 }, &[5], [&halves, &record], Ok(10));
    let (far, below) = (16384.0, -16384.0);
    let great_at_8 = bvecs(&[&[0], &[3u8, 0, 0, 0, 0, 0, 0, 3].repeat(4)[..]].concat().repeat(64));
    for (sign, score) in [(1.0, 27_015_000_694_456_320), (-1.0, -27_015_000_694_456_320)] {
        let readings = [far, below, below, below, below, below, below, below].map(|reading| sign * reading);
        let query = fvecs(&readings.repeat(64));
        query_row(group, Settings { q: 8, m: 4 }, &[1024], [&query, &great_at_8], Ok(score));
    }
    let great_at_16 = bvecs(&[&[0], &[4u8, 13, 2, 8, 14, 4, 10, 6].repeat(3)[..]].concat().repeat(64));
    let query = fvecs(&[far, far, far, far, far, far, far, below].repeat(64));
    let score = 64 * 1024 * (1 << 24) * 84 * (1 + 16 + 256);
    query_row(group, Settings { q: 16, m: 3 }, &[1024], [&query, &great_at_16], Ok(score));
}
