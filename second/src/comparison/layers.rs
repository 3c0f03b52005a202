//! Coding and decoding a point: both programs on lent points, digits and room.

use second::drawn::{allowed_layouts, drawn_digits, drawn_point, drawn_settings, lent, REFUSED_SETTINGS};
use second::lattice::Point;
use second::layers::{digits_of_point, point_of_digits, Layout, Settings};
use second::lent::Lent;
use second::random::Random;

use super::{Group, Work};
use crate::boundary::{self, answers::PointAnswer};

/// The groups of the point coder, of the point decoder, and of the way there and back.
pub const GROUPS: &[(&str, Work)] = &[
    ("ek_digits_of_point, random", random_points),
    ("ek_digits_of_point, all of a small box", small_box),
    ("ek_digits_of_point, edges", edge_points),
    ("ek_digits_of_point, not a point", not_points),
    ("ek_digits_of_point, room", rooms),
    ("ek_digits_of_point, wrong", wrong_points),
    ("ek_point_of_digits, random", random_digits),
    ("ek_point_of_digits, every short list", every_short_list),
    ("ek_point_of_digits, edges", edge_digits),
    ("ek_point_of_digits, one damaged", one_damaged),
    ("ek_point_of_digits, several damaged", several_damaged),
    ("ek_point_of_digits, wrong", wrong_digits),
    ("digits to a point and back", digits_and_back),
    ("a point to digits and back", points_and_back),
];

/// The greatest magnitude of a coordinate.
const FARTHEST: i32 = 1 << 26;

/// Compares the coding of a point into so much room: the leftover, the whole room, and that the point stays as it was.
fn compare_coder(group: &mut Group, settings: Settings, e: &[i32], length: usize) {
    let point = Lent::new(e);
    let (mut expected_room, mut library_room) = (Lent::room_of(length), Lent::room_of(length));
    let expected = digits_of_point(settings, e, expected_room.room()).into();
    let library = boundary::digits_of_point(settings, point.content(), library_room.room());
    let untouched = Lent::new(e);
    group.compare(&(settings, e, length), (expected, expected_room, untouched), (library, library_room, point));
}

/// Compares the coding of a point at allowed settings, into room that is longer by 0 to 15.
fn compare_point(group: &mut Group, random: &mut Random, layout: Layout, e: &[i32; 8]) {
    compare_coder(group, lent(layout), e, layout.digits() + random.place(16));
}

/// Compares the decoding of a digit list, and that the digits stay as they were.
fn compare_decoder(group: &mut Group, settings: Settings, digits: &[u8]) {
    let list = Lent::new(digits);
    let expected = (point_of_digits(settings, digits).into(), list.clone());
    let library = boundary::point_of_digits(settings, list.content());
    group.compare(&(settings, digits), expected, (library, list));
}

/// A point as it is lent.
fn lent_point(e: Point) -> [i32; 8] {
    e.map(|e| e as i32)
}

/// Points from all that are allowed, small ones as often as far ones, at every allowed setting.
fn random_points(group: &mut Group, amount: u64) {
    let mut random = Random::new(301);
    for layout in allowed_layouts() {
        for _ in 0..1_000 * amount {
            let limit = i64::from(FARTHEST) >> random.below(26);
            let e = lent_point(drawn_point(&mut random, limit));
            compare_point(group, &mut random, layout, &e);
        }
    }
}

/// All coordinates of one parity from -2 to 2, at every allowed setting of one layer and at q = 2.
fn small_box(group: &mut Group, _: u64) {
    let mut random = Random::new(302);
    for layout in allowed_layouts().into_iter().filter(|layout| layout.layers == 1 || layout.q == 2) {
        for number in 0..3i32.pow(8) {
            let e = std::array::from_fn(|i| number / 3i32.pow(i as u32) % 3 * 2 - 2);
            compare_point(group, &mut random, layout, &e);
        }
        for number in 0..2i32.pow(8) {
            let e = std::array::from_fn(|i| (number >> i) % 2 * 2 - 1);
            compare_point(group, &mut random, layout, &e);
        }
    }
}

/// Coordinates of one parity at, beside and just past their limits and those of a decoded point.
fn edge_points(group: &mut Group, amount: u64) {
    let mut random = Random::new(303);
    for layout in allowed_layouts() {
        let weight = layout.weight(layout.layers) as i32;
        for _ in 0..500 * amount {
            let parity = random.pick(&[0, 1]);
            let limits = [FARTHEST, FARTHEST, FARTHEST - 2, FARTHEST / 2, 2 * weight, weight - weight % 2, 2, 0];
            let past = random.pick(&[0, 0, 0, 2]);
            let e = std::array::from_fn(|_| {
                let limit = random.pick(&limits) - parity + random.pick(&[0, 0, 0, past]);
                random.pick(&[limit, -limit])
            });
            compare_point(group, &mut random, layout, &e);
        }
    }
}

/// Points with one coordinate moved by 1, 2 or 3, with one of the other parity, or with a sum that is even at most.
fn not_points(group: &mut Group, amount: u64) {
    let mut random = Random::new(304);
    for layout in allowed_layouts() {
        for _ in 0..200 * amount {
            let limit = i64::from(FARTHEST) >> random.below(26);
            let mut e = lent_point(drawn_point(&mut random, limit));
            for _ in 0..random.between(1, 3) {
                e[random.place(8)] += random.pick(&[-3, -2, -1, 1, 2, 3]);
            }
            compare_point(group, &mut random, layout, &e);
        }
    }
}

/// Room of every length from none to 48 bytes, at every allowed setting, for a point and for what is none.
fn rooms(group: &mut Group, _: u64) {
    let mut random = Random::new(305);
    for layout in allowed_layouts() {
        for length in 0..=48 {
            let mut e = lent_point(drawn_point(&mut random, 4_096));
            compare_coder(group, lent(layout), &e, length);
            e[5] += 1;
            compare_coder(group, lent(layout), &e, length);
        }
    }
}

/// Refused settings, points of other counts, room that is too short, coordinates far past their limits, one fault or several.
fn wrong_points(group: &mut Group, amount: u64) {
    let mut random = Random::new(306);
    for settings in REFUSED_SETTINGS {
        compare_coder(group, settings, &[0; 8], 32);
    }
    for _ in 0..20_000 * amount {
        let settings = drawn_settings(&mut random);
        let mut e = drawn_point(&mut random, 1_000).map(|e| e as i32).repeat(2);
        e.truncate(random.pick(&[8, 8, 8, 8, 0, 1, 7, 9, 16]));
        if !e.is_empty() && random.below(2) == 0 {
            let index = random.place(e.len());
            e[index] = random.pick(&[FARTHEST, FARTHEST + 2, -FARTHEST - 2, i32::MAX, i32::MIN, i32::MIN + 2, 1, 2]);
        }
        let length = random.pick(&[0, 7, 8, 15, 16, 23, 24, 31, 32, 33, 40]);
        compare_coder(group, settings, &e, length);
    }
}

/// Lists of digits that are drawn, at every allowed setting, and more of them for q = 2.
fn random_digits(group: &mut Group, amount: u64) {
    let mut random = Random::new(307);
    for layout in allowed_layouts() {
        let lists = if layout.q == 2 { 20_000 } else { 1_000 };
        for _ in 0..lists * amount {
            compare_decoder(group, lent(layout), &drawn_digits(&mut random, layout));
        }
    }
}

/// Every list of one layer for q = 2, 3 and 4, and of two layers for q = 2.
fn every_short_list(group: &mut Group, _: u64) {
    for (q, layers) in [(2, 1), (3, 1), (4, 1), (2, 2)] {
        let layout = Layout { q, layers };
        for number in 0..q.pow(layout.digits() as u32) {
            let digits: Vec<u8> = (0..layout.digits()).map(|k| (number / q.pow(k as u32) % q) as u8).collect();
            compare_decoder(group, lent(layout), &digits);
        }
    }
}

/// At every allowed setting, digits that are all alike, and all alike but one.
fn edge_digits(group: &mut Group, _: u64) {
    for layout in allowed_layouts() {
        for all in 0..layout.q as u8 {
            let mut digits = vec![all; layout.digits()];
            compare_decoder(group, lent(layout), &digits);
            for i in 0..digits.len() {
                digits[i] = layout.q as u8 - 1 - all;
                compare_decoder(group, lent(layout), &digits);
                digits[i] = all;
            }
        }
    }
}

/// Lists with one digit of q or more, at each place in turn.
fn one_damaged(group: &mut Group, amount: u64) {
    let mut random = Random::new(308);
    for layout in allowed_layouts() {
        let q = layout.q as u8;
        for (i, damage) in (0..layout.digits()).flat_map(|i| [q, q + 1, 127, 128, 255].map(|damage| (i, damage))) {
            for _ in 0..amount {
                let mut digits = drawn_digits(&mut random, layout);
                digits[i] = damage;
                compare_decoder(group, lent(layout), &digits);
            }
        }
    }
}

/// Lists with several digits of q or more.
fn several_damaged(group: &mut Group, amount: u64) {
    let mut random = Random::new(309);
    for layout in allowed_layouts() {
        for _ in 0..100 * amount {
            let mut digits = drawn_digits(&mut random, layout);
            for _ in 0..random.between(2, 6) {
                let damage = random.between(layout.q, 255);
                digits[random.place(layout.digits())] = random.pick(&[layout.q, damage]) as u8;
            }
            compare_decoder(group, lent(layout), &digits);
        }
    }
}

/// Refused settings, lists of other lengths, bytes of any kind, one fault or several.
fn wrong_digits(group: &mut Group, amount: u64) {
    let mut random = Random::new(310);
    for settings in REFUSED_SETTINGS {
        compare_decoder(group, settings, &[0; 8]);
    }
    for _ in 0..20_000 * amount {
        let settings = drawn_settings(&mut random);
        let length = random.pick(&[0, 1, 7, 8, 9, 15, 16, 17, 23, 24, 25, 31, 32, 33, 40]);
        let most = random.pick(&[0, 1, 15, 16, 255]);
        let digits: Vec<u8> = (0..length).map(|_| random.between(0, most) as u8).collect();
        compare_decoder(group, settings, &digits);
    }
}

/// The library alone: the digits of a decoded point are the digits it was decoded from, and nothing is left over.
fn digits_and_back(group: &mut Group, amount: u64) {
    let mut random = Random::new(311);
    for layout in allowed_layouts() {
        for _ in 0..1_000 * amount {
            let digits = Lent::new(&drawn_digits(&mut random, layout));
            let point = boundary::point_of_digits(lent(layout), digits.content());
            let mut again = Lent::room_of(layout.digits());
            let leftover = boundary::digits_of_point(lent(layout), &point.e, again.room());
            group.compare(&(layout, point), (PointAnswer::from(Ok([0; 8])), digits), (leftover, again));
        }
    }
}

/// The library alone: a point is the one decoded from its digits plus q^M times the leftover.
fn points_and_back(group: &mut Group, amount: u64) {
    let mut random = Random::new(312);
    for layout in allowed_layouts() {
        for _ in 0..1_000 * amount {
            let limit = i64::from(FARTHEST) >> random.below(26);
            let point = drawn_point(&mut random, limit);
            let mut digits = Lent::room_of(layout.digits());
            let leftover = boundary::digits_of_point(lent(layout), &lent_point(point), digits.room()).e;
            let decoded = boundary::point_of_digits(lent(layout), digits.content()).e;
            let weight = layout.weight(layout.layers);
            let again = std::array::from_fn(|i| i64::from(decoded[i]) + weight * i64::from(leftover[i]));
            let untouched = Lent::new(digits.content());
            group.compare(&(layout, point), (point, untouched), (again, digits));
        }
    }
}
