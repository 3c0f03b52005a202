//! The nearest point: both programs on lent numerators and a divisor.

use second::lattice::nearest_point;
use second::lent::Lent;
use second::random::Random;

use super::{Group, Work};
use crate::boundary;

/// The groups of the nearest point.
pub const GROUPS: &[(&str, Work)] = &[
    ("ek_nearest, random", random_far),
    ("ek_nearest, random near 0", random_near),
    ("ek_nearest, rich in ties", rich_in_ties),
    ("ek_nearest, all of a small box", small_box),
    ("ek_nearest, edges", edges),
    ("ek_nearest, wrong", wrong),
];

/// The greatest magnitude of a numerator.
const FARTHEST: i32 = 1 << 26;

/// Compares the nearest point for numerators and a divisor, and that the numerators stay as they were.
fn compare_nearest(group: &mut Group, d: &[i32], s: i32) {
    let lent = Lent::new(d);
    let expected = (nearest_point(d, s).into(), lent.clone());
    let library = boundary::nearest(lent.content(), s);
    group.compare(&(d, s), expected, (library, lent));
}

/// An allowed divisor, a small one as often as a great one.
fn drawn_divisor(random: &mut Random) -> i64 {
    let greatest = 1024 >> random.below(11);
    random.between(1, greatest)
}

/// Numerators and divisors from all that are allowed.
fn random_far(group: &mut Group, amount: u64) {
    let mut random = Random::new(201);
    for _ in 0..50_000 * amount {
        let far = i64::from(FARTHEST) >> random.below(26);
        let d: [i32; 8] = std::array::from_fn(|_| random.between(-far, far) as i32);
        compare_nearest(group, &d, random.between(1, 1024) as i32);
    }
}

/// Numerators of a few divisors' magnitude.
fn random_near(group: &mut Group, amount: u64) {
    let mut random = Random::new(202);
    for _ in 0..40_000 * amount {
        let s = drawn_divisor(&mut random);
        let d: [i32; 8] = std::array::from_fn(|_| random.between(-4 * s, 4 * s) as i32);
        compare_nearest(group, &d, s as i32);
    }
}

/// Numerators that are multiples of half the divisor, some of them moved by 1.
fn rich_in_ties(group: &mut Group, amount: u64) {
    let mut random = Random::new(203);
    for _ in 0..60_000 * amount {
        let s = drawn_divisor(&mut random);
        let far = random.pick(&[1, 2, 4, 6, 100, (1 << 25) / s]);
        let parts = random.pick(&[1, 2, 2, 2]);
        let moved = random.pick(&[0, 0, 0, 1]);
        let d: [i32; 8] = std::array::from_fn(|_| {
            let multiple = random.between(-far * parts, far * parts) * s / parts;
            (multiple + random.between(-moved, moved)) as i32
        });
        compare_nearest(group, &d, s as i32);
    }
}

/// All numerators of magnitude at most 1 with the divisors 1 to 4.
fn small_box(group: &mut Group, _: u64) {
    for number in 0..3i32.pow(8) {
        let d: [i32; 8] = std::array::from_fn(|i| number / 3i32.pow(i as u32) % 3 - 1);
        for s in 1..=4 {
            compare_nearest(group, &d, s);
        }
    }
}

/// Numerators and divisors at and beside their limits.
fn edges(group: &mut Group, amount: u64) {
    let mut random = Random::new(204);
    for _ in 0..20_000 * amount {
        let d: [i32; 8] = std::array::from_fn(|_| {
            let limit = random.pick(&[FARTHEST, FARTHEST - 1, FARTHEST - 2, FARTHEST - 3, 1024, 1, 0]);
            random.pick(&[limit, -limit])
        });
        compare_nearest(group, &d, random.pick(&[1, 2, 3, 4, 512, 1022, 1023, 1024]));
    }
}

/// Numerators of other counts, numerators and divisors past their limits, one fault or several.
fn wrong(group: &mut Group, amount: u64) {
    let mut random = Random::new(205);
    for _ in 0..20_000 * amount {
        let count = random.pick(&[8, 8, 8, 0, 1, 7, 9, 16]);
        let mut d: Vec<i32> = (0..count).map(|_| random.between(-5_000, 5_000) as i32).collect();
        if count > 0 && random.below(2) == 0 {
            let index = random.place(count);
            d[index] =
                random.pick(&[FARTHEST, FARTHEST + 1, -FARTHEST, -FARTHEST - 1, i32::MAX, i32::MIN, i32::MIN + 1]);
        }
        let s = random.pick(&[1, 7, 1024, 0, -1, 1025, -1024, i32::MAX, i32::MIN, 1 << 16]);
        compare_nearest(group, &d, s);
    }
}
