//! The lattice E8, doubled: membership and the nearest point as it is defined (01, The lattice).

use crate::refusals::{demand, Answer, AT_INPUT, POINT, SIZE};

/// Eight numbers: a doubled point of E8, or doubled numerators.
pub type Point = [i64; 8];

/// The greatest magnitude of a lent number.
const FARTHEST: i64 = 1 << 26;

/// How far, in divisors, a coordinate is looked for around its numerator: past 2 divisors a move by 4 comes closer.
const BOX: i64 = 3;

/// Whether eight numbers are a doubled point of E8: equal parity and a sum divisible by 4.
pub fn is_point(e: &Point) -> bool {
    let equal_parity = e.iter().all(|number| (number - e[0]) % 2 == 0);
    equal_parity && e.iter().sum::<i64>() % 4 == 0
}

/// Whether no number is past 2^26 in magnitude.
pub fn within_limits(numbers: &Point) -> bool {
    numbers.iter().all(|number| number.abs() <= FARTHEST)
}

/// A lent slice as eight numbers, or 3 if it has another length.
pub fn eight_numbers(lent: &[i32]) -> Answer<Point> {
    demand(lent.len() == 8, SIZE, AT_INPUT)?;
    Ok(std::array::from_fn(|i| i64::from(lent[i])))
}

/// The nearest point asked for by itself, with its limits.
pub fn nearest_point(d: &[i32], s: i32) -> Answer<Point> {
    let d = eight_numbers(d)?;
    demand(within_limits(&d) && (1..=1024).contains(&s), POINT, 0)?;
    Ok(nearest(&d, i64::from(s)))
}

/// The last coordinates of a point with their cost, ordered by cost and then lexicographically; the first ones are 0.
#[derive(Clone, Copy, PartialEq, Eq, PartialOrd, Ord)]
struct Ending {
    cost: i64,
    e: Point,
}

/// The best ending for each sum of its coordinates modulo 4.
type Endings = [Option<Ending>; 4];

/// The doubled point with the least sum of (d_i - s e_i)^2, the lexicographically smallest among equals.
pub fn nearest(d: &Point, s: i64) -> Point {
    nearest_of_parity(d, s, 0).min(nearest_of_parity(d, s, 1)).e
}

/// The best point among those with all coordinates of one parity.
fn nearest_of_parity(d: &Point, s: i64, parity: i64) -> Ending {
    let mut endings: Endings = [Some(Ending { cost: 0, e: [0; 8] }), None, None, None];
    for i in (0..8).rev() {
        endings = extended(&endings, i, d[i], s, parity);
    }
    endings[0].expect("a box of this width holds a point of each parity")
}

/// The best endings with one more coordinate in front, at place i.
fn extended(endings: &Endings, i: usize, numerator: i64, s: i64, parity: i64) -> Endings {
    let mut longer = [None; 4];
    let centre = numerator.div_euclid(s);
    for coordinate in (centre - BOX..=centre + BOX + 1).filter(|c| c.rem_euclid(2) == parity) {
        let cost = (numerator - s * coordinate).pow(2);
        for (sum, ending) in (0..).zip(endings) {
            if let Some(mut candidate) = *ending {
                candidate.cost += cost;
                candidate.e[i] = coordinate;
                keep_better(&mut longer[(sum + coordinate).rem_euclid(4) as usize], candidate);
            }
        }
    }
    longer
}

/// Keeps a candidate if it is better than what is held.
fn keep_better(held: &mut Option<Ending>, candidate: Ending) {
    if held.is_none_or(|held| candidate < held) {
        *held = Some(candidate);
    }
}
