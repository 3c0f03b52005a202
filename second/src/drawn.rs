//! Inputs for the tests and the comparison: every allowed setting, and settings, step lists, digits, points, readings and
//! records that are drawn.

use crate::built::{bvecs, fvecs_of_patterns, fvecs_of_units};
use crate::lattice::Point;
use crate::layers::{layer_point, whole_point, Layout, Settings};
use crate::lent::Entry;
use crate::random::Random;

/// Settings that are refused.
pub const REFUSED_SETTINGS: [Settings; 22] = [
    Settings { q: 16, m: 4 },
    Settings { q: 9, m: 4 },
    Settings { q: 2, m: 0 },
    Settings { q: 2, m: 5 },
    Settings { q: 1, m: 1 },
    Settings { q: 17, m: 1 },
    Settings { q: 0, m: 1 },
    Settings { q: 0, m: 0 },
    Settings { q: -1, m: 1 },
    Settings { q: -2, m: 2 },
    Settings { q: 2, m: -1 },
    Settings { q: -4, m: -1 },
    Settings { q: 4097, m: 1 },
    Settings { q: 258, m: 1 },
    Settings { q: 2, m: 257 },
    Settings { q: 65536, m: 2 },
    Settings { q: i32::MIN, m: 1 },
    Settings { q: i32::MAX, m: 1 },
    Settings { q: 2, m: i32::MIN },
    Settings { q: 2, m: i32::MAX },
    Settings { q: i32::MIN, m: i32::MIN },
    Settings { q: i32::MAX, m: i32::MAX },
];

/// Step lists that are refused.
pub const REFUSED_STEPS: [&[i32]; 20] = [
    &[],
    &[0],
    &[-1],
    &[1025],
    &[i32::MIN],
    &[i32::MAX],
    &[65_537],
    &[2, 2],
    &[3, 2],
    &[0, 1],
    &[1, 1025],
    &[1, i32::MAX],
    &[-5, 7],
    &[1, 2, 2],
    &[1, 3, 2],
    &[4, 5, 6, 6],
    &[1, 2, 3, 1025],
    &[4, 3, 2, 1],
    &[1, 2, 3, 4, 5],
    &[1, 2, 3, 4, 5, 6, 7, 8, 9, 10],
];

/// One in so many that there is none.
pub const NEVER: u64 = u64::MAX;

/// Every allowed pair of q and M.
pub fn allowed_layouts() -> Vec<Layout> {
    let pairs = (0..=20).flat_map(|q| (0..=6).map(move |m| Settings { q, m }));
    pairs.filter_map(|pair| pair.allowed().ok()).collect()
}

/// Allowed settings as they are lent.
pub fn lent(layout: Layout) -> Settings {
    Settings { q: layout.q as i32, m: layout.layers as i32 }
}

/// Settings, an allowed pair as often as a refused one.
pub fn drawn_settings(random: &mut Random) -> Settings {
    let refused = random.pick(&REFUSED_SETTINGS);
    let allowed = lent(random.pick(&allowed_layouts()));
    random.pick(&[allowed, refused])
}

/// A list of digits below q, all of them drawn.
pub fn drawn_digits(random: &mut Random, layout: Layout) -> Vec<u8> {
    (0..layout.digits()).map(|_| random.between(0, layout.q - 1) as u8).collect()
}

/// A doubled point with no coordinate past an even limit of at least 2, of either parity as often.
pub fn drawn_point(random: &mut Random, limit: i64) -> Point {
    let parity = random.between(0, 1);
    let mut e: Point = std::array::from_fn(|_| 2 * random.between(-limit / 2, limit / 2 - parity) + parity);
    if e.iter().sum::<i64>() % 4 != 0 {
        let i = random.place(8);
        e[i] += if e[i] > 0 { -2 } else { 2 };
    }
    e
}

/// A step list that keeps its rule, small steps as often as great ones.
pub fn drawn_steps(random: &mut Random) -> Vec<i32> {
    let count = random.between(1, 4);
    let mut steps: Vec<i32> = (0..count)
        .map(|_| {
            let greatest = 1024 >> random.below(11);
            random.between(1, greatest) as i32
        })
        .collect();
    steps.sort_unstable();
    steps.dedup();
    steps
}

/// The X of a block near a point that fits a step.
pub fn drawn_block(random: &mut Random, layout: Layout, step: i32) -> [i32; 8] {
    let (s, e) = (i64::from(step), whole_point(layout, &drawn_digits(random, layout)));
    e.map(|e| ((s * e).div_euclid(2) + random.between(-s / 6, s / 6)) as i32)
}

/// The X of a block that most steps up to this one overload.
pub fn drawn_loud_block(random: &mut Random, layout: Layout, step: i32) -> [i32; 8] {
    let far = i64::from(step) * layout.weight(layout.layers);
    std::array::from_fn(|_| random.between(-far, far) as i32)
}

/// The X of so many blocks, each near a point that fits a step on the list, but one in so many of them loud.
pub fn drawn_units(random: &mut Random, layout: Layout, steps: &[i32], blocks: usize, one_in: u64) -> Vec<i32> {
    let block = |_| {
        if random.below(one_in) == 0 {
            drawn_loud_block(random, layout, steps[steps.len() - 1])
        } else {
            let step = random.pick(steps);
            drawn_block(random, layout, step)
        }
    };
    (0..blocks).flat_map(block).collect()
}

/// The pattern of a reading within half a unit of X, exact halves among them.
pub fn drawn_pattern(random: &mut Random, x: i32) -> u32 {
    let between = random.between(-4, 4);
    let eighths = random.pick(&[0, 0, 4, -4, between]);
    ((8 * i64::from(x) + eighths) as f32 / 8192.0).to_bits()
}

/// A good record of so many blocks at settings, with a list of so many steps, all its bytes drawn.
pub fn drawn_record(random: &mut Random, layout: Layout, blocks: usize, steps: usize) -> Vec<u8> {
    let size = layout.block_bytes();
    let limit = |index: usize| if index.is_multiple_of(size) { steps as i64 } else { layout.q };
    let body: Vec<u8> = (0..blocks * size).map(|index| random.between(0, limit(index) - 1) as u8).collect();
    bvecs(&body)
}

/// A good record of so many blocks, each with the digits of one layer point that is far from 0 in every layer.
pub fn great_record(random: &mut Random, layout: Layout, blocks: usize, steps: usize) -> Vec<u8> {
    let one_layer = Layout { layers: 1, ..layout };
    let square = |digits: &Vec<u8>| layer_point(layout.q, digits).iter().map(|l| l * l).sum::<i64>();
    let block = |_| {
        let layer = (0..20).map(|_| drawn_digits(random, one_layer)).max_by_key(square).expect("some are drawn");
        [vec![random.place(steps) as u8], layer.repeat(layout.layers)].concat()
    };
    let body: Vec<u8> = (0..blocks).flat_map(block).collect();
    bvecs(&body)
}

/// The fvecs record of readings near 16384 or -16384, of the signs of a record's points, so that no product is negative.
pub fn great_query(random: &mut Random, layout: Layout, record: &[u8]) -> Vec<u8> {
    let points = record[4..].chunks(layout.block_bytes()).flat_map(|block| whole_point(layout, &block[1..]));
    let units: Vec<i32> = points.map(|e| (e.signum() * ((1 << 24) - random.between(0, 2))) as i32).collect();
    fvecs_of_units(&units)
}

/// The fvecs record of so many blocks of readings in range, a query of small ones as often as of great ones.
pub fn drawn_query(random: &mut Random, blocks: usize) -> Vec<u8> {
    let greatest = 1 << random.below(25);
    let pattern = |_| {
        let x = random.between(-greatest, greatest) as i32;
        drawn_pattern(random, x)
    };
    let patterns: Vec<u32> = (0..8 * blocks).map(pattern).collect();
    fvecs_of_patterns(&patterns)
}

/// A table of so many entries of any kind, the least and the greatest often among them.
pub fn drawn_table<E: Entry>(random: &mut Random, length: usize) -> Vec<E> {
    let bits = |drawn: u64| match drawn % 8 {
        0 => 1 << 63,
        1 => u64::MAX >> 1,
        _ => drawn,
    };
    (0..length).map(|_| E::of_high_bits(bits(random.draw()))).collect()
}
