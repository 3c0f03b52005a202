//! Reports: both programs on one block of whole units.

use second::drawn::{allowed_layouts, drawn_steps, drawn_units, NEVER};
use second::layers::Layout;
use second::random::Random;
use second::records::report;

use crate::boundary::{self, answers::ReportAnswer};
use crate::comparison::operations::{Asked, Operation};
use crate::comparison::{Group, Work};

/// The report on a block, of which every K gives one.
pub const REPORT: Operation<i32, u8, ReportAnswer> = Operation {
    second: |settings, [steps, _], [units, _], _| report(settings, steps, units).into(),
    library: |settings, [steps, _], [units, _], _| boundary::report(settings, steps, units),
    drawn: |random, layout, _| {
        let steps = drawn_steps(random);
        Asked::new(layout, &steps, &drawn_units(random, layout, &steps, 1, NEVER), 0)
    },
    greatest_q: 16,
};

/// The groups of the report.
pub const GROUPS: &[(&str, Work)] = &[
    ("ek_report, random", random_blocks),
    ("ek_report, readings of every size", every_size),
    ("ek_report, rich in ties", rich_in_ties),
    ("ek_report, counts", every_count),
    ("ek_report, a bad reading at each place", bad_units),
    ("ek_report, settings and step lists", wrong),
];

/// Compares the report, float by float, at allowed settings.
fn compare_report(group: &mut Group, layout: Layout, steps: &[i32], units: &[i32]) {
    REPORT.compare(group, &Asked::new(layout, steps, units, 0));
}

/// Blocks that fit a step on their list, and loud ones.
fn random_blocks(group: &mut Group, amount: u64) {
    let mut random = Random::new(441);
    for layout in allowed_layouts() {
        for _ in 0..500 * amount {
            let steps = drawn_steps(&mut random);
            let units = drawn_units(&mut random, layout, &steps, 1, 5);
            compare_report(group, layout, &steps, &units);
        }
    }
}

/// Readings drawn up to each power of two.
fn every_size(group: &mut Group, amount: u64) {
    let mut random = Random::new(442);
    for layout in allowed_layouts() {
        for power in (0..=24).cycle().take(100 * amount as usize) {
            let steps = drawn_steps(&mut random);
            let units: [i32; 8] = std::array::from_fn(|_| random.between(-(1 << power), 1 << power) as i32);
            compare_report(group, layout, &steps, &units);
        }
    }
}

/// Readings that are halves of a step's multiples, differences of 0 among them.
fn rich_in_ties(group: &mut Group, amount: u64) {
    let mut random = Random::new(443);
    for layout in allowed_layouts() {
        for _ in 0..200 * amount {
            let s = random.between(1, 12) as i32;
            let far = random.pick(&[0, 1, 2, 4]);
            let units: [i32; 8] = std::array::from_fn(|_| random.between(-far, far) as i32 * s / 2);
            compare_report(group, layout, &[s, 2 * s, 3 * s], &units);
        }
    }
}

/// Every number of units from none to 64, and 512.
fn every_count(group: &mut Group, _: u64) {
    for layout in allowed_layouts() {
        for count in (0..=64).chain([512]) {
            compare_report(group, layout, &[5], &vec![0; count]);
        }
    }
}

/// One number of units at and past its limits, at each place.
fn bad_units(group: &mut Group, _: u64) {
    let limit = 1 << 24;
    for layout in allowed_layouts() {
        for place in 0..8 {
            for x in [limit, limit + 1, -limit, -limit - 1, i32::MAX, i32::MIN] {
                let mut units = [0; 8];
                units[place] = x;
                compare_report(group, layout, &[1024], &units);
            }
        }
    }
}

/// Settings of every kind, and step lists that are refused.
fn wrong(group: &mut Group, _: u64) {
    REPORT.every_setting(group, 444);
    REPORT.refused_steps(group, 445, 1);
}
