//! The pair score: both programs on two code records, good and damaged.

use second::drawn::{great_record, lent};
use second::random::Random;

use super::PAIR_SCORE;
use crate::comparison::faults::{bad_byte, bad_frame, bad_settings, bad_steps, other_frame, Fault};
use crate::comparison::operations::{Asked, MOST_BLOCKS};
use crate::comparison::{Group, Work};

/// The groups of the pair score.
pub const GROUPS: &[(&str, Work)] = &[
    ("ek_pair_score, every q, M and K", |group, amount| PAIR_SCORE.every_count(group, 501, amount)),
    ("ek_pair_score, a few blocks", |group, amount| PAIR_SCORE.few_blocks(group, 502, 200 * amount)),
    ("ek_pair_score, great points and steps", great_points),
    ("ek_pair_score, settings and step lists", |group, _| {
        PAIR_SCORE.every_setting(group, 503);
        PAIR_SCORE.refused_steps(group, 504, 2);
    }),
    ("ek_pair_score, damaged first record", |group, amount| PAIR_SCORE.damaged_codes(group, 505, 50 * amount, 0)),
    ("ek_pair_score, damaged second record", |group, amount| PAIR_SCORE.damaged_codes(group, 506, 50 * amount, 1)),
    ("ek_pair_score, every set of faults", |group, amount| PAIR_SCORE.every_set(group, 507, 4 * amount, &FAULTS)),
];

/// The faults of the pair score.
const FAULTS: [Fault<u8, u8>; 7] = [
    bad_byte::<1, _>,
    other_frame::<1, _>,
    bad_byte::<0, _>,
    bad_frame::<0, _>,
    bad_steps::<1, _, _>,
    bad_steps::<0, _, _>,
    bad_settings,
];

/// Points far from 0 with steps at their limit, against other such points and against themselves.
fn great_points(group: &mut Group, amount: u64) {
    let mut random = Random::new(508);
    let steps: [&[i32]; 2] = [&[1023, 1024], &[1, 2, 1023, 1024]];
    for layout in PAIR_SCORE.layouts().repeat(amount as usize) {
        for blocks in [1, 2, 63, MOST_BLOCKS] {
            let records = steps.map(|steps| great_record(&mut random, layout, blocks, steps.len()));
            for [one, other] in [[0, 0], [0, 1]] {
                let asked = [&records[one][..], &records[other]];
                PAIR_SCORE.compare(group, &Asked::lending(lent(layout), steps, asked, Vec::new()));
            }
        }
    }
}
