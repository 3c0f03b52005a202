//! The query score: both programs on readings and a code record, good and damaged.

use second::drawn::{great_query, great_record, lent};
use second::random::Random;

use super::QUERY_SCORE;
use crate::comparison::faults::{bad_byte, bad_frame, bad_settings, bad_steps, infinite_reading};
use crate::comparison::faults::{missing_reading, other_frame, Fault};
use crate::comparison::operations::{Asked, MOST_BLOCKS};
use crate::comparison::{Group, Work};

/// The groups of the query score.
pub const GROUPS: &[(&str, Work)] = &[
    ("ek_query_score, every q, M and K", |group, amount| QUERY_SCORE.every_count(group, 521, amount)),
    ("ek_query_score, a few blocks", |group, amount| QUERY_SCORE.few_blocks(group, 522, 300 * amount)),
    ("ek_query_score, great readings, points and steps", great_readings),
    ("ek_query_score, settings and step lists", |group, _| {
        QUERY_SCORE.every_setting(group, 523);
        QUERY_SCORE.refused_steps(group, 524, 1);
    }),
    ("ek_query_score, damaged query", |group, amount| QUERY_SCORE.damaged_vectors(group, 525, 50 * amount)),
    ("ek_query_score, damaged record", |group, amount| QUERY_SCORE.damaged_codes(group, 526, 50 * amount, 1)),
    ("ek_query_score, every set of faults", |group, amount| QUERY_SCORE.every_set(group, 527, 4 * amount, &FAULTS)),
];

/// The faults of the query score.
const FAULTS: [Fault<u8, u8>; 7] = [
    bad_byte::<1, _>,
    other_frame::<1, _>,
    infinite_reading,
    missing_reading,
    bad_frame::<0, _>,
    bad_steps::<0, _, _>,
    bad_settings,
];

/// Readings near their limit, of the signs of points that are far from 0 and of the opposite ones, with the greatest steps.
fn great_readings(group: &mut Group, amount: u64) {
    let (mut random, steps) = (Random::new(528), [1023, 1024]);
    for layout in QUERY_SCORE.layouts().repeat(amount as usize) {
        for blocks in [1, 2, 63, MOST_BLOCKS] {
            let record = great_record(&mut random, layout, blocks, steps.len());
            let query = great_query(&mut random, layout, &record);
            for query in [negated(&query), query] {
                let asked = Asked::lending(lent(layout), [&steps, &[]], [&query, &record], Vec::new());
                QUERY_SCORE.compare(group, &asked);
            }
        }
    }
}

/// An fvecs record with the sign of every reading turned over.
pub fn negated(query: &[u8]) -> Vec<u8> {
    let sign = |(i, byte): (usize, &u8)| if i > 4 && i % 4 == 3 { byte ^ 0x80 } else { *byte };
    query.iter().enumerate().map(sign).collect()
}
