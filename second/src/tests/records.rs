//! Records and reports for every allowed q and M (01, Bytes).

use super::{eight, refused, settings};
use crate::built::fvecs_of_units;
use crate::drawn::{allowed_layouts, drawn_record, lent};
use crate::random::Random;
use crate::records::{decode, encode, report, Vector};

#[test]
fn a_decoded_record_of_one_step_encodes_to_itself() {
    let mut random = Random::new(41);
    for layout in allowed_layouts() {
        for _ in 0..4 {
            let step = [2 * random.between(1, 512) as i32];
            let blocks = random.between(1, 4) as usize;
            let record = drawn_record(&mut random, layout, blocks, 1);
            let mut readings = vec![0; 4 + 32 * blocks];
            assert_eq!(decode(lent(layout), &step, &record, &mut readings), Ok(readings.len()));
            let mut again = vec![0; record.len()];
            assert_eq!(encode(lent(layout), &step, Vector::Record(&readings), &mut again), Ok(record.len()));
            assert_eq!(again, record);
        }
    }
}

#[test]
fn both_forms_of_a_vector_encode_alike() {
    let mut random = Random::new(42);
    for layout in allowed_layouts() {
        let units: [i32; 16] = std::array::from_fn(|_| random.between(-3_000, 3_000) as i32);
        let record = fvecs_of_units(&units);
        let (mut one, mut other) = ([0xee; 70], [0xee; 70]);
        let steps = [700, 1024];
        let by_units = encode(lent(layout), &steps, Vector::Units(&units), &mut one);
        assert_eq!(by_units, encode(lent(layout), &steps, Vector::Record(&record), &mut other));
        assert_eq!(one, other);
    }
}

#[test]
fn a_report_is_exact() {
    let mut random = Random::new(43);
    for _ in 0..2_000 {
        let units: [i32; 8] = std::array::from_fn(|_| random.between(-200_000, 200_000) as i32);
        let reported = report(settings(16, 3), &[300, 700, 1024], &units).expect("1024 fits");
        for (x, reading) in units.iter().zip(reported) {
            assert_eq!(f64::from(reading.taken), f64::from(*x) / 1024.0);
            assert_eq!(f64::from(reading.taken) - f64::from(reading.decoded), f64::from(reading.difference));
            assert!(reading.difference.abs() <= 1.0);
        }
    }
}

#[test]
fn refusals_of_a_report() {
    let refusal = |q: i32, steps: &[i32], units: &[i32]| report(settings(q, 1), steps, units).err();
    assert_eq!(refusal(1, &[], &[]), refused::<()>(1, 0).err());
    assert_eq!(refusal(2, &[], &[]), refused::<()>(2, 0).err());
    assert_eq!(refusal(2, &[1], &[i32::MAX; 16]), refused::<()>(3, 0).err());
    assert_eq!(refusal(2, &[1], &eight(&[0, 1, 1 << 25])), refused::<()>(5, 2).err());
    assert_eq!(refusal(2, &[1], &eight(&[0, 1])), refused::<()>(6, 0).err());
}
