//! Drawn inputs: what is drawn as good is good, and vectors of readings come out in every way often.

use super::settings;
use crate::built::fvecs_of_patterns;
use crate::drawn::{allowed_layouts, drawn_pattern, drawn_query, drawn_record, drawn_steps, drawn_table, drawn_units};
use crate::drawn::{great_query, great_record, lent, REFUSED_SETTINGS, REFUSED_STEPS};
use crate::layers::{allowed_steps, Layout};
use crate::random::Random;
use crate::readings::{take_bits, Taken};
use crate::records::{decode, encode, Vector};
use crate::scores::query_score;

#[test]
fn refused_settings_and_steps_are_refused() {
    assert!(REFUSED_SETTINGS.iter().all(|settings| settings.allowed().is_err()));
    assert!(REFUSED_STEPS.iter().all(|steps| allowed_steps(steps, 0).is_err()));
}

#[test]
fn drawn_step_lists_and_records_are_good() {
    let mut random = Random::new(61);
    for layout in allowed_layouts() {
        let steps = drawn_steps(&mut random);
        assert!(allowed_steps(&steps, 0).is_ok());
        let record = drawn_record(&mut random, layout, 2, steps.len());
        assert_eq!(decode(lent(layout), &steps, &record, &mut [0; 68]), Ok(68));
    }
}

#[test]
fn a_drawn_pattern_is_taken_as_its_units_or_the_next_lower() {
    let mut random = Random::new(62);
    for _ in 0..20_000 {
        let x = random.between(-2_000, 2_000) as i32;
        let taken = take_bits(drawn_pattern(&mut random, x));
        assert!([0, 1].map(|lower| Taken::Units(i64::from(x) - lower)).contains(&taken));
    }
}

#[test]
fn drawn_vectors_are_coded_with_first_and_later_steps_and_overload() {
    let mut random = Random::new(63);
    let (mut first, mut later, mut overload, all) = (0, 0, 0, 40 * allowed_layouts().len());
    for layout in allowed_layouts().repeat(40) {
        let steps = drawn_steps(&mut random);
        let units = drawn_units(&mut random, layout, &steps, 2, 6);
        let patterns: Vec<u32> = units.iter().map(|&x| drawn_pattern(&mut random, x)).collect();
        let mut room = [0; 70];
        let record = fvecs_of_patterns(&patterns);
        match encode(lent(layout), &steps, Vector::Record(&record), &mut room) {
            Ok(_) if room[4] == 0 && room[4 + layout.block_bytes()] == 0 => first += 1,
            Ok(_) => later += 1,
            Err(_) => overload += 1,
        }
    }
    assert!([first, later, overload].iter().all(|count| 5 * count > all), "{first} {later} {overload}");
}

#[test]
fn drawn_queries_are_in_range() {
    let mut random = Random::new(64);
    for _ in 0..1_000 {
        let query = drawn_query(&mut random, 2);
        assert_eq!(Vector::Record(&query).readings().map(|readings| readings.len()), Ok(16));
        let record = drawn_record(&mut random, Layout { q: 3, layers: 1 }, 2, 1);
        assert!(query_score(settings(3, 1), &[1], Vector::Record(&query), &record).is_ok());
    }
}

#[test]
fn great_queries_score_high_with_their_records() {
    let mut random = Random::new(65);
    for layout in allowed_layouts() {
        let record = great_record(&mut random, layout, 2, 1);
        let query = great_query(&mut random, layout, &record);
        let score = query_score(lent(layout), &[1024], Vector::Record(&query), &record);
        assert!(score.is_ok_and(|score| score > 16 * 1024 * (1 << 23) * layout.weight(layout.layers - 1)));
    }
}

#[test]
fn drawn_tables_have_the_least_and_the_greatest_entries() {
    let mut random = Random::new(66);
    let (narrow, wide) = (drawn_table::<i8>(&mut random, 1_000), drawn_table::<i32>(&mut random, 1_000));
    assert!(narrow.contains(&i8::MIN) && narrow.contains(&i8::MAX) && narrow.iter().any(|entry| entry.abs_diff(0) < 9));
    assert!(
        wide.contains(&i32::MIN) && wide.contains(&i32::MAX) && wide.iter().any(|entry| entry.abs_diff(0) < 1 << 28)
    );
}
