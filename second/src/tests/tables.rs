//! Tables as the filler leaves them, and scores by them (01, Scores).

use super::settings;
use crate::built::bvecs;
use crate::drawn::{drawn_record, lent};
use crate::layers::Layout;
use crate::random::Random;
use crate::records::Vector;
use crate::scores::{pair_score, query_score};
use crate::stores::{best_hour, best_hour_with_table};
use crate::tables::{fill_pair_table, fill_query_table, pair_score_by_table, query_score_by_table};

#[test]
fn pair_scores_by_the_filled_table_are_the_plain_ones() {
    let mut random = Random::new(51);
    let mut table = vec![99; 65_540];
    assert_eq!(fill_pair_table(settings(2, 1), &mut table), Ok(65_536));
    assert_eq!(table[65_536..], [99; 4]);
    assert_eq!((table[0], table[256 * 2 + 2]), (0, 2));
    for round in 0..200 {
        let layout = Layout { q: 2, layers: round % 4 + 1 };
        let (one, other) = (drawn_record(&mut random, layout, 2, 2), drawn_record(&mut random, layout, 2, 2));
        let by_table = pair_score_by_table(lent(layout), &[3, 9], &one, &[5, 1024], &other, &table);
        assert_eq!(by_table, pair_score(lent(layout), &[3, 9], &one, &[5, 1024], &other));
    }
}

#[test]
fn query_scores_by_the_filled_table_are_the_plain_ones() {
    let mut random = Random::new(52);
    for q in 2..=4 {
        let entries = 2 * (q as usize).pow(8);
        let query: [i32; 16] = std::array::from_fn(|_| random.between(-(1 << 24), 1 << 24) as i32);
        let mut table = vec![99; entries + 3];
        assert_eq!(fill_query_table(settings(q, 1), Vector::Units(&query), &mut table), Ok(entries));
        assert_eq!(table[entries..], [99; 3]);
        for round in 0..100 {
            let layout = Layout { q: i64::from(q), layers: round % 4 + 1 };
            let record = drawn_record(&mut random, layout, 2, 2);
            let by_table = query_score_by_table(lent(layout), &[1, 700], &record, &table);
            assert_eq!(by_table, query_score(lent(layout), &[1, 700], Vector::Units(&query), &record));
        }
    }
}

#[test]
fn the_pair_table_is_read_by_the_first_record_s_digits_first() {
    let mut table = vec![0; 65_536];
    table[256 * 3 + 128] = 7;
    let one = bvecs(&[0, 1, 1, 0, 0, 0, 0, 0, 0]);
    let other = bvecs(&[0, 0, 0, 0, 0, 0, 0, 0, 1]);
    assert_eq!(pair_score_by_table(settings(2, 1), &[10], &one, &[100], &other, &table), Ok(7_000));
    assert_eq!(pair_score_by_table(settings(2, 1), &[10], &other, &[100], &one, &table), Ok(0));
}

#[test]
fn the_best_hour_with_a_table_is_the_plain_one() {
    let mut random = Random::new(53);
    let query: [i32; 16] = std::array::from_fn(|_| random.between(-5_000, 5_000) as i32);
    let store: Vec<u8> = (0..20).flat_map(|_| drawn_record(&mut random, Layout { q: 3, layers: 2 }, 2, 2)).collect();
    let (mut filled, mut left) = (vec![5; 13_130], vec![5; 13_130]);
    let vector = Vector::Units(&query);
    let with_table = best_hour_with_table(settings(3, 2), &[8, 9], vector, &store, &mut left);
    assert_eq!(with_table, best_hour(settings(3, 2), &[8, 9], vector, &store));
    assert_eq!(fill_query_table(settings(3, 2), vector, &mut filled), Ok(13_122));
    assert_eq!(left, filled);
}
