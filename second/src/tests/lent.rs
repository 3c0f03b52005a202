//! Lent buffers: what is changed in them or beside them is found.

use crate::lent::{to_write_over, Entry, Lent};

/// A buffer with one entry changed.
fn changed<E: Entry>(before: &Lent<E>, place: usize, entry: E) -> Lent<E> {
    let mut after = before.clone();
    after.room()[place] = entry;
    after
}

#[test]
fn a_change_is_named_by_its_place() {
    let before = Lent::new(&[1, 2, 3]);
    assert_eq!(before.first_change(&before), None);
    assert_eq!(changed(&before, 0, 9).first_change(&before), Some((0, 1, 9)));
    assert_eq!(changed(&before, 2, 9).first_change(&before), Some((2, 3, 9)));
}

#[test]
fn guards_stand_beside_the_content() {
    let (one, other) = (Lent::new(&[0u8; 2]), Lent::new(&[u8::GUARD; 2]));
    assert_eq!(one.first_change(&other), Some((0, 0xa5, 0)));
    assert_eq!(Lent::<u8>::new(&[]).content(), []);
}

#[test]
fn entries_to_write_over_are_not_those_of_records_or_tables() {
    assert!(to_write_over::<u8>(5_000).iter().all(|&byte| byte > 16));
    assert!(to_write_over::<i8>(70_000).iter().all(|&entry| entry > 16));
    assert!(to_write_over::<i32>(500_000).iter().all(|&entry| entry > 1 << 30));
}
