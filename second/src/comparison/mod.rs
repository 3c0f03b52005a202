//! The comparison: groups of inputs on which both programs must give the same answer and leave the same buffers.
//!
//! An exported function joins with its declaration in `boundary`, an `Operation` and its groups here, and their name in
//! `GROUPS`.

mod codes;
mod faults;
mod layers;
mod nearest;
mod operations;
mod records;
mod scores;
mod stores;
mod sweeps;
mod tables;
pub mod taking;
mod vectors;

use std::fmt::Debug;

/// The number of differences that a group prints.
const PRINTED: u64 = 5;

/// The greatest number of characters of an input that is printed; tables have many more.
const LONGEST_PRINT: usize = 6_000;

/// What a group does with an amount of work.
pub type Work = fn(&mut Group, u64);

/// All groups, the lowest floor's first.
pub const GROUPS: [&[(&str, Work)]; 25] = [
    taking::GROUPS,
    nearest::GROUPS,
    layers::GROUPS,
    records::orders::GROUPS,
    records::encoding::GROUPS,
    records::inputs::GROUPS,
    records::decoding::GROUPS,
    records::rooms::GROUPS,
    records::faults::GROUPS,
    records::reports::GROUPS,
    records::round_trips::GROUPS,
    scores::orders::GROUPS,
    scores::pairs::GROUPS,
    scores::queries::GROUPS,
    scores::laws::GROUPS,
    tables::orders::GROUPS,
    tables::filling::GROUPS,
    tables::rooms::GROUPS,
    tables::scoring::GROUPS,
    tables::laws::GROUPS,
    stores::orders::GROUPS,
    stores::hours::GROUPS,
    stores::damage::GROUPS,
    stores::faults::GROUPS,
    stores::laws::GROUPS,
];

/// A group of comparisons: its name and what came of it.
pub struct Group {
    name: &'static str,
    comparisons: u64,
    differences: u64,
}

impl Group {
    /// Does a group's work, prints its line, and says whether no answer differed.
    pub fn passes(name: &'static str, work: Work, amount: u64) -> bool {
        let mut group = Group { name, comparisons: 0, differences: 0 };
        work(&mut group, amount);
        println!("{}: {} comparisons", group.name, group.comparisons);
        if group.differences > 0 {
            println!("{}: {} DIFFERENCES", group.name, group.differences);
        }
        group.differences == 0
    }

    /// Compares what both programs answered and left behind for one input.
    pub fn compare<A: PartialEq + Debug>(&mut self, input: &dyn Debug, expected: A, library: A) {
        self.comparisons += 1;
        if expected != library {
            self.differences += 1;
            if self.differences <= PRINTED {
                println!("{}: input {}\n  expected {expected:?}\n  library  {library:?}", self.name, shortened(input));
            }
        }
    }
}

/// An input in words, without what is past the longest print.
fn shortened(input: &dyn Debug) -> String {
    let words = format!("{input:?}");
    match words.get(..LONGEST_PRINT) {
        Some(start) => format!("{start} ..."),
        None => words,
    }
}
