//! An operation as either program does it, on memory that is lent between guards and compared afterwards.

use std::fmt::Debug;

use second::drawn::{allowed_layouts, lent};
use second::layers::{Layout, Settings};
use second::lent::{to_write_over, Entry, Lent};
use second::random::Random;

use super::Group;

/// The greatest number K of blocks.
pub const MOST_BLOCKS: usize = 64;

/// What an operation is asked; step lists, inputs and room that it does not take are empty.
#[derive(Clone, Debug)]
pub struct Asked<I, R> {
    /// Settings, allowed or not.
    pub settings: Settings,
    /// The step lists.
    pub steps: [Vec<i32>; 2],
    /// Records, stores or units.
    pub inputs: [Vec<I>; 2],
    /// The room of an answer, or a table.
    pub room: Vec<R>,
}

/// Does an operation with settings, step lists, inputs and room; the answer is in the library's form.
pub type Way<I, R, A> = fn(Settings, [&[i32]; 2], [&[I]; 2], &mut [R]) -> A;

/// An operation as either program does it.
pub struct Operation<I, R, A> {
    /// As this package does it.
    pub second: Way<I, R, A>,
    /// As the library does it.
    pub library: Way<I, R, A>,
    /// Draws what it accepts, for so many blocks at settings.
    pub drawn: fn(&mut Random, Layout, usize) -> Asked<I, R>,
    /// The greatest q that it is for.
    pub greatest_q: i64,
}

/// What is lent to one program.
struct Loan<I, R> {
    steps: [Lent<i32>; 2],
    inputs: [Lent<I>; 2],
    room: Lent<R>,
}

impl<I: Entry> Asked<I, u8> {
    /// What an operation with one list, one input and room for bytes is asked at allowed settings.
    pub fn new(layout: Layout, steps: &[i32], input: &[I], room: usize) -> Self {
        Asked::lending(lent(layout), [steps, &[]], [input, &[]], to_write_over(room))
    }
}

impl<I: Entry, R: Entry> Asked<I, R> {
    /// What is asked with these settings, lists, inputs and room.
    pub fn lending(settings: Settings, steps: [&[i32]; 2], inputs: [&[I]; 2], room: Vec<R>) -> Self {
        Asked { settings, steps: steps.map(<[i32]>::to_vec), inputs: inputs.map(<[I]>::to_vec), room }
    }

    /// The step list that goes with an input: its own, or the only one.
    pub fn list_of(&self, input: usize) -> &[i32] {
        if self.steps[input].is_empty() {
            &self.steps[0]
        } else {
            &self.steps[input]
        }
    }
}

impl<I: Entry, R: Entry> Loan<I, R> {
    /// All that is lent, between guards.
    fn new(asked: &Asked<I, R>) -> Self {
        Loan {
            steps: asked.steps.each_ref().map(|steps| Lent::new(steps)),
            inputs: asked.inputs.each_ref().map(|input| Lent::new(input)),
            room: Lent::new(&asked.room),
        }
    }

    /// Does an operation with all that is lent.
    fn done<A>(&mut self, settings: Settings, way: Way<I, R, A>) -> A {
        let steps = self.steps.each_ref().map(Lent::content);
        let inputs = self.inputs.each_ref().map(Lent::content);
        way(settings, steps, inputs, self.room.room())
    }

    /// The first place in lent memory that is not as expected, in words.
    fn first_change(&self, expected: &Self) -> Option<String> {
        let room = first_change("room", &self.room, &expected.room);
        let inputs = || (0..2).find_map(|i| first_change("input", &self.inputs[i], &expected.inputs[i]));
        let steps = || (0..2).find_map(|i| first_change("steps", &self.steps[i], &expected.steps[i]));
        room.or_else(inputs).or_else(steps)
    }
}

/// The first place of a lent buffer that is not as expected, in words.
fn first_change<E: Entry>(name: &str, buffer: &Lent<E>, expected: &Lent<E>) -> Option<String> {
    let (place, right, held) = buffer.first_change(expected)?;
    Some(format!("{name}[{place}] is {held:?} and not {right:?}"))
}

impl<I: Entry, R: Entry, A: Debug + PartialEq> Operation<I, R, A> {
    /// Compares the answers and what is left in the room, and that the library leaves lists and inputs as they were.
    pub fn compare(&self, group: &mut Group, asked: &Asked<I, R>) {
        let mut expected = Loan::new(asked);
        let answer = expected.done(asked.settings, self.second);
        self.compare_library(group, asked, answer, &expected);
    }

    /// Compares the library with an answer that is written out, and with what it writes to the front of the room.
    pub fn compare_row(&self, group: &mut Group, asked: &Asked<I, R>, answer: impl Into<A>, written: &[R]) {
        let mut expected = Loan::new(asked);
        expected.room.room()[..written.len()].copy_from_slice(written);
        self.compare_library(group, asked, answer.into(), &expected);
    }

    /// Compares the library with an answer and what is left of a loan.
    fn compare_library(&self, group: &mut Group, asked: &Asked<I, R>, answer: A, expected: &Loan<I, R>) {
        let mut library = Loan::new(asked);
        let given = library.done(asked.settings, self.library);
        group.compare(asked, (answer, None), (given, library.first_change(expected)));
    }

    /// Every allowed setting that the operation is for.
    pub fn layouts(&self) -> Vec<Layout> {
        allowed_layouts().into_iter().filter(|layout| layout.q <= self.greatest_q).collect()
    }

    /// Whether a block has 65,536 entries of the operation's table, so that few such blocks are drawn.
    fn wide_table(&self, layout: Layout) -> bool {
        self.greatest_q == 4 && layout.q == 4
    }

    /// The greatest K that is drawn.
    pub fn most_blocks(&self, layout: Layout) -> usize {
        if self.wide_table(layout) {
            3
        } else {
            MOST_BLOCKS
        }
    }

    /// The settings for thousands of inputs, of those with wide tables only one.
    pub fn light_layouts(&self) -> Vec<Layout> {
        self.layouts().into_iter().filter(|layout| !self.wide_table(*layout) || layout.layers == 2).collect()
    }
}
