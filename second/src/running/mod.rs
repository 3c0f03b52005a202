//! Runs the built showing program on many texts and holds what it prints to `showing::show`.
//!
//! `second show PATH` runs the program at PATH.

mod texts;

use std::io::Write;
use std::process::{Child, Command, ExitCode, Stdio};
use std::time::Duration;

use second::random::Random;
use second::showing::show;

use crate::comparison::{Group, Work};

/// All groups of texts.
const GROUPS: [(&str, Work); 11] = [
    ("shown, every q and M", every_layout),
    ("shown, spaces, zeros and the last newline", decorated),
    ("shown, refused by 1, 2, 5 or 6", refused),
    ("shown, words", words),
    ("shown, lines", lines),
    ("shown, counts", counts),
    ("shown, lengths", lengths),
    ("shown, many steps", many_steps),
    ("shown, one byte replaced by every other", replaced),
    ("shown, edited at random", edited),
    ("shown, arriving in pieces", in_pieces),
];

/// The verdict, if the first argument asks for this work and the second names the program.
pub fn asked() -> Option<ExitCode> {
    let arguments: Vec<String> = std::env::args().skip(1).collect();
    let [mode, _] = &arguments[..] else { return None };
    (mode == "show").then(|| {
        let passed = GROUPS.iter().filter(|(name, work)| Group::passes(name, *work, 1)).count();
        let failed = GROUPS.len() - passed;
        println!("{passed} passed, {failed} failed");
        ExitCode::from(u8::from(failed > 0))
    })
}

/// The program, started with both ends open.
fn started() -> Child {
    let path = std::env::args().nth(2).expect("a path after `show`");
    let program = Command::new(&path).stdin(Stdio::piped()).stdout(Stdio::piped()).spawn();
    program.unwrap_or_else(|error| panic!("{path}: {error}"))
}

/// What the program prints for a text that arrives in these pieces. It need not read a text to its end.
fn printed(pieces: &[&[u8]]) -> Vec<u8> {
    let mut program = started();
    let mut input = program.stdin.take().expect("an open end");
    for (place, piece) in pieces.iter().enumerate() {
        if place > 0 {
            std::thread::sleep(Duration::from_millis(3));
        }
        let _ = input.write_all(piece);
    }
    drop(input);
    program.wait_with_output().expect("an end of the program").stdout
}

/// Compares what is printed for a text with what the rules say.
fn compare(group: &mut Group, text: &[u8]) {
    group.compare(&String::from_utf8_lossy(text), show(text), printed(&[text]));
}

/// Compares each of these texts.
fn compare_all(group: &mut Group, all: impl IntoIterator<Item = Vec<u8>>) {
    all.into_iter().for_each(|text| compare(group, &text));
}

fn every_layout(group: &mut Group, _: u64) {
    compare_all(group, texts::every_layout(&mut Random::new(11), 5));
}

fn decorated(group: &mut Group, _: u64) {
    compare_all(group, texts::decorated(&mut Random::new(12), 300));
}

fn refused(group: &mut Group, _: u64) {
    compare_all(group, texts::refused(&mut Random::new(13)));
}

fn words(group: &mut Group, _: u64) {
    compare_all(group, texts::words());
}

fn lines(group: &mut Group, _: u64) {
    compare_all(group, texts::lines());
}

fn counts(group: &mut Group, _: u64) {
    compare_all(group, texts::counts());
}

fn lengths(group: &mut Group, _: u64) {
    compare_all(group, texts::lengths());
}

fn many_steps(group: &mut Group, _: u64) {
    compare_all(group, texts::many_steps());
}

fn replaced(group: &mut Group, _: u64) {
    compare_all(group, texts::replaced(&mut Random::new(14), 5));
}

fn edited(group: &mut Group, _: u64) {
    compare_all(group, texts::edited(&mut Random::new(15), 1000));
}

fn in_pieces(group: &mut Group, _: u64) {
    let random = &mut Random::new(16);
    for text in texts::every_layout(random, 1) {
        let (front, back) = text.split_at(random.place(text.len()));
        group.compare(&String::from_utf8_lossy(&text), show(&text), printed(&[front, back]));
    }
}
