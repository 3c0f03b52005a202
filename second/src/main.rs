//! Compares document 01's rules as this package computes them with the proved library, through its C boundary.
//!
//! `second` does the usual amount of work, `second 50` fifty times as much, `second all` takes every 32-bit pattern,
//! and `second show PATH` runs the showing program at PATH.

mod boundary;
mod comparison;
mod running;

use std::process::ExitCode;

use comparison::{taking, Group, Work, GROUPS};

/// Does the work that the argument asks for and prints how many groups passed and failed.
fn main() -> ExitCode {
    if let Some(verdict) = running::asked() {
        return verdict;
    }
    let argument = std::env::args().nth(1).unwrap_or("1".into());
    let (groups, amount) = match (argument.as_str(), argument.parse()) {
        ("all", _) => (vec![("ek_take_bits, every pattern", taking::every_pattern as Work)], 1),
        (_, Ok(amount @ 1..)) => (GROUPS.concat(), amount),
        _ => {
            eprintln!("usage: second [AMOUNT | all | show PATH]");
            return ExitCode::from(2);
        }
    };
    let passed = groups.iter().filter(|(name, work)| Group::passes(name, *work, amount)).count();
    let failed = groups.len() - passed;
    println!("{passed} passed, {failed} failed");
    ExitCode::from(u8::from(failed > 0))
}
