//! The showing program's function from text to text (01, The proved blocks).

use crate::layers::{allowed_steps, first_fitting_step, whole_point, Settings};
use crate::readings::{all_units, taken_units};
use crate::refusals::{Answer, Refusal, RECORD};

/// The greatest number of bytes of a text.
const LONGEST_TEXT: usize = 4096;

/// The text that is printed for a text that is read.
pub fn show(text: &[u8]) -> Vec<u8> {
    let shown = match shown_block(text) {
        Ok(lines) => lines,
        Err(Refusal { number, place }) => format!("refused {number} {place}\n"),
    };
    shown.into_bytes()
}

/// What the three lines ask for.
struct Asked {
    settings: Settings,
    steps: Vec<i32>,
    x: Vec<i32>,
}

/// The lines for an accepted block.
fn shown_block(text: &[u8]) -> Answer<String> {
    let asked = read_text(text).ok_or(Refusal { number: RECORD, place: 0 })?;
    let layout = asked.settings.allowed()?;
    let steps = allowed_steps(&asked.steps, 0)?;
    let x = all_units(&taken_units(&asked.x))?;
    let fitted = first_fitting_step(layout, &steps, &x, 0)?;
    let mut lines = format!("step {} {}\n", fitted.t, steps[fitted.t]);
    for (m, layer) in fitted.digits.chunks(8).enumerate() {
        lines += &format!("layer {m}{}\n", fields(layer));
    }
    lines += &format!("point{}\n", fields(&whole_point(layout, &fitted.digits)));
    Ok(lines)
}

/// Numbers as fields, a space before each.
fn fields<N: std::fmt::Display>(numbers: &[N]) -> String {
    numbers.iter().map(|number| format!(" {number}")).collect()
}

/// The three lines of numbers, if the text is of that kind.
fn read_text(text: &[u8]) -> Option<Asked> {
    if text.len() > LONGEST_TEXT {
        return None;
    }
    let lines: Vec<&[u8]> = text.strip_suffix(b"\n").unwrap_or(text).split(|&byte| byte == b'\n').collect();
    let [first, second, third] = lines[..] else { return None };
    let [q, m] = numbers(first)?[..] else { return None };
    let (steps, x) = (numbers(second)?, numbers(third)?);
    (x.len() == 8).then_some(Asked { settings: Settings { q, m }, steps, x })
}

/// The numbers of a line that are parted by spaces, if it holds nothing else.
fn numbers(line: &[u8]) -> Option<Vec<i32>> {
    line.split(|&byte| byte == b' ').filter(|field| !field.is_empty()).map(number).collect()
}

/// The number of a field: digits, maybe after a minus sign, within signed 32 bits.
fn number(field: &[u8]) -> Option<i32> {
    let (sign, digits) = match field.strip_prefix(b"-") {
        Some(digits) => (-1, digits),
        None => (1, field),
    };
    if digits.is_empty() || !digits.iter().all(u8::is_ascii_digit) {
        return None;
    }
    let magnitude = digits.iter().fold(0i64, |value, digit| (value * 10 + i64::from(digit - b'0')).min(1 << 32));
    i32::try_from(sign * magnitude).ok()
}
