//! Texts for the showing program: good, refused and malformed.

use second::drawn::{allowed_layouts, drawn_block, drawn_loud_block, drawn_steps, lent};
use second::drawn::{REFUSED_SETTINGS, REFUSED_STEPS};
use second::layers::{Layout, Settings};
use second::random::Random;

/// The listed text of document 01, and one of two layers.
const LISTED: [&str; 2] = ["3 1\n1\n0 1 0 0 0 0 0 0\n", "2 2\n26 29\n21 7 -11 -9 3 49 16 7\n"];

/// Words that are numbers, words that are none, and numbers past signed 32 bits.
const WORDS: [&str; 44] = [
    "0", "-0", "00", "-00", "007", "-007", "1", "-1", "2147483647", "2147483648", "-2147483648", "-2147483649",
    "4294967295", "4294967296", "4294967297", "-4294967296", "18446744073709551615", "18446744073709551616",
    "18446744073709551617", "-18446744073709551617", "99999999999999999999", "0000000000000000000000000000001",
    "-00000000000000000002147483648", "+1", "+", "-", "--1", "-+1", "1-2", "1-", "- 1", "-\t1", "1\t", "\t", "1.", "1.0",
    "1e3", "0x1", "1_0", "1,0", "1\r", "1\0", "\0", "\u{ff11}",
];

/// Lines in place of the three, some more or fewer than three.
const LINES: [&str; 30] = [
    "", "\n", "\n\n", "\n\n\n", "\n\n\n\n", " ", " \n \n \n", "3 1", "3 1\n", "3 1\n1", "3 1\n1\n", "3 1\n1\n\n",
    "3 1\n1\n0 1 0 0 0 0 0 0", "3 1\n1\n0 1 0 0 0 0 0 0\n", "3 1\n1\n0 1 0 0 0 0 0 0\n\n", "3 1\n1\n0 1 0 0 0 0 0 0\n ",
    "3 1\n1\n0 1 0 0 0 0 0 0\n \n", "3 1\n1\n0 1 0 0 0 0 0 0\n1", "3 1\n1\n0 1 0 0 0 0 0 0\n1\n2\n", "\n3 1\n1\n0 1 0 0 0 0 0 0\n",
    "3 1\n\n1\n0 1 0 0 0 0 0 0\n", "3 1\n1\n\n0 1 0 0 0 0 0 0\n", "3 1\n\n0 1 0 0 0 0 0 0\n", "3 1\n  \n0 1 0 0 0 0 0 0\n",
    "3 1\r\n1\r\n0 1 0 0 0 0 0 0\r\n", "3 1\n1\n0 1 0 0 0 0 0 0\r\n", "3 1\r1\r0 1 0 0 0 0 0 0\r", "3 1 1 0 1 0 0 0 0 0 0\n",
    "3 1\n1 0 1 0 0 0 0 0 0\n", "3 1\n1\n0 1 0 0 0 0 0 0\n\0",
];

/// Numbers parted by single spaces.
fn numbers(list: &[i32]) -> String {
    list.iter().map(i32::to_string).collect::<Vec<_>>().join(" ")
}

/// The three lines of settings, steps and X.
fn three_lines(settings: Settings, steps: &[i32], x: &[i32]) -> String {
    format!("{} {}\n{}\n{}\n", settings.q, settings.m, numbers(steps), numbers(x))
}

/// The three lines of a block that most often fits.
fn good(random: &mut Random, layout: Layout) -> String {
    let steps = drawn_steps(random);
    let step = random.pick(&steps);
    let x = drawn_block(random, layout, step);
    three_lines(lent(layout), &steps, &x)
}

/// So many good texts for each allowed pair of q and M.
pub fn every_layout(random: &mut Random, each: usize) -> Vec<Vec<u8>> {
    let layouts = allowed_layouts().into_iter().flat_map(|layout| std::iter::repeat_n(layout, each));
    layouts.map(|layout| good(random, layout).into_bytes()).collect()
}

/// A run of up to three spaces, or of at least as many as asked for.
fn spaces(random: &mut Random, least: usize) -> String {
    " ".repeat(least.max(random.place(4)))
}

/// A number with needless zeros, and 0 with or without a minus.
fn zeros(random: &mut Random, number: &str) -> String {
    let (sign, digits) = number.strip_prefix('-').map_or(("", number), |digits| ("-", digits));
    let sign = if number == "0" { random.pick(&["", "-"]) } else { sign };
    format!("{sign}{}{digits}", "0".repeat(random.place(4)))
}

/// So many good texts with runs of spaces, needless zeros, and with or without their last newline.
pub fn decorated(random: &mut Random, count: usize) -> Vec<Vec<u8>> {
    let layouts = allowed_layouts();
    let text = |_| {
        let layout = random.pick(&layouts);
        let plain = good(random, layout);
        let mut text = String::new();
        for line in plain.lines() {
            text += &spaces(random, 0);
            for word in line.split(' ') {
                text += &zeros(random, word);
                text += &spaces(random, 1);
            }
            text.truncate(text.len() - random.place(2));
            text += "\n";
        }
        text.truncate(text.len() - random.place(2));
        text.into_bytes()
    };
    (0..count).map(text).collect()
}

/// Texts with one or two faults of settings, steps, readings and fit.
pub fn refused(random: &mut Random) -> Vec<Vec<u8>> {
    let layouts = allowed_layouts();
    let mut texts = Vec::new();
    let past = [16_777_217, -16_777_217, i32::MAX, i32::MIN, 16_777_216, -16_777_216];
    for settings in REFUSED_SETTINGS {
        let (far, steps) = (random.pick(&past), random.pick(&REFUSED_STEPS));
        texts.push(three_lines(settings, &[1], &[0; 8]));
        texts.push(three_lines(settings, steps, &[far; 8]));
    }
    for steps in REFUSED_STEPS {
        let far = random.pick(&past);
        let layout = random.pick(&layouts);
        texts.push(three_lines(lent(layout), steps, &[0; 8]));
        texts.push(three_lines(lent(layout), steps, &[far; 8]));
    }
    for place in 0..8 {
        for far in past {
            let layout = random.pick(&layouts);
            let mut x = drawn_loud_block(random, layout, 1);
            x[place] = far;
            texts.push(three_lines(lent(layout), &drawn_steps(random), &x));
            x[random.place(8)] = random.pick(&past);
            texts.push(three_lines(lent(layout), &drawn_steps(random), &x));
        }
    }
    for layout in layouts {
        for _ in 0..3 {
            let steps = drawn_steps(random);
            let x = drawn_loud_block(random, layout, steps[steps.len() - 1]);
            texts.push(three_lines(lent(layout), &steps, &x));
        }
    }
    texts.into_iter().map(String::into_bytes).collect()
}

/// Each word in place of each of some words of a good text.
pub fn words() -> Vec<Vec<u8>> {
    let long = [format!("{}1", "0".repeat(4000)), "9".repeat(4000), format!("-{}", "1".repeat(3000))];
    let words = WORDS.iter().map(|word| word.to_string()).chain(long);
    let places = |word: String| {
        [
            format!("{word} 1\n1\n0 1 0 0 0 0 0 0\n"),
            format!("3 {word}\n1\n0 1 0 0 0 0 0 0\n"),
            format!("3 1\n{word}\n0 1 0 0 0 0 0 0\n"),
            format!("3 1\n1 2 3 4 5 {word}\n0 1 0 0 0 0 0 0\n"),
            format!("3 1\n1\n{word} 1 0 0 0 0 0 0\n"),
            format!("3 1\n1\n0 1 0 0 0 0 0 {word}\n"),
            format!("3 1\n1\n0 1 0 0 0 0 0 {word}"),
        ]
    };
    words.flat_map(places).map(String::into_bytes).collect()
}

/// Texts of other lines than three.
pub fn lines() -> Vec<Vec<u8>> {
    LINES.iter().map(|text| text.as_bytes().to_vec()).collect()
}

/// Texts with other counts of numbers in their lines.
pub fn counts() -> Vec<Vec<u8>> {
    let list = |count: usize| numbers(&(2..).take(count).collect::<Vec<_>>());
    let texts = (0..=4).flat_map(|first| (0..=6).flat_map(move |second| (6..=10).map(move |third| [first, second, third])));
    let text = |[first, second, third]: [usize; 3]| format!("{}\n{}\n{}\n", list(first), list(second), list(third));
    texts.map(|counts| text(counts).into_bytes()).collect()
}

/// Texts of about 4,096 bytes and of many more, good and malformed.
pub fn lengths() -> Vec<Vec<u8>> {
    let mut texts = Vec::new();
    for length in [4090, 4094, 4095, 4096, 4097, 4098, 5000, 9000, 70_000, 300_000] {
        for text in LISTED {
            let fill = length - text.len();
            let after = text.find('\n').expect("a first line") + 1;
            let (first, rest) = text.split_at(after);
            texts.push(format!("{}{text}", " ".repeat(fill)));
            texts.push(format!("{}{text}", "0".repeat(fill)));
            texts.push(format!("{first}{}{rest}", " ".repeat(fill)));
            texts.push(format!("{}{}\n", text.trim_end(), " ".repeat(fill)));
            texts.push(format!("{}{}", text.trim_end(), " ".repeat(fill + 1)));
            texts.push(format!("{text}{}", "\n".repeat(fill)));
            texts.push("7".repeat(length));
        }
    }
    texts.into_iter().map(String::into_bytes).collect()
}

/// Texts with up to as many steps as they can have.
pub fn many_steps() -> Vec<Vec<u8>> {
    let rest = "0 1 0 0 0 0 0 0";
    let counts = [1, 2, 3, 4, 5, 6, 100, 1000, 2000, 2036, 2037, 2038, 2039, 2040, 2047, 2048, 2049];
    let text = |count: usize| {
        let last = |word: &str| format!("3 1\n{}{word}\n{rest}", "1 ".repeat(count - 1));
        ["1", "2", "x", "2147483648"].map(|word| last(word).into_bytes())
    };
    counts.into_iter().flat_map(text).collect()
}

/// Some texts in which one byte, at a place that is drawn, is each byte in turn.
pub fn replaced(random: &mut Random, count: usize) -> Vec<Vec<u8>> {
    let mut texts = Vec::new();
    for place in 0..count {
        let text = LISTED[place % LISTED.len()].as_bytes();
        let index = random.place(text.len());
        for byte in 0..=255 {
            let mut text = text.to_vec();
            text[index] = byte;
            texts.push(text);
        }
    }
    texts
}

/// So many texts, each a good one with up to four bytes put in, left out or replaced.
pub fn edited(random: &mut Random, count: usize) -> Vec<Vec<u8>> {
    let alphabet = b"  --00123456789\n\n\t+.x\0";
    let layouts = allowed_layouts();
    let text = |_| {
        let layout = random.pick(&layouts);
        let mut text = good(random, layout).into_bytes();
        for _ in 0..random.between(1, 4) {
            let (index, byte) = (random.place(text.len()), random.pick(alphabet));
            match random.below(3) {
                0 => text.insert(index, byte),
                1 => drop(text.remove(index)),
                _ => text[index] = byte,
            }
        }
        text
    };
    (0..count).map(text).collect()
}
