//! The structs of the C boundary, and each expected answer in the library's form.

use second::lattice::Point;
use second::layers::Settings;
use second::readings::{value_of_units, Taken};
use second::records::Reported;
use second::refusals::{Answer, Refusal, MISSING, OUT_OF_RANGE};
use second::stores::Hour;

/// The header's `ek_settings`.
#[repr(C)]
pub struct LentSettings {
    q: i32,
    m: i32,
}

impl From<Settings> for LentSettings {
    /// Settings in the library's form.
    fn from(Settings { q, m }: Settings) -> Self {
        LentSettings { q, m }
    }
}

/// A binary32 that is equal to another only bit by bit.
#[repr(transparent)]
#[derive(Clone, Copy, Debug)]
pub struct Single(f32);

impl Single {
    /// The number itself.
    pub fn value(self) -> f32 {
        self.0
    }
}

impl PartialEq for Single {
    /// Whether all bits are the same.
    fn eq(&self, other: &Self) -> bool {
        self.0.to_bits() == other.0.to_bits()
    }
}

/// The header's `ek_taken`.
#[repr(C)]
#[derive(Clone, Copy, Debug, PartialEq)]
pub struct TakenAnswer {
    number: u64,
    value: Single,
}

impl From<Taken> for TakenAnswer {
    /// The expected taking in the library's form.
    fn from(taken: Taken) -> Self {
        let (number, value) = match taken {
            Taken::Units(x) => (0, value_of_units(x)),
            Taken::Missing => (MISSING, 0.0),
            Taken::OutOfRange => (OUT_OF_RANGE, 0.0),
        };
        TakenAnswer { number, value: Single(value) }
    }
}

/// The header's `ek_point`.
#[repr(C)]
#[derive(Clone, Copy, Debug, PartialEq, Eq)]
pub struct PointAnswer {
    number: u64,
    place: u64,
    /// The point, or zeros with a refusal.
    pub e: [i32; 8],
}

impl From<Answer<Point>> for PointAnswer {
    /// The expected point in the library's form.
    fn from(answer: Answer<Point>) -> Self {
        let (Refusal { number, place }, e) = parted(answer, [0; 8]);
        PointAnswer { number, place, e: e.map(|e| i32::try_from(e).expect("a point fits 32 bits")) }
    }
}

/// The header's `ek_answer`.
#[repr(C)]
#[derive(Clone, Copy, Debug, PartialEq, Eq)]
pub struct ValueAnswer {
    number: u64,
    place: u64,
    /// The score, or the number of bytes or entries written, or 0 with a refusal.
    pub value: i64,
}

impl From<Answer<i64>> for ValueAnswer {
    /// The expected score in the library's form.
    fn from(answer: Answer<i64>) -> Self {
        let (Refusal { number, place }, value) = parted(answer, 0);
        ValueAnswer { number, place, value }
    }
}

impl From<Answer<usize>> for ValueAnswer {
    /// The expected number of bytes or entries in the library's form.
    fn from(answer: Answer<usize>) -> Self {
        answer.map(|written| written as i64).into()
    }
}

/// The header's `ek_hour`.
#[repr(C)]
#[derive(Clone, Copy, Debug, PartialEq, Eq)]
pub struct HourAnswer {
    number: u64,
    place: u64,
    hour: u64,
    score: i64,
}

impl From<Answer<Hour>> for HourAnswer {
    /// The expected hour in the library's form.
    fn from(answer: Answer<Hour>) -> Self {
        let (Refusal { number, place }, Hour { hour, score }) = parted(answer, Hour { hour: 0, score: 0 });
        HourAnswer { number, place, hour, score }
    }
}

/// The header's `ek_reading`.
#[repr(C)]
#[derive(Clone, Copy, Debug, PartialEq)]
pub struct ReadingAnswer {
    taken: Single,
    /// The reading as decoded.
    pub decoded: Single,
    difference: Single,
}

impl From<Reported> for ReadingAnswer {
    /// What is expected of one reading in the library's form.
    fn from(Reported { taken, decoded, difference }: Reported) -> Self {
        ReadingAnswer { taken: Single(taken), decoded: Single(decoded), difference: Single(difference) }
    }
}

/// The header's `ek_report_answer`.
#[repr(C)]
#[derive(Clone, Copy, Debug, PartialEq)]
pub struct ReportAnswer {
    number: u64,
    place: u64,
    /// The eight readings, or zeros with a refusal.
    pub reading: [ReadingAnswer; 8],
}

impl From<Answer<[Reported; 8]>> for ReportAnswer {
    /// The expected report in the library's form.
    fn from(answer: Answer<[Reported; 8]>) -> Self {
        let nothing = Reported { taken: 0.0, decoded: 0.0, difference: 0.0 };
        let (Refusal { number, place }, reported) = parted(answer, [nothing; 8]);
        ReportAnswer { number, place, reading: reported.map(ReadingAnswer::from) }
    }
}

/// An answer as the library gives it: number and place 0 with a value, or a refusal with nothing for a value.
fn parted<V>(answer: Answer<V>, nothing: V) -> (Refusal, V) {
    match answer {
        Ok(value) => (Refusal { number: 0, place: 0 }, value),
        Err(refusal) => (refusal, nothing),
    }
}
