//! Why nothing was done.

use std::error::Error;
use std::fmt;

/// Why a contour, or a run of it, is refused.
///
/// Where several reasons hold, the first in the order of the entry that is called is given: `docs/REFUSALS.md`, at the
/// repository's top, has the order of each in one table.
#[derive(Clone, Copy, Debug, PartialEq, Eq, Hash)]
#[non_exhaustive]
pub enum Refusal {
    /// 1: the rows of a contour differ in length. This crate's functions never lend such rows.
    UnevenRows,
    /// 2: the contour has no point.
    NoPoint,
    /// 3: the contour has more than [`MOST_POINTS_IN`](crate::MOST_POINTS_IN) points.
    TooManyPoints,
    /// 4: the first point is off-curve.
    StartsOffCurve,
    /// 5: two neighbours are both off-curve. The last point and the first are no neighbours. Of cubics: a stretch
    /// of off-curve points is not two long.
    OffCurveNeighbours,
    /// 6: a run needs more than [`SAMPLE_ROOM`](crate::SAMPLE_ROOM) samples.
    TooManySamples,
    /// 7: a run has more than [`BREAK_ROOM`](crate::BREAK_ROOM) breaks.
    TooManyBreaks,
    /// 8: a sample is asked for at the last stored place, where the Rust that this follows would stop.
    PastLastSample,
    /// 9: the result, counted before implied points are dropped, has more points than the cruncher has room
    /// for. [`Cruncher::with_point_room`](crate::Cruncher::with_point_room) gives more.
    OutputTooShort,
    /// 10: there is no such run, or it is one copied line.
    NoSuchRun,
    /// 11: the index is not below the number of segments.
    NoSuchSegment,
    /// 12: a glyph description ends too soon, or there are fewer points than the last end says.
    CutShort,
    /// 13: the ends of a glyph's contours do not rise.
    EndsNotRising,
    /// 14: a coordinate that is read, or a difference or a count that is to be written, is too large for its
    /// field.
    TooLarge,
    /// 15: the glyph is composite.
    Composite,
    /// 16: the penalty is not from 1 to 256.
    NoSuchPenalty,
    /// 17: a rounded point is outside 16 bits; cubics only.
    Outside16Bits,
    /// 18: there are more drops than the list has places. This crate's functions always lend enough.
    ListTooShort,
    /// 19: the file is malformed; GLIF only.
    Malformed,
    /// 20: a point is cubic or not whole, or a contour is open; GLIF only.
    CubicOrOpen,
    /// 21: a contour has no on-curve point; GLIF, and where implied points are written out.
    NoOnCurve,
    /// A number that this crate has no name for: the library is newer than the crate.
    Other(u32),
}

impl Refusal {
    /// The refusal's number, the same in every program over the library.
    pub const fn number(self) -> u32 {
        match self {
            Refusal::UnevenRows => 1,
            Refusal::NoPoint => 2,
            Refusal::TooManyPoints => 3,
            Refusal::StartsOffCurve => 4,
            Refusal::OffCurveNeighbours => 5,
            Refusal::TooManySamples => 6,
            Refusal::TooManyBreaks => 7,
            Refusal::PastLastSample => 8,
            Refusal::OutputTooShort => 9,
            Refusal::NoSuchRun => 10,
            Refusal::NoSuchSegment => 11,
            Refusal::CutShort => 12,
            Refusal::EndsNotRising => 13,
            Refusal::TooLarge => 14,
            Refusal::Composite => 15,
            Refusal::NoSuchPenalty => 16,
            Refusal::Outside16Bits => 17,
            Refusal::ListTooShort => 18,
            Refusal::Malformed => 19,
            Refusal::CubicOrOpen => 20,
            Refusal::NoOnCurve => 21,
            Refusal::Other(number) => number,
        }
    }

    /// The refusal of that number. None for 0, by which the library says that nothing is refused.
    pub const fn from_number(number: u32) -> Option<Refusal> {
        Some(match number {
            0 => return None,
            1 => Refusal::UnevenRows,
            2 => Refusal::NoPoint,
            3 => Refusal::TooManyPoints,
            4 => Refusal::StartsOffCurve,
            5 => Refusal::OffCurveNeighbours,
            6 => Refusal::TooManySamples,
            7 => Refusal::TooManyBreaks,
            8 => Refusal::PastLastSample,
            9 => Refusal::OutputTooShort,
            10 => Refusal::NoSuchRun,
            11 => Refusal::NoSuchSegment,
            12 => Refusal::CutShort,
            13 => Refusal::EndsNotRising,
            14 => Refusal::TooLarge,
            15 => Refusal::Composite,
            16 => Refusal::NoSuchPenalty,
            17 => Refusal::Outside16Bits,
            18 => Refusal::ListTooShort,
            19 => Refusal::Malformed,
            20 => Refusal::CubicOrOpen,
            21 => Refusal::NoOnCurve,
            other => Refusal::Other(other),
        })
    }

    const fn explanation(self) -> &'static str {
        match self {
            Refusal::UnevenRows => "the rows of the contour differ in length",
            Refusal::NoPoint => "the contour has no point",
            Refusal::TooManyPoints => "the contour has more than 1,024 points",
            Refusal::StartsOffCurve => "the first point is off-curve; start with an on-curve one",
            Refusal::OffCurveNeighbours => {
                "off-curve points stand together; write out the implied point between two (cubics: pairs alone)"
            }
            Refusal::TooManySamples => {
                "a run between two corners is too long: it needs more than 16,384 samples, one a unit"
            }
            Refusal::TooManyBreaks => {
                "a run between two corners is too long: it has more than 2,048 breaks, half a unit or a whole one apart"
            }
            Refusal::PastLastSample => {
                "a piece was to be measured past the last sample of its run, where no answer is defined"
            }
            Refusal::OutputTooShort => "the result has more points than there is room for",
            Refusal::NoSuchRun => "there is no such run, or it is one line, which is copied",
            Refusal::NoSuchSegment => "there is no such segment: the index is not below their number",
            Refusal::CutShort => {
                "the glyph description ends too soon, or there are fewer points than the last end says"
            }
            Refusal::EndsNotRising => "the ends of the glyph's contours do not rise",
            Refusal::TooLarge => "a coordinate, a difference or a count is too large for its field",
            Refusal::Composite => "the glyph is composite",
            Refusal::NoSuchPenalty => "the penalty is not from 1 to 256 sixteenths",
            Refusal::Outside16Bits => "a point of the quads is outside -32768 and 32767",
            Refusal::ListTooShort => "there are more dropped points than the list has places",
            Refusal::Malformed => "the file is no GLIF by docs/GLIF.md",
            Refusal::CubicOrOpen => "a point is cubic or not whole, or a contour is open",
            Refusal::NoOnCurve => "a contour has no on-curve point",
            Refusal::Other(_) => "the library gives a reason that this version has no words for",
        }
    }
}

impl fmt::Display for Refusal {
    fn fmt(&self, f: &mut fmt::Formatter<'_>) -> fmt::Result {
        write!(f, "refused {}: {}", self.number(), self.explanation())
    }
}

impl Error for Refusal {}

#[cfg(test)]
mod tests {
    use super::*;

    #[test]
    fn numbers_and_names_belong_together() {
        for number in 1..=22 {
            let refusal = Refusal::from_number(number).unwrap();
            assert_eq!(refusal.number(), number);
        }
        assert_eq!(Refusal::from_number(0), None);
        assert_eq!(Refusal::from_number(3), Some(Refusal::TooManyPoints));
        assert_eq!(Refusal::from_number(10), Some(Refusal::NoSuchRun));
        assert_eq!(Refusal::from_number(11), Some(Refusal::NoSuchSegment));
        assert_eq!(Refusal::from_number(16), Some(Refusal::NoSuchPenalty));
        assert_eq!(Refusal::from_number(99), Some(Refusal::Other(99)));
    }

    #[test]
    fn each_says_its_number_and_a_reason_of_its_own() {
        let numbers = 1..=18;
        let said: Vec<String> =
            numbers.clone().map(|n| Refusal::from_number(n).unwrap().to_string()).collect();
        for (number, text) in numbers.zip(&said) {
            assert!(text.starts_with(&format!("refused {number}: ")), "{text}");
            let reason = |t: &str| t.split_once(": ").unwrap().1.to_owned();
            assert!(said.iter().filter(|t| reason(t) == reason(text)).count() == 1, "{text}");
        }
    }
}
