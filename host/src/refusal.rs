//! Refusals: a number with its word, and a place.

use std::fmt;

/// What is refused, by its word, or for 19, which has none, by what is refused; with each, what the place is. The number is
/// `kind.number()`. Later versions may have more kinds.
///
/// ```
/// use fervoulk::Kind;
/// assert_eq!(Kind::Bounds.number(), 7);
/// assert_eq!(Kind::Bounds.word(), "bounds");
/// ```
#[derive(Clone, Copy, Debug, PartialEq, Eq, Hash)]
#[repr(u32)]
#[non_exhaustive]
pub enum Kind {
    /// A network word has a wrong form, or a bus number is too high: the first such word, 0 for an empty list.
    Words = 1,
    /// A limit is passed: the word that passes it, 0 where there is no bus. In row values: the beginning word of shared part 4,352.
    Size,
    /// The number list does not have the needed length: that length.
    Count,
    /// A required number is not finite: its index.
    Blank,
    /// A curve's power is not above the one before: its index.
    Curve,
    /// A shift is outside -1,024 to 1,024: its index.
    Shift,
    /// An active bound is not finite, or lower is above upper: the column.
    Bounds,
    /// An active angle bound is not finite, or lower is above upper: the branch.
    Spread,
    /// An active s_max is not finite or below 0: the branch.
    Rating,
    /// The square of an active s_max is not finite: the branch.
    Square,
    /// A constant, the objective constant or a start is not finite: its index in these, one after the other.
    Factor,
    /// A written list is too short: its number, from 1. The functions of this crate size their lists, so that they never give it.
    Short,
    /// The point has a wrong length: the number of columns. Else a number of it is not finite: the first such column.
    Point,
    /// A voltage angle is outside -1,024 to 1,024: the column. In row values an argument of a sine or cosine is not finite or outside
    /// -4,096 to 4,096: the beginning word of its part of the file.
    Swing,
    /// An output is not finite: its index. With n buses and m branches, 2n + 4m stands for the solver's objective and 2n + 4m + 1 for the
    /// check's own.
    Derived,
    /// A residual is above its own tolerance: the first, from 1.
    Residual,
    /// The model's words are wrong: the first wrong word, the length where they run out, the end word where constants are left over.
    Model,
    /// There is no such row: the number of rows.
    Row,
    /// The value of a shared part, a row or the objective is not finite: the beginning word of that part of the file.
    Value,
    /// The list of tolerances does not have eight: 0. Else a tolerance is not finite or below 0: the first, from 1. The functions of this
    /// crate lend eight, so that they never give 0.
    Tolerance,
}

impl Kind {
    /// All kinds, in order of their numbers, from 1.
    ///
    /// ```
    /// use fervoulk::Kind;
    /// assert_eq!(Kind::ALL[6], Kind::Bounds);
    /// ```
    pub const ALL: &'static [Kind] = &[
        Kind::Words,
        Kind::Size,
        Kind::Count,
        Kind::Blank,
        Kind::Curve,
        Kind::Shift,
        Kind::Bounds,
        Kind::Spread,
        Kind::Rating,
        Kind::Square,
        Kind::Factor,
        Kind::Short,
        Kind::Point,
        Kind::Swing,
        Kind::Derived,
        Kind::Residual,
        Kind::Model,
        Kind::Row,
        Kind::Value,
        Kind::Tolerance,
    ];

    /// The kind that has this number, where there is one.
    ///
    /// ```
    /// use fervoulk::Kind;
    /// assert_eq!(Kind::of(16), Some(Kind::Residual));
    /// assert_eq!(Kind::of(0), None);
    /// ```
    pub fn of(number: u32) -> Option<Kind> {
        Kind::ALL.iter().copied().find(|kind| kind.number() == number)
    }

    /// The number that a controller shows.
    ///
    /// ```
    /// assert_eq!(fervoulk::Kind::Row.number(), 18);
    /// ```
    pub fn number(self) -> u32 {
        self as u32
    }

    /// The word that stands beside the number, empty for 19: the papers give it none.
    ///
    /// ```
    /// assert_eq!(fervoulk::Kind::Swing.word(), "swing");
    /// assert_eq!(fervoulk::Kind::Value.word(), "");
    /// ```
    pub fn word(self) -> &'static str {
        match self {
            Kind::Words => "words",
            Kind::Size => "size",
            Kind::Count => "count",
            Kind::Blank => "blank",
            Kind::Curve => "curve",
            Kind::Shift => "shift",
            Kind::Bounds => "bounds",
            Kind::Spread => "spread",
            Kind::Rating => "rating",
            Kind::Square => "square",
            Kind::Factor => "factor",
            Kind::Short => "short",
            Kind::Point => "point",
            Kind::Swing => "swing",
            Kind::Derived => "derived",
            Kind::Residual => "residual",
            Kind::Model => "model",
            Kind::Row => "row",
            Kind::Value => "",
            Kind::Tolerance => "tolerance",
        }
    }
}

/// A refusal: a number and a place. It is shown as number, word and place, without the word where the number has none.
///
/// ```
/// use fervoulk::{compile, Kind, Refusal};
/// let refusal = compile(&[], &[]).unwrap_err();
/// assert_eq!(refusal, Refusal::new(Kind::Words, 0));
/// assert_eq!(refusal.to_string(), "1 words 0");
/// ```
#[derive(Clone, Copy, Debug, PartialEq, Eq, Hash)]
pub struct Refusal {
    number: u32,
    place: u32,
}

impl Refusal {
    /// A refusal of this kind at this place.
    ///
    /// ```
    /// use fervoulk::{Kind, Refusal};
    /// assert_eq!(Refusal::new(Kind::Row, 3).to_string(), "18 row 3");
    /// ```
    pub fn new(kind: Kind, place: u32) -> Refusal {
        Refusal { number: kind.number(), place }
    }

    /// From an answer of the C boundary, number times 2 to the power 32 plus place; nothing where nothing is refused.
    pub(crate) fn of(answer: u64) -> Option<Refusal> {
        let refusal = Refusal { number: (answer >> 32) as u32, place: answer as u32 };
        if refusal.number == 0 {
            return None;
        }
        Some(refusal)
    }

    /// The number.
    ///
    /// ```
    /// use fervoulk::{Kind, Refusal};
    /// assert_eq!(Refusal::new(Kind::Count, 17).number(), 3);
    /// ```
    pub fn number(self) -> u32 {
        self.number
    }

    /// Where the fault is. `u32::MAX` stands for itself and for every larger place: the C boundary gives no larger one.
    ///
    /// ```
    /// use fervoulk::{Kind, Refusal};
    /// assert_eq!(Refusal::new(Kind::Count, 17).place(), 17);
    /// ```
    pub fn place(self) -> u32 {
        self.place
    }

    /// The kind, or nothing where archives newer than this crate give a number that it does not know.
    ///
    /// ```
    /// use fervoulk::{Kind, Refusal};
    /// assert_eq!(Refusal::new(Kind::Count, 17).kind(), Some(Kind::Count));
    /// ```
    pub fn kind(self) -> Option<Kind> {
        Kind::of(self.number)
    }

    /// The word, empty where the number has none, "unknown" for a number that this crate does not know.
    ///
    /// ```
    /// use fervoulk::{Kind, Refusal};
    /// assert_eq!(Refusal::new(Kind::Count, 17).word(), "count");
    /// ```
    pub fn word(self) -> &'static str {
        self.kind().map_or("unknown", Kind::word)
    }
}

impl fmt::Display for Refusal {
    fn fmt(&self, f: &mut fmt::Formatter<'_>) -> fmt::Result {
        match self.word() {
            "" => write!(f, "{} {}", self.number(), self.place()),
            word => write!(f, "{} {word} {}", self.number(), self.place()),
        }
    }
}

impl std::error::Error for Refusal {}

#[cfg(test)]
mod tests {
    use super::*;

    #[test]
    fn numbers_are_places_in_all() {
        for (i, kind) in Kind::ALL.iter().enumerate() {
            assert_eq!(kind.number() as usize, i + 1);
        }
    }

    #[test]
    fn answers() {
        assert_eq!(Refusal::of(0), None);
        assert_eq!(Refusal::of((7 << 32) + 2), Some(Refusal::new(Kind::Bounds, 2)));
        assert_eq!(Refusal::of((18 << 32) + 0xffff_ffff), Some(Refusal::new(Kind::Row, u32::MAX)));
        assert_eq!(Refusal::of((19 << 32) + 3), Some(Refusal::new(Kind::Value, 3)));
        assert_eq!(Refusal::of((20 << 32) + 8), Some(Refusal::new(Kind::Tolerance, 8)));
    }

    #[test]
    fn a_number_without_a_word() {
        assert_eq!(Refusal::new(Kind::Value, 3).to_string(), "19 3");
    }

    #[test]
    fn a_number_that_is_not_known() {
        let refusal = Refusal::of((99 << 32) + 5).expect("a refusal");
        assert_eq!((refusal.number(), refusal.place(), refusal.kind()), (99, 5, None));
        assert_eq!(refusal.to_string(), "99 unknown 5");
    }
}
