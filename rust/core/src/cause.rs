// Made by tools/erase of crates/duration_str_base/src/cause.rt.
//! Why a text is refused: the cause, its line, and what could stand at the place of a syntax fault.

use crate::operator::CondUnit;

/// What could stand at the place of a syntax fault. Each field says whether one kind of item could
/// stand there.
///
/// ```
/// use duration_str::{Cause, Options, parse_with};
///
/// let cause = parse_with("1m+", Options::off()).unwrap_err().cause();
/// assert!(matches!(
///     cause,
///     Cause::Syntax { place: 3, expected } if expected.number && !expected.text_end
/// ));
/// ```
#[derive(Clone, Copy, Debug, PartialEq, Eq, Hash)]
#[non_exhaustive]
pub struct Expected {
    /// A number.
    pub number: bool,
    /// A word that names a unit.
    pub unit_word: bool,
    /// `+` or `*`.
    pub operator: bool,
    /// The end of the text.
    pub text_end: bool,
}

/// Why a text or another value is refused. A place is a byte offset in the text.
///
/// ```
/// use duration_str::{Cause, Options, parse_with};
///
/// assert_eq!(parse_with("", Options::off()).unwrap_err().cause(), Cause::Empty);
/// ```
#[derive(Clone, Copy, Debug, PartialEq, Eq, Hash)]
#[non_exhaustive]
pub enum Cause {
    /// The text is empty.
    Empty,
    /// The text doesn't follow the grammar.
    Syntax {
        /// The byte offset of the first token that can't follow the text before it. If there is no
        /// such token, the place is the length of the text.
        place: usize,
        /// What could stand at `place`.
        expected: Expected,
    },
    /// A number is 2^64 or more.
    NumberTooLarge {
        /// 0 if it is the first number of a text that was read, and otherwise `None`.
        place: Option<usize>,
    },
    /// A term, a step of the evaluation or the value is 2^64 nanoseconds or more.
    Overflow {
        /// 0 if the first term of a text that was read is too large, and otherwise `None`.
        place: Option<usize>,
    },
    /// A sum and a product are mixed: the operator `later` follows `first`, and differs from it. An
    /// operator that is left out is a plus.
    Mixed {
        /// The first operator.
        first: CondUnit,
        /// The first operator that differs from `first`.
        later: CondUnit,
    },
    /// The date is out of range.
    OutOfRange,
    /// A configuration value is not a text, or bytes are not UTF-8.
    #[doc(hidden)]
    NotText {
        /// Whether the value may be missing.
        optional: bool,
    },
}

impl Cause {
    /// Returns the byte offset of the fault, if the cause has one: the place of a syntax fault, or
    /// 0 if the first term of a text that was read is too large.
    ///
    /// In a `Fault` the offset is a character boundary within the text.
    ///
    /// ```
    /// use duration_str::{Options, parse_with};
    ///
    /// let place = |text| parse_with(text, Options::off()).unwrap_err().cause().place();
    /// assert_eq!(place("1m 3-5"), Some(4));
    /// assert_eq!(place("580y*2"), None);
    /// ```
    #[must_use]
    pub const fn place(self) -> Option<usize> {
        match self {
            Cause::Syntax { place, .. } => Some(place),
            Cause::NumberTooLarge { place } | Cause::Overflow { place } => place,
            Cause::Empty | Cause::Mixed { .. } | Cause::OutOfRange | Cause::NotText { .. } => None,
        }
    }

    /// Returns the last line of the message that `duration-str` 0.19.0 has for this cause. The line
    /// of a refusal, which `Fault::write_one_line` writes, says more.
    ///
    /// ```
    /// assert_eq!(duration_str::Cause::Empty.line(), "Empty input");
    /// ```
    #[must_use]
    pub const fn line(self) -> &'static str {
        match self {
            Cause::Empty => "Empty input",
            Cause::Syntax { expected, .. } => {
                if expected.unit_word {
                    r#"expected ["y", "q", "mon", "w", "d", "h", "m", "s", "ms", "µs", "us", "ns"]"#
                } else if expected.operator {
                    "expected ['+', '*']"
                } else {
                    "expected number"
                }
            }
            Cause::NumberTooLarge { .. } => "number too large to fit in target type",
            Cause::Overflow { .. } => "overflow error",
            // No text is refused for two equal operators, but a caller can make such a cause.
            Cause::Mixed { first, later } => match (first, later) {
                (CondUnit::Plus, CondUnit::Plus) => "not support '+' with '+' calculate",
                (CondUnit::Plus, CondUnit::Star) => "not support '+' with '*' calculate",
                (CondUnit::Star, CondUnit::Plus) => "not support '*' with '+' calculate",
                (CondUnit::Star, CondUnit::Star) => "not support '*' with '*' calculate",
            },
            Cause::OutOfRange => "date out of range",
            Cause::NotText { optional: true } => "expect duration string, null, or missing field",
            Cause::NotText { optional: false } => "expect duration string, e.g: '1min+30'",
        }
    }
}
