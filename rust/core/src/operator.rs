// Made by tools/erase of crates/duration_str_base/src/operator.rt.
//! The operators.

use core::fmt;

/// An operator between two terms.
///
/// ```
/// assert_eq!(duration_str::CondUnit::Star.to_string(), "*");
/// ```
#[derive(Clone, Copy, Debug, PartialEq, Eq, Hash)]
pub enum CondUnit {
    /// `+`
    Plus,
    /// `*`
    Star,
}

impl CondUnit {
    /// Returns the operator that a character stands for, if any.
    ///
    /// ```
    /// use duration_str::CondUnit;
    ///
    /// assert_eq!(CondUnit::from_char('+'), Some(CondUnit::Plus));
    /// assert_eq!(CondUnit::from_char('-'), None);
    /// ```
    #[must_use]
    pub const fn from_char(c: char) -> Option<CondUnit> {
        match c {
            '+' => Some(CondUnit::Plus),
            '*' => Some(CondUnit::Star),
            _ => None,
        }
    }
}

/// Prints `+` or `*`.
impl fmt::Display for CondUnit {
    fn fmt(&self, f: &mut fmt::Formatter<'_>) -> fmt::Result {
        f.pad(match self {
            CondUnit::Plus => "+",
            CondUnit::Star => "*",
        })
    }
}
