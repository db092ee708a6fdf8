use crate::error::DurationError;
use crate::fault::Fault;
use alloc::string::String;
use core::fmt;

/// The error type of `duration-str` 0.19.0. It says why a text is refused, and does not contain
/// the text.
///
/// ```
/// use duration_str::{parse_with, DError, DResult, Options};
/// use std::time::Duration;
///
/// fn timeout(text: &str) -> DResult<Duration> {
///     Ok(parse_with(text, Options::off())?)
/// }
///
/// assert_eq!(timeout("600y"), Err(DError::OverflowError));
/// assert_eq!(timeout(""), Err(DError::ParseError("Empty input".to_string())));
/// ```
#[derive(Clone, Debug, PartialEq, Eq, Hash)]
pub enum DError {
    /// Any fault except an overflow, with the line that [`Cause::line`](crate::Cause::line)
    /// returns.
    ParseError(String),
    /// A term, a step of the evaluation or the value is 2^64 nanoseconds or more.
    OverflowError,
}

/// The result of a call whose error is [`DError`].
pub type DResult<T> = Result<T, DError>;

impl fmt::Display for DError {
    fn fmt(&self, f: &mut fmt::Formatter<'_>) -> fmt::Result {
        match self {
            DError::ParseError(line) => f.write_str(line),
            DError::OverflowError => f.write_str("overflow error"),
        }
    }
}

impl core::error::Error for DError {}

impl From<Fault<'_>> for DError {
    fn from(fault: Fault<'_>) -> DError {
        fault.to_derror()
    }
}

impl From<DurationError> for DError {
    fn from(fault: DurationError) -> DError {
        fault.as_fault().to_derror()
    }
}
