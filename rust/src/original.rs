//! The calls of `duration-str` 0.19.0 that read a text. They return the message of a fault.
use crate::parser::parse_with;
use alloc::string::String;
use core::time::Duration;
use duration_str_core::Options;

/// The calls of `duration-str` 0.19.0 read under these options.
pub(crate) const FEATURES: Options = Options {
    no_calc: cfg!(feature = "no_calc"),
    lowercase: cfg!(feature = "lowercase"),
    cn_unit: cfg!(feature = "cn_unit"),
};

#[inline]
fn read(text: &str) -> Result<Duration, String> {
    match parse_with(text, FEATURES) {
        Ok(duration) => Ok(duration),
        Err(fault) => Err(fault.message()),
    }
}

/// Reads a text under the options that the crate's features turn on, and returns its duration.
///
/// ```
/// use duration_str::parse;
/// use std::time::Duration;
///
/// assert_eq!(parse("3m 13s 29ms"), Ok(Duration::from_millis(193_029)));
/// assert_eq!(parse("1d"), Ok(Duration::from_secs(86_400)));
/// // A number without a unit counts seconds.
/// assert_eq!(parse("3m 31"), Ok(Duration::from_secs(211)));
/// assert_eq!(parse("600y").unwrap_err(), "600y\n^\noverflow error");
/// ```
///
/// Unless the feature `no_calc` is on, `+` adds terms, and `*` multiplies them in seconds:
///
#[cfg_attr(feature = "no_calc", doc = "```ignore")]
#[cfg_attr(not(feature = "no_calc"), doc = "```")]
/// # use duration_str::parse;
/// # use std::time::Duration;
/// assert_eq!(parse("3m + 13s + 29ms"), Ok(Duration::from_millis(193_029)));
/// assert_eq!(parse("1m * 10ms"), Ok(Duration::from_millis(600)));
/// assert!(parse("1m + 2 * 3").is_err());
/// ```
///
/// # Errors
///
/// Returns the fault's message of up to three lines.
pub fn parse(input: impl AsRef<str>) -> Result<Duration, String> {
    read(input.as_ref())
}

/// Reads a text as [`parse`] does.
///
/// # Errors
///
/// Returns the fault's message of up to three lines.
///
/// ```
/// assert_eq!(duration_str::parse_std("2h 37m"), Ok(std::time::Duration::from_secs(9_420)));
/// ```
pub fn parse_std(input: impl AsRef<str>) -> Result<Duration, String> {
    read(input.as_ref())
}

/// Reads a text as [`parse`] does, into a duration of `chrono`.
///
/// This call needs the feature `chrono`.
///
/// # Errors
///
/// Returns the fault's message of up to three lines.
///
/// ```
/// assert_eq!(duration_str::parse_chrono("2h 37m"), Ok(chrono::Duration::minutes(157)));
/// ```
#[cfg(feature = "chrono")]
pub fn parse_chrono(input: impl AsRef<str>) -> Result<chrono::Duration, String> {
    read(input.as_ref()).map(chrono_of)
}

#[cfg(feature = "chrono")]
pub(crate) fn chrono_of(length: Duration) -> chrono::Duration {
    chrono::Duration::from_std(length)
        .expect("a value is below 2^64 nanoseconds, 584 years, and chrono's durations go beyond")
}

/// Reads a text as [`parse`] does, into a duration of `time`.
///
/// This call needs the feature `time`.
///
/// # Errors
///
/// Returns the fault's message of up to three lines.
///
/// ```
/// assert_eq!(duration_str::parse_time("2h 37m"), Ok(time::Duration::minutes(157)));
/// ```
#[cfg(feature = "time")]
pub fn parse_time(input: impl AsRef<str>) -> Result<time::Duration, String> {
    read(input.as_ref()).map(time_of)
}

#[cfg(feature = "time")]
pub(crate) fn time_of(length: Duration) -> time::Duration {
    time::Duration::try_from(length)
        .expect("2^64 nanoseconds are 584 years, and time's durations go beyond")
}
