//! Moments that lie before or after another moment, computed by chrono's own checked arithmetic.
//!
//! All calls are also at the root of the crate, where `duration-str` 0.19.0 has the four that start
//! from now. This module needs the feature `chrono`.
use crate::fault::Fault;
use crate::original::{FEATURES, chrono_of};
use crate::parser::parse_with;
use alloc::string::String;
use chrono::{NaiveDate, NaiveDateTime, Utc};
use duration_str_core::{Cause, Options, Rules};

/// Adds the value of a text to the given moment, and returns the sum. A [`NaiveDateTime`] has no
/// time zone.
///
/// # Errors
///
/// Returns the fault of the text, or one with the cause [`Cause::OutOfRange`] if chrono can't
/// represent the moment.
///
/// ```
/// use chrono::NaiveDate;
/// use duration_str::{Options, moment_after};
///
/// let noon = NaiveDate::from_ymd_opt(2000, 2, 28).unwrap().and_hms_opt(12, 0, 0).unwrap();
/// let due = moment_after(noon, "1d 1h", Options::off())?;
/// assert_eq!(due.to_string(), "2000-02-29 13:00:00");
/// # Ok::<(), duration_str::Fault<'_>>(())
/// ```
pub fn moment_after(
    moment: NaiveDateTime,
    input: &str,
    options: Options,
) -> Result<NaiveDateTime, Fault<'_>> {
    let length = chrono_of(parse_with(input, options)?);
    moment
        .checked_add_signed(length)
        .ok_or(Fault::of(input, Cause::OutOfRange, Rules::of(options)))
}

/// Subtracts the value of a text from the given moment, and returns the difference.
///
/// # Errors
///
/// Returns the fault of the text, or one with the cause [`Cause::OutOfRange`] if chrono can't
/// represent the moment.
///
/// ```
/// use chrono::NaiveDate;
/// use duration_str::{Options, moment_before};
///
/// let midnight = NaiveDate::from_ymd_opt(2000, 3, 1).unwrap().and_hms_opt(0, 0, 0).unwrap();
/// let past = moment_before(midnight, "1d", Options::off())?;
/// assert_eq!(past.to_string(), "2000-02-29 00:00:00");
/// # Ok::<(), duration_str::Fault<'_>>(())
/// ```
pub fn moment_before(
    moment: NaiveDateTime,
    input: &str,
    options: Options,
) -> Result<NaiveDateTime, Fault<'_>> {
    let length = chrono_of(parse_with(input, options)?);
    moment
        .checked_sub_signed(length)
        .ok_or(Fault::of(input, Cause::OutOfRange, Rules::of(options)))
}

/// Adds the value of a text to the present moment, and returns the sum, a moment in UTC.
/// [`parse`](crate::parse) reads the text.
///
/// # Errors
///
/// Returns the message of the text's fault, or of a date out of range.
///
/// ```
/// use chrono::{Duration, Utc};
///
/// let due = duration_str::after_naive_date_time("180d")?;
/// let left = due - Utc::now().naive_utc();
/// assert!(Duration::days(179) < left && left <= Duration::days(180));
/// # Ok::<(), String>(())
/// ```
pub fn after_naive_date_time(input: impl AsRef<str>) -> Result<NaiveDateTime, String> {
    moment_after(now(), input.as_ref(), FEATURES).map_err(|fault| fault.message())
}

/// Subtracts the value of a text from the present moment, and returns the difference, a moment in
/// UTC.
/// [`parse`](crate::parse) reads the text.
///
/// # Errors
///
/// Returns the message of the text's fault, or of a date out of range.
///
/// ```
/// use chrono::{Duration, Utc};
///
/// let past = duration_str::before_naive_date_time("180d")?;
/// let gone = Utc::now().naive_utc() - past;
/// assert!(Duration::days(180) <= gone && gone < Duration::days(181));
/// # Ok::<(), String>(())
/// ```
pub fn before_naive_date_time(input: impl AsRef<str>) -> Result<NaiveDateTime, String> {
    moment_before(now(), input.as_ref(), FEATURES).map_err(|fault| fault.message())
}

/// Returns the date of the moment that [`after_naive_date_time`] returns.
///
/// # Errors
///
/// Returns the message of the text's fault, or of a date out of range.
///
/// ```
/// assert!(duration_str::after_naive_date("180d")? > chrono::Utc::now().date_naive());
/// # Ok::<(), String>(())
/// ```
pub fn after_naive_date(input: impl AsRef<str>) -> Result<NaiveDate, String> {
    after_naive_date_time(input).map(|moment| moment.date())
}

/// Returns the date of the moment that [`before_naive_date_time`] returns.
///
/// # Errors
///
/// Returns the message of the text's fault, or of a date out of range.
///
/// ```
/// assert!(duration_str::before_naive_date("180d")? < chrono::Utc::now().date_naive());
/// # Ok::<(), String>(())
/// ```
pub fn before_naive_date(input: impl AsRef<str>) -> Result<NaiveDate, String> {
    before_naive_date_time(input).map(|moment| moment.date())
}

fn now() -> NaiveDateTime {
    Utc::now().naive_utc()
}
