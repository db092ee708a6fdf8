//! The items of the crate humantime for durations, under the same names. To move a program to this
//! crate, change one import: `use duration_str::humantime;`.
//!
//! A text that both humantime and this module read is the same duration in both. So a text that
//! humantime printed and a program stored is read as it was meant, up to some 584 years. For this,
//! a month has 30.44 days here, by whatever name, and a year has 365.25 days. In the rest of this
//! crate, except for the module `humantime_serde`, a month has 30 days and a year 365.
//!
//! This module also reads `M`, which is a month, and all names that [`Rules::more_names`] adds,
//! such as `secs`, `mins` and `hrs`. Capitals and small letters differ. The rest of this crate,
//! except for the module `humantime_serde`, reads `1M` as a minute, and refuses those names unless
//! it is told to read them.
//!
//! This module prints what humantime 2.1 prints, such as `1day 2h 3m`.
//!
//! Some texts that humantime reads are refused, with an error that says what is wrong:
//!
//! - fractions of humantime 2.4, such as `1.5h`, and its `0` without a unit
//! - durations of 2^64 nanoseconds or more, which is some 584 years (`584y` is read)
//! - a blank within a number, as in `1 000ms`, and any blank except a space, a tab, a carriage
//!   return or a line feed, such as a form feed
//!
//! A number without a unit is refused. Unlike humantime, this module reads `+`, `*`, `mon` and the
//! quarter of 91 days. `docs/MIGRATING.md` in the repository lists the differences.
//!
//! humantime's items for durations are here, except the variants of its error. Use
//! [`DurationError::cause`] to find out why a text is refused. humantime's timestamps are not here.
//! In place of the crate humantime-serde, use the module `humantime_serde`.
//!
//! ```
//! use duration_str::humantime;
//!
//! let timeout: humantime::Duration = "1h 30min".parse()?;
//! assert_eq!(humantime::parse_duration("90mins")?, *timeout);
//! assert_eq!(humantime::parse_duration("2mths")?, humantime::parse_duration("2M")?);
//! assert_eq!(humantime::format_duration(timeout.into()).to_string(), "1h 30m");
//! let year = std::time::Duration::from_secs(365 * 86_400);
//! let printed = humantime::format_duration(year).to_string();
//! assert_eq!(printed, "11months 30days 3h 50m 24s");
//! assert_eq!(humantime::parse_duration(&printed)?, year);
//! # Ok::<(), humantime::DurationError>(())
//! ```
use crate::Fault;
use crate::formatted::pad;
use crate::human_duration::written_as_text;
use crate::parser::CASE_SENSITIVE;
use core::fmt;
use core::time::Duration as StdDuration;
use duration_str_core::{self as proved, Options, Rules};

pub use crate::DurationError;

/// Reads a text, and returns its duration. Capitals and small letters differ, and each number needs
/// a unit.
///
/// # Errors
///
/// Returns why the text is refused, with a copy of the text.
///
/// ```
/// use duration_str::humantime;
///
/// assert_eq!(humantime::parse_duration("1M 1m")?.as_secs(), 2_630_016 + 60);
/// let refusal = humantime::parse_duration("5mins 1H").unwrap_err();
/// assert!(refusal.to_string().starts_with(r#"unknown unit "H" at column 8"#));
/// # Ok::<(), humantime::DurationError>(())
/// ```
#[inline]
pub fn parse_duration(text: &str) -> Result<StdDuration, DurationError> {
    read(text).map_err(Fault::into_owned)
}

#[inline]
pub(crate) fn read(text: &str) -> Result<StdDuration, Fault<'_>> {
    match read_with(text, true) {
        Ok(nanos) => Ok(StdDuration::from_nanos(nanos)),
        Err(_) => read_other(text),
    }
}

/// Most texts have no operators, and are read before this is called.
#[cold]
#[inline]
fn read_other(text: &str) -> Result<StdDuration, Fault<'_>> {
    match read_with(text, false) {
        Ok(nanos) => Ok(StdDuration::from_nanos(nanos)),
        Err(fault) => Err(Fault::new(fault, Rules::humantime(CASE_SENSITIVE))),
    }
}

/// A copy of the reader is compiled for humantime's units alone, which makes it faster. This is
/// generic, and its callers are inline, so that it is compiled in the crates that use the module.
#[inline(never)]
fn read_with<T: AsRef<str> + ?Sized>(text: &T, no_calc: bool) -> Result<u64, proved::Fault<'_>> {
    let options = Options {
        no_calc,
        ..CASE_SENSITIVE
    };
    proved::parse_nanos_specialized(text.as_ref(), Rules::humantime(options))
}

const YEAR_SECONDS: u64 = 31_557_600;

const MONTH_SECONDS: u64 = 2_630_016;

/// A duration whose `Display` prints the text of humantime 2.1. [`format_duration`] returns it.
///
/// Width and fill pad the text, and a precision is ignored.
#[derive(Clone, Copy, Debug, PartialEq, Eq, Hash)]
pub struct FormattedDuration(StdDuration);

/// Returns a value that prints the duration. The text is the one that humantime 2.1 prints.
///
/// ```
/// use duration_str::humantime::format_duration;
/// use std::time::Duration;
///
/// assert_eq!(format_duration(Duration::from_secs(93_784)).to_string(), "1day 2h 3m 4s");
/// assert_eq!(format!("{:>10}", format_duration(Duration::from_micros(90_001))), "  90ms 1us");
/// ```
#[must_use]
pub const fn format_duration(duration: StdDuration) -> FormattedDuration {
    FormattedDuration(duration)
}

impl FormattedDuration {
    /// Returns the duration.
    ///
    /// ```
    /// use duration_str::humantime::format_duration;
    /// use std::time::Duration;
    ///
    /// assert_eq!(format_duration(Duration::ZERO).get_ref(), &Duration::ZERO);
    /// ```
    #[must_use]
    pub const fn get_ref(&self) -> &StdDuration {
        &self.0
    }
}

/// No text is longer than this. The longest texts have 63 bytes, such as
/// `584542046089years 10months 30days 10h 33m 35s 999ms 999us 999ns`.
const MAX_LEN: usize = 64;

struct Written {
    buffer: [u8; MAX_LEN],
    end: usize,
}

impl Written {
    fn push(&mut self, text: &[u8]) {
        self.buffer[self.end..][..text.len()].copy_from_slice(text);
        self.end += text.len();
    }

    /// `write!` would take more instructions.
    fn push_count(&mut self, mut count: u64) {
        let mut digits = [b'0'; 20];
        let mut start = digits.len();
        while count > 0 {
            start -= 1;
            digits[start] += (count % 10) as u8;
            count /= 10;
        }
        self.push(&digits[start..]);
    }
}

impl fmt::Display for FormattedDuration {
    fn fmt(&self, f: &mut fmt::Formatter<'_>) -> fmt::Result {
        let (seconds, nanos) = (self.0.as_secs(), self.0.subsec_nanos());
        let in_year = seconds % YEAR_SECONDS;
        let in_month = in_year % MONTH_SECONDS;
        let counts = [
            (seconds / YEAR_SECONDS, "year", "years"),
            (in_year / MONTH_SECONDS, "month", "months"),
            (in_month / 86_400, "day", "days"),
            (in_month % 86_400 / 3_600, "h", "h"),
            (in_month % 3_600 / 60, "m", "m"),
            (in_month % 60, "s", "s"),
            (u64::from(nanos / 1_000_000), "ms", "ms"),
            (u64::from(nanos / 1_000 % 1_000), "us", "us"),
            (u64::from(nanos % 1_000), "ns", "ns"),
        ];
        let mut text = Written {
            buffer: [0; MAX_LEN],
            end: 0,
        };
        for (count, one, several) in &counts {
            if *count == 0 {
                continue;
            }
            if text.end > 0 {
                text.push(b" ");
            }
            text.push_count(*count);
            text.push(if *count == 1 { one } else { several }.as_bytes());
        }
        if text.end == 0 {
            text.push(b"0s");
        }
        let text = core::str::from_utf8(&text.buffer[..text.end]).unwrap_or_default();
        match f.width() {
            None => f.write_str(text),
            Some(_) => pad(f, &[text]),
        }
    }
}

/// A duration. [`parse_duration`] reads it, and [`format_duration`] prints it.
///
/// ```
/// use duration_str::humantime;
///
/// let timeout: humantime::Duration = "90s".parse()?;
/// assert_eq!((timeout.as_secs(), timeout.to_string()), (90, "1m 30s".to_string()));
/// assert!("90".parse::<humantime::Duration>().is_err());
/// # Ok::<(), humantime::DurationError>(())
/// ```
#[derive(Clone, Copy, Debug, Default, PartialEq, Eq, PartialOrd, Ord, Hash)]
pub struct Duration(StdDuration);

impl Duration {
    /// Wraps the duration.
    ///
    /// ```
    /// use duration_str::humantime::Duration;
    ///
    /// const TIMEOUT: Duration = Duration::new(std::time::Duration::from_secs(90));
    /// assert_eq!(TIMEOUT.to_string(), "1m 30s");
    /// assert_eq!(*Duration::default(), std::time::Duration::ZERO);
    /// ```
    #[must_use]
    pub const fn new(duration: StdDuration) -> Duration {
        Duration(duration)
    }
}

written_as_text!(Duration, parse_duration, format_duration);
