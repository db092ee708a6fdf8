use crate::formatted::{FormattedDuration, format_duration};
use alloc::string::String;
use core::time::Duration;
use duration_str_core::{HUMAN_BUFFER_SIZE, write_human};

/// Durations that can be printed for people: those of `std`, `chrono` and `time`.
///
/// ```
/// use duration_str::HumanFormat;
/// use std::time::Duration;
///
/// assert_eq!(Duration::from_millis(193_029).human_format(), "3min 13s 29ms");
/// assert_eq!(Duration::ZERO.human_format(), "0s");
/// ```
///
/// A text that stands for 2^64 nanoseconds or more, which is some 584 years, can't be read back.
///
/// A duration of `chrono` or `time` may be negative. Then it prints as a minus and the text of its
/// magnitude. No call reads a minus. If the text of the magnitude is a zero, such as that of half a
/// second in whole seconds, there is no minus:
///
#[cfg_attr(feature = "chrono", doc = "```")]
#[cfg_attr(not(feature = "chrono"), doc = "```ignore")]
/// # use duration_str::HumanFormat;
/// assert_eq!(chrono::Duration::minutes(-90).human_format(), "-1h 30min");
/// let build = chrono::Duration::milliseconds(-500).formatted();
/// assert_eq!(build.to_string(), "-500ms");
/// assert_eq!(build.smallest(duration_str::TimeUnit::Second).to_string(), "0s");
/// ```
pub trait HumanFormat: Sealed {
    /// Returns a value that prints the duration, in the units, the greatest number of parts and the
    /// style that you choose.
    ///
    /// ```
    /// use duration_str::{HumanFormat, Style};
    /// use std::time::Duration;
    ///
    /// let timeout = Duration::from_secs(5_400);
    /// assert_eq!(timeout.formatted().style(Style::Long).to_string(), "1 hour 30 minutes");
    /// ```
    #[must_use]
    fn formatted(&self) -> FormattedDuration;

    /// Returns the text of the duration: the counts of the units from the years to the nanoseconds,
    /// without the counts that are 0. If all are 0, the text is `0s`.
    #[must_use]
    fn human_format(&self) -> String {
        self.formatted().to_string()
    }
}

impl HumanFormat for Duration {
    fn formatted(&self) -> FormattedDuration {
        format_duration(*self)
    }

    fn human_format(&self) -> String {
        String::from(write_human(self, &mut [0; HUMAN_BUFFER_SIZE]))
    }
}

#[cfg(feature = "chrono")]
impl HumanFormat for chrono::Duration {
    fn formatted(&self) -> FormattedDuration {
        let secs = self.num_seconds();
        let after_secs = *self - chrono::Duration::seconds(secs);
        let nanos = after_secs
            .num_nanoseconds()
            .expect("less than a second is left");
        with_sign(*self < chrono::Duration::zero(), secs, nanos)
    }
}

#[cfg(feature = "time")]
impl HumanFormat for time::Duration {
    fn formatted(&self) -> FormattedDuration {
        let nanos = self.subsec_nanoseconds().into();
        with_sign(self.is_negative(), self.whole_seconds(), nanos)
    }
}

#[cfg(any(feature = "chrono", feature = "time"))]
fn with_sign(is_negative: bool, secs: i64, nanos: i64) -> FormattedDuration {
    let magnitude =
        Duration::from_secs(secs.unsigned_abs()) + Duration::from_nanos(nanos.unsigned_abs());
    FormattedDuration::with_sign(is_negative, magnitude)
}

/// Keeps other crates from implementing this crate's traits, so that a later version can add a
/// method to them.
pub trait Sealed {}

impl Sealed for core::time::Duration {}

#[cfg(feature = "chrono")]
impl Sealed for chrono::Duration {}

#[cfg(feature = "time")]
impl Sealed for time::Duration {}

#[cfg(feature = "serde")]
impl<T: Sealed> Sealed for Option<T> {}

#[cfg(feature = "serde")]
impl<T: Sealed> Sealed for alloc::vec::Vec<T> {}

#[cfg(feature = "serde")]
impl<K, T: Sealed> Sealed for alloc::collections::BTreeMap<K, T> {}
