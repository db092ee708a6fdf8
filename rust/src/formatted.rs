use crate::human_duration::HumanDuration;
use alloc::string::String;
use core::fmt::{self, Write};
use core::time::Duration;
use duration_str_core::{
    Breakdown, FORMAT_BUFFER_SIZE, Format, Rounding, Style, TimeUnit, round_to, write_format,
    write_rounded,
};

/// A duration whose `Display` prints it for people, without allocating. You choose the units, the
/// greatest number of parts and the style.
///
/// Call [`format_duration`] to get one. For a duration of `chrono` or `time`, call
/// [`HumanFormat::formatted`](crate::HumanFormat::formatted).
///
/// ```
/// use duration_str::{Style, TimeUnit, format_duration};
/// use std::time::Duration;
///
/// let uptime = format_duration(Duration::from_secs(1_000_000));
/// assert_eq!(uptime.to_string(), "1w 4d 13h 46min 40s");
/// assert_eq!(uptime.parts(2).to_string(), "1w 4d");
/// assert_eq!(uptime.largest(TimeUnit::Hour).smallest(TimeUnit::Minute).to_string(), "277h 46min");
/// assert_eq!(uptime.without(TimeUnit::Week).to_string(), "11d 13h 46min 40s");
/// assert_eq!(uptime.parts(2).style(Style::Long).to_string(), "1 week 4 days");
/// ```
///
/// # What is printed
///
/// The text has as many of the largest chosen unit as fit into the duration, then as many of the
/// next one as fit into the rest, and so on. Counts of 0 are left out. A count with its unit is a
/// part. After the greatest number of parts, the rest is left out. If there are no parts, the text
/// is a zero of the smallest chosen unit, such as `0 hours` or `0h`, or of seconds if that unit is
/// shorter than a second.
///
/// Each call that chooses units only takes units away, so you can make these calls in any order. If
/// the largest unit that you ask for is shorter than the smallest, no unit is left, and each
/// duration prints as zero seconds. The same is true after `only(&[])`. These calls can't fail. So
/// if a user of your program chooses the units, compare them first. Otherwise this can be printed:
///
/// ```
/// use duration_str::{Style, TimeUnit, format_duration};
/// use std::time::Duration;
///
/// let build = format_duration(Duration::from_secs(193));
/// let nothing = build.largest(TimeUnit::Second).smallest(TimeUnit::Hour);
/// assert_eq!(nothing.to_string(), "0s");
/// assert_eq!(build.only(&[]).style(Style::Long).to_string(), "0 seconds");
/// ```
///
/// Width and fill pad the text. A precision is ignored.
///
/// A negative duration prints as a minus and the text of its magnitude, or without a minus if that
/// text is a zero. No call reads a text with a minus, or one that stands for 2^64 nanoseconds or
/// more, which is some 584 years. But if parts of such a long duration are left out, its text can
/// stand for less, and is then read:
///
/// ```
/// use duration_str::{format_duration, parse_duration};
/// use std::time::Duration;
///
/// let long = format_duration(Duration::from_secs(18_446_744_074));
/// assert!(parse_duration(&long.to_string()).is_err());
/// assert_eq!(long.parts(1).to_string(), "584y");
/// assert!(parse_duration("584y").is_ok());
/// ```
#[derive(Clone, Copy, Debug, PartialEq, Eq, Hash)]
pub struct FormattedDuration {
    is_negative: bool,
    magnitude: Duration,
    format: Format,
}

/// Returns a value that prints the duration for people. This function has the same name as
/// humantime's.
///
/// ```
/// use duration_str::format_duration;
/// use std::time::Duration;
///
/// assert_eq!(format!("{}", format_duration(Duration::from_secs(90))), "1min 30s");
/// ```
#[must_use]
pub const fn format_duration(duration: Duration) -> FormattedDuration {
    FormattedDuration::with_sign(false, duration)
}

impl FormattedDuration {
    pub(crate) const fn with_sign(is_negative: bool, magnitude: Duration) -> FormattedDuration {
        FormattedDuration {
            is_negative,
            magnitude,
            format: Format::whole(),
        }
    }

    /// Returns the duration, or its magnitude if it is negative. This method has the same name as
    /// humantime's.
    ///
    /// ```
    /// use duration_str::format_duration;
    /// use std::time::Duration;
    ///
    /// assert_eq!(format_duration(Duration::ZERO).get_ref(), &Duration::ZERO);
    /// ```
    #[must_use]
    pub const fn get_ref(&self) -> &Duration {
        &self.magnitude
    }

    /// Returns the text that [`ToString`](alloc::string::ToString) would return. With link-time
    /// optimization this can be faster, since no formatter is used.
    ///
    /// ```
    /// use duration_str::format_duration;
    /// use std::time::Duration;
    ///
    /// assert_eq!(format_duration(Duration::from_secs(90)).to_string(), "1min 30s");
    /// ```
    #[expect(clippy::inherent_to_string_shadow_display, reason = "the same text")]
    #[must_use]
    pub fn to_string(&self) -> String {
        self.signed(self.text(&mut [0; FORMAT_BUFFER_SIZE]))
            .concat()
    }

    /// Returns the parts as numbers: the units with their counts, the longest unit first. The style
    /// does not matter. If the duration is negative, these are the parts of its magnitude.
    ///
    /// The parts are those that the printed text has, so a duration of 0 has none. The counts, each
    /// times the length of its unit, and the rest are together the duration.
    ///
    /// ```
    /// use duration_str::{TimeUnit, format_duration};
    /// use std::time::Duration;
    ///
    /// let mut parts = format_duration(Duration::from_millis(193_029)).parts(2).breakdown();
    /// assert!(parts.by_ref().eq([(TimeUnit::Minute, 3), (TimeUnit::Second, 13)]));
    /// assert_eq!(parts.rest(), 29_000_000);
    /// ```
    ///
    /// The file `tests/printers.rs` of this crate has functions for lists, clocks, decimals and
    /// German.
    #[must_use]
    pub fn breakdown(&self) -> Breakdown {
        Breakdown::new(&self.magnitude, self.format)
    }

    /// Rounds the duration in this way to one that prints whole, without a rest, in the units and
    /// parts that you have chosen. If the duration is negative, its magnitude is rounded.
    ///
    /// `Rounding::Down` changes no text, but takes the rest away. If no duration up to
    /// [`Duration::MAX`] is long enough, as with `parts(0)`, `Rounding::Up` changes nothing.
    ///
    /// ```
    /// use duration_str::{Rounding, TimeUnit, format_duration};
    /// use std::time::Duration;
    ///
    /// let build = format_duration(Duration::from_secs(7_199)); // 1h 59min 59s
    /// assert_eq!(build.parts(1).to_string(), "1h");
    /// assert_eq!(build.parts(1).rounding(Rounding::Nearest).to_string(), "2h");
    /// let minutes = build.smallest(TimeUnit::Minute);
    /// assert_eq!(minutes.to_string(), "1h 59min");
    /// assert_eq!(minutes.rounding(Rounding::Up).to_string(), "2h");
    /// ```
    #[must_use]
    pub const fn rounding(self, rounding: Rounding) -> RoundedDuration {
        RoundedDuration {
            given: self,
            rounding,
        }
    }

    #[inline(always)]
    fn text<'b>(&self, buffer: &'b mut [u8; FORMAT_BUFFER_SIZE]) -> &'b str {
        write_format(&self.magnitude, self.format, buffer)
    }

    /// Returns the minus, if there is one, and the text of the magnitude.
    #[inline(always)]
    fn signed<'b>(&self, magnitude: &'b str) -> [&'b str; 2] {
        // Only a zero begins with `0`.
        let has_minus = self.is_negative && !magnitude.starts_with('0');
        [if has_minus { "-" } else { "" }, magnitude]
    }

    #[inline(always)]
    fn fmt_signed(&self, magnitude: &str, f: &mut fmt::Formatter<'_>) -> fmt::Result {
        match (self.signed(magnitude), f.width()) {
            (["", magnitude], None) => f.write_str(magnitude),
            (parts, _) => pad(f, &parts),
        }
    }
}

macro_rules! chooses {
    ($($(#[$doc:meta])* $name:ident: $Value:ty,)+) => {
        impl FormattedDuration {$(
            $(#[$doc])*
            #[must_use]
            pub const fn $name(self, $name: $Value) -> FormattedDuration {
                FormattedDuration {
                    format: self.format.$name($name),
                    ..self
                }
            }
        )+}

        impl HumanDuration {$(
            $(#[$doc])*
            #[must_use]
            pub const fn $name(self, $name: $Value) -> FormattedDuration {
                format_duration(self.0).$name($name)
            }
        )+}
    };
}

chooses! {
    /// Leaves out the units that are not in this list. The order of the list doesn't matter.
    ///
    /// ```
    /// use duration_str::{TimeUnit, format_duration};
    /// use std::time::Duration;
    ///
    /// let age = format_duration(Duration::from_secs(400 * 86_400));
    /// assert_eq!(age.to_string(), "1y 1mon 5d");
    /// assert_eq!(age.only(&[TimeUnit::Year, TimeUnit::Day]).to_string(), "1y 35d");
    /// ```
    only: &[TimeUnit],

    /// Leaves out this unit.
    ///
    /// ```
    /// use duration_str::{TimeUnit, format_duration};
    /// use std::time::Duration;
    ///
    /// let half_a_year = format_duration(Duration::from_secs(180 * 86_400));
    /// assert_eq!(half_a_year.to_string(), "1q 2mon 4w 1d");
    /// let usual = half_a_year.without(TimeUnit::Quarter).without(TimeUnit::Week);
    /// assert_eq!(usual.to_string(), "6mon");
    /// ```
    without: TimeUnit,

    /// Leaves out the units that are longer than this one. If no unit is left, each duration prints
    /// as zero seconds.
    ///
    /// ```
    /// use duration_str::{TimeUnit, format_duration};
    /// use std::time::Duration;
    ///
    /// let retention = Duration::from_secs(120 * 86_400);
    /// assert_eq!(format_duration(retention).largest(TimeUnit::Day).to_string(), "120d");
    /// ```
    largest: TimeUnit,

    /// Leaves out the units that are shorter than this one. If no unit is left, each duration
    /// prints as zero seconds.
    ///
    /// ```
    /// use duration_str::{TimeUnit, format_duration};
    /// use std::time::Duration;
    ///
    /// let build = format_duration(Duration::from_millis(193_029));
    /// assert_eq!(build.smallest(TimeUnit::Second).to_string(), "3min 13s");
    /// assert_eq!(build.smallest(TimeUnit::Hour).to_string(), "0h");
    /// ```
    smallest: TimeUnit,

    /// Prints the duration in at most this many parts.
    ///
    /// ```
    /// use duration_str::format_duration;
    /// use std::time::Duration;
    ///
    /// let build = Duration::from_millis(193_029);
    /// assert_eq!(format_duration(build).parts(2).to_string(), "3min 13s");
    /// ```
    parts: usize,

    /// Prints the duration in this style.
    ///
    /// ```
    /// use duration_str::{Style, format_duration};
    /// use std::time::Duration;
    ///
    /// let meeting = format_duration(Duration::from_secs(5_400));
    /// assert_eq!(meeting.style(Style::Compact).to_string(), "1h30min");
    /// assert_eq!(meeting.style(Style::Long).to_string(), "1 hour 30 minutes");
    /// ```
    style: Style,
}

/// A duration that is rounded to print whole in its units and parts, which can't be changed any
/// more. Call [`FormattedDuration::rounding`] to get one.
#[derive(Clone, Copy, Debug, PartialEq, Eq, Hash)]
pub struct RoundedDuration {
    given: FormattedDuration,
    rounding: Rounding,
}

impl RoundedDuration {
    /// Returns the rounded duration, or its magnitude if it is negative.
    ///
    /// ```
    /// use duration_str::{Rounding, format_duration};
    /// use std::time::Duration;
    ///
    /// let build = format_duration(Duration::from_secs(7_199)).parts(1);
    /// assert_eq!(build.rounding(Rounding::Nearest).duration(), Duration::from_secs(7_200));
    /// ```
    #[must_use]
    pub fn duration(&self) -> Duration {
        let given = &self.given;
        round_to(&given.magnitude, given.format, self.rounding).unwrap_or(given.magnitude)
    }

    /// Returns the text that [`ToString`](alloc::string::ToString) would return, faster, as
    /// [`FormattedDuration::to_string`] does.
    ///
    /// ```
    /// use duration_str::{Rounding, format_duration};
    /// use std::time::Duration;
    ///
    /// let build = format_duration(Duration::from_secs(7_199)).parts(1);
    /// assert_eq!(build.rounding(Rounding::Nearest).to_string(), "2h");
    /// ```
    #[expect(clippy::inherent_to_string_shadow_display, reason = "the same text")]
    #[must_use]
    pub fn to_string(&self) -> String {
        match self.text(&mut [0; FORMAT_BUFFER_SIZE]) {
            Some(magnitude) => self.given.signed(magnitude).concat(),
            None => self.given.to_string(),
        }
    }

    /// Returns the parts as numbers, as [`FormattedDuration::breakdown`] does. They have no rest,
    /// except if there is nothing to round up to.
    ///
    /// ```
    /// use duration_str::{Rounding, TimeUnit, format_duration};
    /// use std::time::Duration;
    ///
    /// let build = format_duration(Duration::from_secs(7_199)).parts(1);
    /// assert!(build.rounding(Rounding::Up).breakdown().eq([(TimeUnit::Hour, 2)]));
    /// ```
    #[must_use]
    pub fn breakdown(&self) -> Breakdown {
        let given = &self.given;
        Breakdown::rounded(&given.magnitude, given.format, Some(self.rounding))
            .unwrap_or_else(|| given.breakdown())
    }

    /// Returns `None` if there is nothing to round up to.
    #[inline(always)]
    fn text<'b>(&self, buffer: &'b mut [u8; FORMAT_BUFFER_SIZE]) -> Option<&'b str> {
        let given = &self.given;
        write_rounded(&given.magnitude, given.format, Some(self.rounding), buffer)
    }
}

/// Writes what a [`FormattedDuration`] of the rounded duration writes.
impl fmt::Display for RoundedDuration {
    fn fmt(&self, f: &mut fmt::Formatter<'_>) -> fmt::Result {
        match self.text(&mut [0; FORMAT_BUFFER_SIZE]) {
            Some(magnitude) => self.given.fmt_signed(magnitude, f),
            None => self.given.fmt(f),
        }
    }
}

/// Writes a minus if the duration is negative and its text is not a zero, and then the text of its
/// magnitude. Width and fill pad the whole. A precision is ignored, since `Formatter::pad` would
/// cut the text at it.
impl fmt::Display for FormattedDuration {
    fn fmt(&self, f: &mut fmt::Formatter<'_>) -> fmt::Result {
        self.fmt_signed(self.text(&mut [0; FORMAT_BUFFER_SIZE]), f)
    }
}

#[inline]
pub(crate) fn pad(f: &mut fmt::Formatter<'_>, parts: &[&str]) -> fmt::Result {
    let count: usize = parts.iter().map(|part| part.chars().count()).sum();
    let missing = f.width().unwrap_or(0).saturating_sub(count);
    let before = match f.align() {
        Some(fmt::Alignment::Right) => missing,
        Some(fmt::Alignment::Center) => missing / 2,
        Some(fmt::Alignment::Left) | None => 0,
    };
    let fill = f.fill();
    (0..before).try_for_each(|_| f.write_char(fill))?;
    parts.iter().try_for_each(|part| f.write_str(part))?;
    (before..missing).try_for_each(|_| f.write_char(fill))
}
