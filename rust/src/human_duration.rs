use core::time::Duration;

/// A [`Duration`] that `FromStr`, `Display` and serde read and print as text. So it can be the type
/// of an option in clap, without a `value_parser`.
///
/// [`parse_duration`](crate::parse_duration) reads it, and
/// [`format_duration`](crate::format_duration) prints it. You choose units, parts and style as for
/// a [`FormattedDuration`](crate::FormattedDuration).
///
/// ```
/// use duration_str::{HumanDuration, Style};
/// use std::time::Duration;
///
/// let timeout: HumanDuration = "90s".parse()?;
/// assert_eq!(timeout.0, Duration::from_secs(90));
/// assert_eq!(timeout.to_string(), "1min 30s");
/// assert_eq!(timeout.parts(1).style(Style::Long).to_string(), "1 minute");
/// # Ok::<(), duration_str::DurationError>(())
/// ```
#[derive(Clone, Copy, Debug, Default, PartialEq, Eq, PartialOrd, Ord, Hash)]
pub struct HumanDuration(pub Duration);

macro_rules! written_as_text {
    ($Name:ident, $read:path, $print:path) => {
        impl core::str::FromStr for $Name {
            type Err = $crate::DurationError;

            #[inline]
            fn from_str(text: &str) -> Result<$Name, $crate::DurationError> {
                $read(text).map($Name)
            }
        }

        impl core::fmt::Display for $Name {
            fn fmt(&self, f: &mut core::fmt::Formatter<'_>) -> core::fmt::Result {
                core::fmt::Display::fmt(&$print(self.0), f)
            }
        }

        impl From<core::time::Duration> for $Name {
            fn from(duration: core::time::Duration) -> $Name {
                $Name(duration)
            }
        }

        impl From<$Name> for core::time::Duration {
            fn from(human: $Name) -> core::time::Duration {
                human.0
            }
        }

        impl AsRef<core::time::Duration> for $Name {
            fn as_ref(&self) -> &core::time::Duration {
                &self.0
            }
        }

        impl core::ops::Deref for $Name {
            type Target = core::time::Duration;

            fn deref(&self) -> &core::time::Duration {
                &self.0
            }
        }
    };
}
pub(crate) use written_as_text;

written_as_text!(HumanDuration, crate::parse_duration, crate::format_duration);
