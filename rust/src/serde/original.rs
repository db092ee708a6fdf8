//! The calls of `duration-str` 0.19.0 for durations in data that serde reads.
use crate::human_format::Sealed;
use crate::original::parse;
use core::fmt;
use core::marker::PhantomData;
use core::time::Duration;
use serde::de::{Deserializer, Error, Unexpected, Visitor};

/// Types that are read from the text of a duration: the durations of `std`, `chrono` and `time`,
/// and an `Option` of each.
pub trait DeserializeDuration<'de>: Sealed + Sized {
    /// Reads a value of the type. [`deserialize_duration`] says what is read.
    ///
    /// # Errors
    ///
    /// Returns an error of the format, for example if the text is refused.
    fn deserialize_duration<D: Deserializer<'de>>(deserializer: D) -> Result<Self, D::Error>;
}

pub trait Length: Sealed + Sized {
    fn of_std(length: Duration) -> Self;

    /// Returns `None` if the duration is negative.
    fn to_std(&self) -> Option<Duration>;
}

struct Required<T>(PhantomData<T>);

impl<T: Length> Visitor<'_> for Required<T> {
    type Value = T;

    fn expecting(&self, f: &mut fmt::Formatter<'_>) -> fmt::Result {
        f.write_str("expect duration string, e.g: '1min+30'")
    }

    fn visit_str<E: Error>(self, text: &str) -> Result<T, E> {
        parse(text).map(T::of_std).map_err(E::custom)
    }
}

struct Optional<T>(PhantomData<T>);

impl<'de, T: Length> Visitor<'de> for Optional<T> {
    type Value = Option<T>;

    fn expecting(&self, f: &mut fmt::Formatter<'_>) -> fmt::Result {
        f.write_str("expect duration string, null, or missing field")
    }

    fn visit_str<E: Error>(self, text: &str) -> Result<Option<T>, E> {
        if text.is_empty() {
            return Ok(None);
        }
        parse(text)
            .map(|length| Some(T::of_std(length)))
            .map_err(E::custom)
    }

    fn visit_bytes<E: Error>(self, bytes: &[u8]) -> Result<Option<T>, E> {
        match core::str::from_utf8(bytes) {
            Ok(text) => self.visit_str(text),
            Err(_) => Err(E::invalid_value(Unexpected::Bytes(bytes), &self)),
        }
    }

    fn visit_some<D: Deserializer<'de>>(self, deserializer: D) -> Result<Option<T>, D::Error> {
        deserializer.deserialize_str(self)
    }

    fn visit_none<E: Error>(self) -> Result<Option<T>, E> {
        Ok(None)
    }

    fn visit_unit<E: Error>(self) -> Result<Option<T>, E> {
        Ok(None)
    }
}

/// Reads a required or an optional duration, depending on the field's type. A required one must be
/// a text. For an optional one null and the empty text are `None`, and with `#[serde(default)]` so
/// is a missing field.
///
/// This call needs the feature `serde`.
///
/// As in `duration-str` 0.19.0, required and optional durations have different rules. A required
/// duration must be a value that the format itself stores as a text. An optional one may be any
/// value that the format can give as a text. So YAML's `90` is refused as a required duration, but
/// read as an optional one. Formats that don't store the types of their values, such as bincode,
/// can't have a required duration. The module [`human`](crate::human) has one rule for both.
///
/// # Errors
///
/// Returns an error of the format, for example if the text is refused.
///
/// ```
/// use duration_str::deserialize_duration;
/// use serde::Deserialize;
/// use std::time::Duration;
///
/// #[derive(Deserialize)]
/// struct Settings {
///     #[serde(deserialize_with = "deserialize_duration")]
///     timeout: Duration,
///     #[serde(default, deserialize_with = "deserialize_duration")]
///     keep_alive: Option<Duration>,
/// }
///
/// let settings: Settings = serde_json::from_str(r#"{ "timeout": "1m 30s" }"#)?;
/// assert_eq!(settings.timeout, Duration::from_secs(90));
/// assert_eq!(settings.keep_alive, None);
/// # Ok::<(), serde_json::Error>(())
/// ```
pub fn deserialize_duration<'de, D, T>(deserializer: D) -> Result<T, D::Error>
where
    D: Deserializer<'de>,
    T: DeserializeDuration<'de>,
{
    T::deserialize_duration(deserializer)
}

macro_rules! deserializes {
    ($length:ty, $of_std:path, $to_std:expr, $option_name:ident) => {
        impl Length for $length {
            fn of_std(length: Duration) -> Self {
                $of_std(length)
            }

            fn to_std(&self) -> Option<Duration> {
                $to_std(*self)
            }
        }

        impl<'de> DeserializeDuration<'de> for $length {
            fn deserialize_duration<D: Deserializer<'de>>(
                deserializer: D,
            ) -> Result<Self, D::Error> {
                deserializer.deserialize_any(Required(PhantomData))
            }
        }

        impl<'de> DeserializeDuration<'de> for Option<$length> {
            fn deserialize_duration<D: Deserializer<'de>>(
                deserializer: D,
            ) -> Result<Self, D::Error> {
                deserializer.deserialize_option(Optional(PhantomData))
            }
        }

        /// Reads an optional duration as [`deserialize_duration`] does.
        ///
        /// # Errors
        ///
        /// Returns an error of the format, for example if the text is refused.
        #[deprecated(
            since = "0.19.0",
            note = "[`deserialize_duration`] reads optional durations too"
        )]
        pub fn $option_name<'de, D: Deserializer<'de>>(
            deserializer: D,
        ) -> Result<Option<$length>, D::Error> {
            DeserializeDuration::deserialize_duration(deserializer)
        }
    };
}

deserializes!(
    Duration,
    core::convert::identity,
    Some,
    deserialize_option_duration
);
#[cfg(feature = "chrono")]
deserializes!(
    chrono::Duration,
    crate::original::chrono_of,
    |length: chrono::Duration| length.to_std().ok(),
    deserialize_option_duration_chrono
);
#[cfg(feature = "time")]
deserializes!(
    time::Duration,
    crate::original::time_of,
    |length: time::Duration| length.try_into().ok(),
    deserialize_option_duration_time
);

/// Reads a duration of `chrono`, as [`deserialize_duration`] does.
///
/// This call needs the features `serde` and `chrono`.
///
/// # Errors
///
/// Returns the error of [`deserialize_duration`].
#[cfg(feature = "chrono")]
pub fn deserialize_duration_chrono<'de, D: Deserializer<'de>>(
    deserializer: D,
) -> Result<chrono::Duration, D::Error> {
    DeserializeDuration::deserialize_duration(deserializer)
}

/// Reads a duration of `time`, as [`deserialize_duration`] does.
///
/// This call needs the features `serde` and `time`.
///
/// # Errors
///
/// Returns the error of [`deserialize_duration`].
#[cfg(feature = "time")]
pub fn deserialize_duration_time<'de, D: Deserializer<'de>>(
    deserializer: D,
) -> Result<time::Duration, D::Error> {
    DeserializeDuration::deserialize_duration(deserializer)
}
