//! This module replaces the crate humantime-serde.
//!
//! It is like the module [`human`](crate::human), but reads and prints fields as the module
//! [`humantime`](crate::humantime) does. So capitals and small letters differ, a number without a
//! unit is refused, a month has 30.44 days and a year 365.25, and the printed texts are those of
//! humantime 2.1.
//!
//! The type `Serde` of humantime-serde is not here. A field of the type
//! [`HumanDuration`](crate::HumanDuration) needs no `with` either, but is read as in the rest of
//! this crate.
//!
//! This module needs the feature `serde`.
//!
//! ```
//! use duration_str::humantime_serde;
//! use std::time::Duration;
//!
//! #[derive(Debug, serde::Deserialize)]
//! struct Config {
//!     #[serde(with = "humantime_serde")]
//!     timeout: Duration,
//!     #[serde(default, with = "humantime_serde::option")]
//!     keep_alive: Option<Duration>,
//! }
//!
//! let config: Config = serde_json::from_str(r#"{ "timeout": "1m 30s" }"#)?;
//! assert_eq!((config.timeout, config.keep_alive), (Duration::from_secs(90), None));
//! assert!(serde_json::from_str::<Config>(r#"{ "timeout": "90" }"#).is_err());
//! # Ok::<(), serde_json::Error>(())
//! ```
use crate::serde::human::{HumanText, STRICT};
use serde::de::Deserializer;
use serde::ser::Serializer;

/// Prints durations as text, as [`humantime::format_duration`](crate::humantime::format_duration)
/// does.
///
/// # Errors
///
/// Returns an error of the format, for example if the text could not be read back.
///
/// ```
/// use serde_json::value::Serializer;
/// use std::time::Duration;
///
/// let month = Duration::from_secs(30 * 86_400);
/// assert_eq!(duration_str::humantime_serde::serialize(&month, Serializer)?, "30days");
/// # Ok::<(), serde_json::Error>(())
/// ```
pub fn serialize<T: HumanText, S: Serializer>(value: &T, serializer: S) -> Result<S::Ok, S::Error> {
    value.serialize_human::<S, STRICT>(serializer)
}

/// Reads durations, which must be texts, with
/// [`humantime::parse_duration`](crate::humantime::parse_duration).
///
/// # Errors
///
/// Returns an error of the format, for example if a text is refused.
///
/// ```
/// use serde_json::json;
/// use std::time::Duration;
///
/// let minute: Duration = duration_str::humantime_serde::deserialize(json!("1m"))?;
/// assert_eq!(minute, Duration::from_secs(60));
/// # Ok::<(), serde_json::Error>(())
/// ```
pub fn deserialize<'de, T: HumanText, D: Deserializer<'de>>(
    deserializer: D,
) -> Result<T, D::Error> {
    T::deserialize_human::<D, STRICT>(deserializer)
}

/// The same calls for an `Option`, in a module of the same name as humantime-serde's.
pub mod option {
    #[doc(no_inline)]
    pub use super::{deserialize, serialize};
}
