//! This module is for `#[serde(with = "duration_str::human_require_unit")]`. It is like [`human`],
//! but refuses a number without a unit, as in `"90"` and `"1h 30"`. Such a number may have been
//! meant in milliseconds.
//!
//! [`parse_require_unit`](crate::parse_require_unit) reads the texts. The fields have the same
//! types as those of [`human`], and are written in the same way.
//!
//! This module needs the feature `serde`.
//!
//! ```
//! use serde::{Deserialize, Serialize};
//! use std::time::Duration;
//!
//! #[derive(Debug, Serialize, Deserialize)]
//! struct Settings {
//!     #[serde(with = "duration_str::human_require_unit")]
//!     timeout: Duration,
//!     #[serde(default, with = "duration_str::human_require_unit")]
//!     keep_alive: Option<Duration>,
//! }
//!
//! let settings: Settings = serde_json::from_str(r#"{ "timeout": "90s" }"#)?;
//! assert_eq!((settings.timeout, settings.keep_alive), (Duration::from_secs(90), None));
//! let refusal = serde_json::from_str::<Settings>(r#"{ "timeout": "90" }"#).unwrap_err();
//! let line = "invalid duration: expected a unit at column 3, found the end";
//! assert!(refusal.to_string().starts_with(line));
//! # Ok::<(), serde_json::Error>(())
//! ```
use crate::serde::human::{self, HumanText};
use serde::de::Deserializer;

#[doc(no_inline)]
pub use human::serialize;

/// Reads durations, which must be texts in which each number has its unit.
///
/// # Errors
///
/// Returns an error of the format, for example if a text is refused.
///
/// ```
/// use duration_str::human_require_unit;
/// use serde_json::json;
/// use std::time::Duration;
///
/// let minute: Duration = human_require_unit::deserialize(json!("1m"))?;
/// assert_eq!(minute, Duration::from_secs(60));
/// assert!(human_require_unit::deserialize::<Duration, _>(json!("60")).is_err());
/// # Ok::<(), serde_json::Error>(())
/// ```
pub fn deserialize<'de, T: HumanText, D: Deserializer<'de>>(
    deserializer: D,
) -> Result<T, D::Error> {
    T::deserialize_human::<D, { human::REQUIRE_UNIT }>(deserializer)
}
