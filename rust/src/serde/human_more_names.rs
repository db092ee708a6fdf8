//! This module is for `#[serde(with = "duration_str::human_more_names")]`. It is like [`human`],
//! but also reads more names of units, as in `"5 mins"`, `"2 hrs"` and `"1 yr"`.
//!
//! [The crate](crate#what-a-text-means) lists these names. The fields have the same types as those
//! of [`human`], and are written in the same way, so `"5 mins"` becomes `"5min"`.
//!
//! A field can name only a module, so more names have one of their own. To change another rule too,
//! such as to refuse a number without a unit, write a function for `deserialize_with`, as [`human`]
//! shows, and call [`parse_by`](crate::parse_by) in it.
//!
//! This module needs the feature `serde`.
//!
//! ```
//! use serde::{Deserialize, Serialize};
//! use std::time::Duration;
//!
//! #[derive(Debug, Serialize, Deserialize)]
//! struct Settings {
//!     #[serde(with = "duration_str::human_more_names")]
//!     timeout: Duration,
//!     #[serde(default, with = "duration_str::human_more_names")]
//!     keep_alive: Option<Duration>,
//! }
//!
//! let settings: Settings = serde_json::from_str(r#"{ "timeout": "2 hrs 5 mins" }"#)?;
//! assert_eq!((settings.timeout, settings.keep_alive), (Duration::from_secs(7_500), None));
//! assert_eq!(serde_json::to_string(&settings)?, r#"{"timeout":"2h 5min","keep_alive":null}"#);
//! let refusal = serde_json::from_str::<Settings>(r#"{ "timeout": "5 mos" }"#).unwrap_err();
//! let line = r#"invalid duration: unknown unit "mos" at column 3 (did you mean "mon"?)"#;
//! assert!(refusal.to_string().starts_with(line));
//! # Ok::<(), serde_json::Error>(())
//! ```
use crate::serde::human::{self, HumanText};
use serde::de::Deserializer;

#[doc(no_inline)]
pub use human::serialize;

/// Reads durations from texts, which may have more names of units.
///
/// # Errors
///
/// Returns an error of the format, for example if a text is refused.
///
/// ```
/// use duration_str::human_more_names;
/// use serde_json::json;
/// use std::time::Duration;
///
/// for text in ["5 mins", "5min", "300"] {
///     let read: Duration = human_more_names::deserialize(json!(text))?;
///     assert_eq!(read, Duration::from_secs(300));
/// }
/// # Ok::<(), serde_json::Error>(())
/// ```
pub fn deserialize<'de, T: HumanText, D: Deserializer<'de>>(
    deserializer: D,
) -> Result<T, D::Error> {
    T::deserialize_human::<D, { human::MORE_NAMES }>(deserializer)
}
