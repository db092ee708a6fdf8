//! This module is for `#[serde(with = "duration_str::human_or_millis")]`. It is like [`human`], but
//! also reads numbers, as milliseconds. In a text, a number without a unit counts milliseconds too.
//!
//! So `timeout = 1500` in TOML, `"timeout": 1500` and `"timeout": "1500"` in JSON and
//! `timeout: 1500` in YAML are 1.5 seconds. [`parse_in`](crate::parse_in) reads the texts, so `+`
//! and `*` are not read. A number that is not a text must be whole, and not negative. `1500.0` is
//! whole too.
//!
//! Durations are written as text, with their units. The format must say itself what a value is,
//! which bincode and similar formats don't do.
//!
//! This module needs the feature `serde`.
//!
//! ```
//! use serde::{Deserialize, Serialize};
//! use std::time::Duration;
//!
//! #[derive(Serialize, Deserialize)]
//! struct Settings {
//!     #[serde(with = "duration_str::human_or_millis")]
//!     timeout: Duration,
//!     #[serde(default, with = "duration_str::human_or_millis")]
//!     keep_alive: Option<Duration>,
//! }
//!
//! let settings: Settings = serde_json::from_str(r#"{ "timeout": 1500, "keep_alive": "1h" }"#)?;
//! assert_eq!(settings.timeout, Duration::from_millis(1_500));
//! let text = serde_json::to_string(&settings)?;
//! assert_eq!(text, r#"{"timeout":"1s 500ms","keep_alive":"1h"}"#);
//! # Ok::<(), serde_json::Error>(())
//! ```
use crate::serde::human::{self, HumanText};
use serde::de::Deserializer;

#[doc(no_inline)]
pub use human::serialize;

/// Reads durations, which must be texts or whole milliseconds.
///
/// # Errors
///
/// Returns an error of the format, for example if a text or a number is refused.
///
/// ```
/// use duration_str::human_or_millis;
/// use serde_json::json;
/// use std::time::Duration;
///
/// for value in [json!(1500), json!(1500.0), json!("1500"), json!("1s 500ms")] {
///     let read: Duration = human_or_millis::deserialize(value)?;
///     assert_eq!(read, Duration::from_millis(1_500));
/// }
/// assert!(human_or_millis::deserialize::<Duration, _>(json!("90s*2")).is_err());
/// # Ok::<(), serde_json::Error>(())
/// ```
pub fn deserialize<'de, T: HumanText, D: Deserializer<'de>>(
    deserializer: D,
) -> Result<T, D::Error> {
    T::deserialize_human::<D, { human::MILLIS }>(deserializer)
}
