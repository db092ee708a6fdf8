//! This module is for `#[serde(with = "duration_str::human_or_seconds")]`. It is like [`human`],
//! but also reads numbers, as seconds.
//!
//! So `timeout = 30` in TOML, `"timeout": 30` in JSON and `timeout: 30` in YAML are 30 seconds. The
//! number must be whole, such as `30` or `30.0`, and not negative. For a fraction of a second,
//! write a text such as `"1500ms"`.
//!
//! Durations are written as text. The format must say itself what a value is, which bincode and
//! similar formats don't do.
//!
//! This module needs the feature `serde`.
//!
//! ```
//! use serde::{Deserialize, Serialize};
//! use std::time::Duration;
//!
//! #[derive(Serialize, Deserialize)]
//! struct Settings {
//!     #[serde(with = "duration_str::human_or_seconds")]
//!     timeout: Duration,
//!     #[serde(default, with = "duration_str::human_or_seconds")]
//!     keep_alive: Option<Duration>,
//! }
//!
//! let settings: Settings = serde_json::from_str(r#"{ "timeout": 90, "keep_alive": "1h" }"#)?;
//! assert_eq!(settings.timeout, Duration::from_secs(90));
//! let text = serde_json::to_string(&settings)?;
//! assert_eq!(text, r#"{"timeout":"1min 30s","keep_alive":"1h"}"#);
//! # Ok::<(), serde_json::Error>(())
//! ```
use crate::serde::human::{self, HumanText};
use serde::de::Deserializer;

#[doc(no_inline)]
pub use human::serialize;

/// Reads durations, which must be texts or whole seconds.
///
/// # Errors
///
/// Returns an error of the format, for example if a text or a number is refused.
///
/// ```
/// use duration_str::human_or_seconds;
/// use serde_json::json;
/// use std::time::Duration;
///
/// let minute: Duration = human_or_seconds::deserialize(json!(60))?;
/// assert_eq!(minute, Duration::from_secs(60));
/// let fraction: Result<Duration, _> = human_or_seconds::deserialize(json!(1.5));
/// let expected = "a duration such as '1min 30s', or whole seconds of at most 584 years";
/// let line = format!("invalid value: floating point `1.5`, expected {expected}");
/// assert_eq!(fraction.unwrap_err().to_string(), line);
/// # Ok::<(), serde_json::Error>(())
/// ```
pub fn deserialize<'de, T: HumanText, D: Deserializer<'de>>(
    deserializer: D,
) -> Result<T, D::Error> {
    T::deserialize_human::<D, { human::SECONDS }>(deserializer)
}
