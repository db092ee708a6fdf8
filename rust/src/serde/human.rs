//! This module is for `#[serde(with = "duration_str::human")]`: durations as text.
//! [`format_duration`](crate::format_duration) prints them, and
//! [`parse_duration`](crate::parse_duration) reads them.
//!
//! The field's type is a duration of `std`, `chrono` or `time`, or an `Option`, a `Vec` or a
//! `BTreeMap` of such a type. In other collections use [`HumanDuration`], which needs no `with`. It
//! reads texts as this module does.
//!
//! - The data format, such as JSON, is asked for a text. So YAML's `90` is 90 seconds, and formats
//!   that don't store the types of their values, such as bincode, are read too.
//!   [`human_or_seconds`](crate::human_or_seconds) and
//!   [`human_or_millis`](crate::human_or_millis) also read numbers.
//! - The empty text is refused, except if the format takes it for null, such as csv in an `Option`.
//! - In a format that has null, `None` is null. With `#[serde(default)]` a missing field is `None`
//!   too.
//! - If a text is refused, the error's message is `invalid duration: ` and what the fault displays.
//!   A format may add the line and the column of its own text.
//!
//! Writing fails for a negative duration, and for one of 2^64 nanoseconds or more, which is some
//! 584 years, since their texts could not be read back.
//!
//! This module needs the feature `serde`.
//!
//! ```
//! use serde::{Deserialize, Serialize};
//! use std::time::Duration;
//!
//! #[derive(Serialize, Deserialize)]
//! struct Settings {
//!     #[serde(with = "duration_str::human")]
//!     timeout: Duration,
//!     #[serde(default, with = "duration_str::human")]
//!     keep_alive: Option<Duration>,
//!     #[serde(default, with = "duration_str::human")]
//!     pauses: Vec<Duration>,
//! }
//!
//! let json = r#"{ "timeout": "90s", "pauses": ["1s", "5s"] }"#;
//! let settings: Settings = serde_json::from_str(json)?;
//! assert_eq!((settings.timeout, settings.keep_alive), (Duration::from_secs(90), None));
//! let text = serde_json::to_string(&settings)?;
//! assert_eq!(text, r#"{"timeout":"1min 30s","keep_alive":null,"pauses":["1s","5s"]}"#);
//!
//! let refusal = serde_json::from_str::<Settings>(r#"{ "timeout": 90 }"#).err().unwrap();
//! let line = "invalid type: integer `90`, expected a duration such as '1min 30s'";
//! assert!(refusal.to_string().starts_with(line));
//! # Ok::<(), serde_json::Error>(())
//! ```
//!
//! [`human_require_unit`](crate::human_require_unit) refuses a number without a unit, and
//! [`human_more_names`](crate::human_more_names) reads more names of units. To use another call or
//! options, write a function for `deserialize_with`:
//!
//! ```
//! use duration_str::{TimeUnit, parse_in};
//! use serde::{Deserialize, Deserializer, de::Error};
//! use std::time::Duration;
//!
//! fn in_minutes<'de, D: Deserializer<'de>>(deserializer: D) -> Result<Duration, D::Error> {
//!     let text = String::deserialize(deserializer)?;
//!     parse_in(&text, TimeUnit::Minute)
//!         .map_err(|error| D::Error::custom(format_args!("invalid duration: {error}")))
//! }
//!
//! #[derive(Deserialize)]
//! struct Settings {
//!     #[serde(deserialize_with = "in_minutes")]
//!     timeout: Duration,
//! }
//!
//! let settings: Settings = serde_json::from_str(r#"{ "timeout": "15" }"#)?;
//! assert_eq!(settings.timeout, Duration::from_secs(15 * 60));
//! assert!(serde_json::from_str::<Settings>(r#"{ "timeout": "90s*2" }"#).is_err());
//! # Ok::<(), serde_json::Error>(())
//! ```
//!
//! All units are written, so 30 days become `1mon`. To choose other units, write a function for
//! `serialize_with`:
//!
//! ```
//! use duration_str::{TimeUnit, format_duration};
//! use serde::{Serialize, Serializer};
//! use std::time::Duration;
//!
//! fn in_days<S: Serializer>(duration: &Duration, serializer: S) -> Result<S::Ok, S::Error> {
//!     serializer.collect_str(&format_duration(*duration).largest(TimeUnit::Day))
//! }
//!
//! #[derive(Serialize)]
//! struct Settings {
//!     #[serde(serialize_with = "in_days")]
//!     retention: Duration,
//! }
//!
//! let settings = Settings { retention: Duration::from_secs(30 * 86_400) };
//! assert_eq!(serde_json::to_string(&settings)?, r#"{"retention":"30d"}"#);
//! # Ok::<(), serde_json::Error>(())
//! ```
use crate::human_duration::HumanDuration;
use crate::human_format::Sealed;
use crate::humantime;
use crate::parser::{ADDITIONS, REQUIRING_UNITS, naming, parse_by, parse_with};
use crate::serde::original::Length;
use crate::{HUMAN_BUFFER_SIZE, Rules, TimeUnit, write_human};
use alloc::collections::BTreeMap;
use alloc::string::String;
use alloc::vec::Vec;
use core::fmt;
use core::marker::PhantomData;
use core::str;
use core::time::Duration;
use serde::de::{
    self, Deserialize, DeserializeOwned, Deserializer, IgnoredAny, MapAccess, Unexpected, Visitor,
};
use serde::ser::{self, Serialize, Serializer};

/// The types of fields that this module, [`human_require_unit`](crate::human_require_unit),
/// [`human_more_names`](crate::human_more_names), [`human_or_seconds`](crate::human_or_seconds),
/// [`human_or_millis`](crate::human_or_millis) and [`humantime_serde`](crate::humantime_serde)
/// write and read.
///
/// A map of durations is read by the module's rules, too:
///
/// ```
/// use duration_str::human_or_seconds;
/// use serde_json::json;
/// use std::collections::BTreeMap;
/// use std::time::Duration;
///
/// let pauses: BTreeMap<String, Duration> =
///     human_or_seconds::deserialize(json!({ "first": "5s", "later": 90 }))?;
/// assert_eq!(pauses["later"], Duration::from_secs(90));
/// # Ok::<(), serde_json::Error>(())
/// ```
#[diagnostic::on_unimplemented(
    message = "`duration_str::human` has no fields of the type `{Self}`",
    label = "no duration of std, chrono or time, and no `Option`, `Vec` or `BTreeMap` of them",
    note = "a `HumanDuration` needs no `with`, and reads a number without a unit as seconds"
)]
pub trait HumanText: Sealed + Sized {
    #[doc(hidden)]
    fn serialize_human<S: Serializer, const HOW: u8>(
        &self,
        serializer: S,
    ) -> Result<S::Ok, S::Error>;

    #[doc(hidden)]
    fn deserialize_human<'de, D: Deserializer<'de>, const HOW: u8>(
        deserializer: D,
    ) -> Result<Self, D::Error>;
}

/// Prints durations as text.
///
/// # Errors
///
/// Returns an error of the format, for example if the text could not be read back.
///
/// ```
/// use serde_json::value::Serializer;
/// use std::time::Duration;
///
/// assert_eq!(duration_str::human::serialize(&Duration::ZERO, Serializer)?, "0s");
/// let refusal = duration_str::human::serialize(&Duration::MAX, Serializer).unwrap_err();
/// assert_eq!(refusal.to_string(), "a duration of over 584 years can't be read back");
/// # Ok::<(), serde_json::Error>(())
/// ```
pub fn serialize<T: HumanText, S: Serializer>(value: &T, serializer: S) -> Result<S::Ok, S::Error> {
    value.serialize_human::<S, TEXT>(serializer)
}

/// Reads durations from texts.
///
/// # Errors
///
/// Returns an error of the format, for example if a text is refused.
///
/// ```
/// use std::time::Duration;
///
/// let duration: Duration = duration_str::human::deserialize(serde_json::json!("1m"))?;
/// assert_eq!(duration, Duration::from_secs(60));
/// # Ok::<(), serde_json::Error>(())
/// ```
pub fn deserialize<'de, T: HumanText, D: Deserializer<'de>>(
    deserializer: D,
) -> Result<T, D::Error> {
    T::deserialize_human::<D, TEXT>(deserializer)
}

/// The ways in which a field is read and written. `STRICT` is that of `humantime_serde`.
pub(crate) const TEXT: u8 = 0;
pub(crate) const REQUIRE_UNIT: u8 = 1;
pub(crate) const SECONDS: u8 = 2;
pub(crate) const STRICT: u8 = 3;
pub(crate) const MILLIS: u8 = 4;
pub(crate) const MORE_NAMES: u8 = 5;

/// If this is `None`, a number that is not a text is refused.
const fn unit_of_numbers(how: u8) -> Option<TimeUnit> {
    match how {
        SECONDS => Some(TimeUnit::Second),
        MILLIS => Some(TimeUnit::MilliSecond),
        _ => None,
    }
}

/// If the feature `arbitrary_precision` of serde_json is on, a number that is no integer of 64 bits
/// can come as a map from this key to the number's text.
const NUMBER_KEY: &str = "$serde_json::private::Number";

fn text_of_number<'de, A: MapAccess<'de>>(mut map: A) -> Option<String> {
    if map.next_key::<String>().ok()?? != NUMBER_KEY {
        return None;
    }
    let text: String = map.next_value().ok()?;
    let next_key = map.next_key::<IgnoredAny>().ok()?;
    (next_key.is_none() && is_number(&text)).then_some(text)
}

/// Whether JSON's grammar allows this number. Rust's `parse` also reads others, such as `+30`.
fn is_number(text: &str) -> bool {
    let text = text.strip_prefix('-').unwrap_or(text);
    let (mantissa, exponent) = text.split_once(['e', 'E']).unwrap_or((text, "0"));
    let (whole, fraction) = mantissa.split_once('.').unwrap_or((mantissa, "0"));
    let exponent = exponent.strip_prefix(['+', '-']).unwrap_or(exponent);
    let is_digits = |part: &str| !part.is_empty() && part.bytes().all(|b| b.is_ascii_digit());
    [whole, fraction, exponent].into_iter().all(is_digits)
        && (whole == "0" || !whole.starts_with('0'))
}

struct Text<T, const HOW: u8>(PhantomData<T>);

impl<'de, T: Length, const HOW: u8> Visitor<'de> for Text<T, HOW> {
    type Value = T;

    fn expecting(&self, f: &mut fmt::Formatter<'_>) -> fmt::Result {
        f.write_str("a duration such as '1min 30s'")?;
        f.write_str(match HOW {
            SECONDS => ", or whole seconds of at most 584 years",
            MILLIS => ", or whole milliseconds of at most 584 years",
            _ => "",
        })
    }

    fn visit_u64<E: de::Error>(self, number: u64) -> Result<T, E> {
        let Some(unit) = unit_of_numbers(HOW) else {
            return Err(E::invalid_type(Unexpected::Unsigned(number), &self));
        };
        match number.checked_mul(unit.nanos()) {
            Some(nanos) => Ok(T::of_std(Duration::from_nanos(nanos))),
            None => Err(E::invalid_value(Unexpected::Unsigned(number), &self)),
        }
    }

    fn visit_i64<E: de::Error>(self, number: i64) -> Result<T, E> {
        match u64::try_from(number) {
            Ok(number) => self.visit_u64(number),
            Err(_) if unit_of_numbers(HOW).is_some() => {
                Err(E::invalid_value(Unexpected::Signed(number), &self))
            }
            Err(_) => Err(E::invalid_type(Unexpected::Signed(number), &self)),
        }
    }

    fn visit_u128<E: de::Error>(self, number: u128) -> Result<T, E> {
        match u64::try_from(number) {
            Ok(number) => self.visit_u64(number),
            Err(_) => {
                let number = Unexpected::Other("integer of 2^64 or more");
                Err(E::invalid_value(number, &self))
            }
        }
    }

    fn visit_i128<E: de::Error>(self, number: i128) -> Result<T, E> {
        match u128::try_from(number) {
            Ok(number) => self.visit_u128(number),
            Err(_) => {
                let number = Unexpected::Other("negative integer");
                Err(E::invalid_value(number, &self))
            }
        }
    }

    fn visit_f32<E: de::Error>(self, number: f32) -> Result<T, E> {
        self.visit_whole(number.into(), f32::MANTISSA_DIGITS)
    }

    fn visit_f64<E: de::Error>(self, number: f64) -> Result<T, E> {
        self.visit_whole(number, f64::MANTISSA_DIGITS)
    }

    fn visit_str<E: de::Error>(self, text: &str) -> Result<T, E> {
        let read = match HOW {
            REQUIRE_UNIT => parse_by(text, REQUIRING_UNITS),
            STRICT => humantime::read(text),
            MILLIS => parse_by(text, naming(TimeUnit::MilliSecond)),
            MORE_NAMES => parse_by(text, Rules::of(ADDITIONS).more_names()),
            _ => parse_with(text, ADDITIONS),
        };
        // A format can add a line and a column of its own, so the message says what it is about.
        read.map(T::of_std)
            .map_err(|fault| E::custom(format_args!("invalid duration: {fault}")))
    }

    fn visit_bytes<E: de::Error>(self, bytes: &[u8]) -> Result<T, E> {
        match str::from_utf8(bytes) {
            Ok(text) => self.visit_str(text),
            Err(_) => Err(E::invalid_value(Unexpected::Bytes(bytes), &self)),
        }
    }

    fn visit_map<A: MapAccess<'de>>(self, map: A) -> Result<T, A::Error> {
        let text = text_of_number(map).unwrap_or_default();
        if let Ok(number) = text.parse() {
            return self.visit_u64(number);
        }
        match text.parse::<f64>() {
            Ok(number) if number.is_finite() => self.visit_f64(number),
            // serde_json has these words, too.
            Ok(_) => Err(de::Error::custom("number out of range")),
            Err(_) => Err(de::Error::invalid_type(Unexpected::Map, &self)),
        }
    }
}

impl<T: Length, const HOW: u8> Text<T, HOW> {
    /// The float must be below 2 to the power of `digits`. From there on it can have lost digits.
    fn visit_whole<E: de::Error>(self, number: f64, digits: u32) -> Result<T, E> {
        if unit_of_numbers(HOW).is_none() {
            return Err(E::invalid_type(Unexpected::Float(number), &self));
        }
        // The cast cuts a fraction off, and makes 0 of NaN and of negative numbers.
        let whole = number as u64;
        if whole as f64 == number && whole < 1 << digits {
            self.visit_u64(whole)
        } else {
            Err(E::invalid_value(Unexpected::Float(number), &self))
        }
    }
}

impl<T: Length> HumanText for T {
    fn serialize_human<S: Serializer, const HOW: u8>(
        &self,
        serializer: S,
    ) -> Result<S::Ok, S::Error> {
        let refused = <S::Error as ser::Error>::custom;
        let Some(duration) = self.to_std() else {
            return Err(refused("a negative duration can't be read back"));
        };
        if duration > Duration::from_nanos(u64::MAX) {
            let text = "a duration of over 584 years can't be read back";
            return Err(refused(text));
        }
        if HOW == STRICT {
            return serializer.collect_str(&humantime::format_duration(duration));
        }
        serializer.serialize_str(write_human(&duration, &mut [0; HUMAN_BUFFER_SIZE]))
    }

    fn deserialize_human<'de, D: Deserializer<'de>, const HOW: u8>(
        deserializer: D,
    ) -> Result<T, D::Error> {
        let text = Text::<T, HOW>(PhantomData);
        if unit_of_numbers(HOW).is_some() {
            deserializer.deserialize_any(text)
        } else {
            deserializer.deserialize_str(text)
        }
    }
}

/// A part of a field, which implements serde's own traits.
struct Part<T, const HOW: u8>(T);

impl<T: HumanText, const HOW: u8> Serialize for Part<&T, HOW> {
    fn serialize<S: Serializer>(&self, serializer: S) -> Result<S::Ok, S::Error> {
        self.0.serialize_human::<S, HOW>(serializer)
    }
}

impl<'de, T: HumanText, const HOW: u8> Deserialize<'de> for Part<T, HOW> {
    fn deserialize<D: Deserializer<'de>>(deserializer: D) -> Result<Self, D::Error> {
        T::deserialize_human::<D, HOW>(deserializer).map(Part)
    }
}

impl<T: HumanText> HumanText for Option<T> {
    fn serialize_human<S: Serializer, const HOW: u8>(
        &self,
        serializer: S,
    ) -> Result<S::Ok, S::Error> {
        self.as_ref().map(Part::<&T, HOW>).serialize(serializer)
    }

    fn deserialize_human<'de, D: Deserializer<'de>, const HOW: u8>(
        deserializer: D,
    ) -> Result<Self, D::Error> {
        let value = Option::<Part<T, HOW>>::deserialize(deserializer)?;
        Ok(value.map(|Part(value)| value))
    }
}

impl<T: HumanText> HumanText for Vec<T> {
    fn serialize_human<S: Serializer, const HOW: u8>(
        &self,
        serializer: S,
    ) -> Result<S::Ok, S::Error> {
        serializer.collect_seq(self.iter().map(Part::<&T, HOW>))
    }

    fn deserialize_human<'de, D: Deserializer<'de>, const HOW: u8>(
        deserializer: D,
    ) -> Result<Self, D::Error> {
        let values = Vec::<Part<T, HOW>>::deserialize(deserializer)?;
        Ok(values.into_iter().map(|Part(value)| value).collect())
    }
}

impl<K, T> HumanText for BTreeMap<K, T>
where
    K: Ord + Serialize + DeserializeOwned,
    T: HumanText,
{
    fn serialize_human<S: Serializer, const HOW: u8>(
        &self,
        serializer: S,
    ) -> Result<S::Ok, S::Error> {
        serializer.collect_map(
            self.iter()
                .map(|(key, value)| (key, Part::<&T, HOW>(value))),
        )
    }

    fn deserialize_human<'de, D: Deserializer<'de>, const HOW: u8>(
        deserializer: D,
    ) -> Result<Self, D::Error> {
        let values = BTreeMap::<K, Part<T, HOW>>::deserialize(deserializer)?;
        let named = values.into_iter();
        Ok(named.map(|(key, Part(value))| (key, value)).collect())
    }
}

impl Serialize for HumanDuration {
    fn serialize<S: Serializer>(&self, serializer: S) -> Result<S::Ok, S::Error> {
        self.0.serialize_human::<S, TEXT>(serializer)
    }
}

impl<'de> Deserialize<'de> for HumanDuration {
    fn deserialize<D: Deserializer<'de>>(deserializer: D) -> Result<HumanDuration, D::Error> {
        deserialize(deserializer).map(HumanDuration)
    }
}
