//! Durations as text, which serde writes and reads.
use crate::vectors;
use duration_str::human::{self, HumanText};
use duration_str::{
    HumanDuration, Style, TimeUnit, UnknownStyle, UnknownUnit, human_more_names, human_or_millis,
    human_require_unit, humantime_serde,
};
use serde::de::value::{BytesDeserializer, Error};
use serde::de::{Deserializer, Error as _, Visitor};
use serde::{Deserialize, Serialize, forward_to_deserialize_any};
use serde_json::{Value, from_value, json, to_value, value::Serializer};
use std::collections::BTreeMap;
use std::time::Duration;

#[derive(Debug, Serialize, Deserialize, PartialEq)]
struct Settings {
    #[serde(with = "duration_str::human")]
    timeout: Duration,
    #[serde(default, with = "duration_str::human")]
    keep_alive: Option<Duration>,
    pause: HumanDuration,
}

#[test]
fn writes_what_it_reads() {
    let minute = Duration::from_secs(60);
    for (keep_alive, text) in [(Some(minute), json!("1min")), (None, json!(null))] {
        let settings = Settings {
            timeout: minute,
            keep_alive,
            pause: HumanDuration(minute * 2),
        };
        let value = json!({ "timeout": "1min", "keep_alive": text, "pause": "2min" });
        assert_eq!(to_value(&settings).unwrap(), value);
        assert_eq!(from_value::<Settings>(value).unwrap(), settings);
    }
    let short = from_value::<Settings>(json!({ "timeout": "1m", "pause": "2m" })).unwrap();
    assert_eq!(short.keep_alive, None);
}

#[derive(Serialize, Deserialize)]
struct FromHumantime {
    #[serde(with = "humantime_serde")]
    timeout: Duration,
    #[serde(default, with = "humantime_serde::option")]
    keep_alive: Option<Duration>,
}

#[test]
fn has_the_durations_of_humantime() {
    let of_humantime = json!({ "timeout": "11months 30days 3h 50m 24s", "keep_alive": "1year" });
    let read: FromHumantime = from_value(of_humantime).unwrap();
    assert_eq!(read.timeout, Duration::from_secs(365 * 86_400));
    assert_eq!(
        read.keep_alive,
        Some(Duration::from_secs(365 * 86_400 + 6 * 3_600))
    );
    let written = json!({ "timeout": "11months 30days 3h 50m 24s", "keep_alive": "1year" });
    assert_eq!(to_value(&read).unwrap(), written);
    let again: FromHumantime = from_value(written).unwrap();
    assert_eq!(
        (again.timeout, again.keep_alive),
        (read.timeout, read.keep_alive)
    );
    let pauses =
        humantime_serde::serialize(&vec![Duration::from_micros(1), Duration::ZERO], Serializer)
            .unwrap();
    assert_eq!(pauses, json!(["1us", "0s"]));
    for too_long in [
        Duration::MAX,
        Duration::from_nanos(u64::MAX) + Duration::from_nanos(1),
    ] {
        assert!(humantime_serde::serialize(&too_long, Serializer).is_err());
    }
}

#[test]
fn reads_the_month_of_humantime() {
    let read: FromHumantime = from_value(json!({ "timeout": "1m", "keep_alive": "1M" })).unwrap();
    let month = Duration::from_secs(2_630_016);
    assert_eq!(read.timeout, Duration::from_secs(60));
    assert_eq!(read.keep_alive, Some(month));
    let refusal = from_value::<FromHumantime>(json!({ "timeout": "90" }))
        .err()
        .unwrap();
    let line = "invalid duration: expected a unit at column 3";
    assert!(refusal.to_string().starts_with(line), "{refusal}");
    let minute: Duration = human::deserialize(json!("1M")).unwrap();
    assert_eq!(minute, Duration::from_secs(60));
}

#[test]
fn reads_and_writes_names() {
    let units: Vec<TimeUnit> = from_value(json!(["y", "Hours", "us"])).unwrap();
    assert_eq!(to_value(&units).unwrap(), json!(["y", "h", "µs"]));
    let styles = json!(vectors().styles);
    let read: Vec<Style> = from_value(styles.clone()).unwrap();
    assert_eq!(to_value(&read).unwrap(), styles);
    for (refused, refusal) in [
        (
            from_value::<Style>(json!("Long")).err(),
            UnknownStyle.to_string(),
        ),
        (
            from_value::<TimeUnit>(json!("5")).err(),
            UnknownUnit.to_string(),
        ),
        (
            from_value::<TimeUnit>(json!(5)).err(),
            "invalid type: integer `5`, expected a name".to_string(),
        ),
    ] {
        assert_eq!(refused.unwrap().to_string(), refusal);
    }
    assert_eq!(TimeUnit::deserialize(Untyped("h")), Ok(TimeUnit::Hour));
}

#[test]
fn refuses_other_values() {
    for timeout in [json!("1x"), json!(""), json!(1), json!(null), json!(["1m"])] {
        assert!(from_value::<Settings>(json!({ "timeout": timeout, "pause": "1m" })).is_err());
        assert!(from_value::<Settings>(json!({ "timeout": "1m", "pause": timeout })).is_err());
    }
}

#[test]
fn reads_optional_bytes_as_text() {
    let read = |bytes| -> Result<Option<Duration>, String> {
        let bytes: BytesDeserializer<'_, Error> = BytesDeserializer::new(bytes);
        duration_str::deserialize_duration(bytes).map_err(|error| error.to_string())
    };
    assert_eq!(read(b"1m"), Ok(Some(Duration::from_secs(60))));
    assert_eq!(read(b""), Ok(None));
    assert_eq!(read(b"600y"), Err("600y\n^\noverflow error".to_string()));
    assert!(
        read(b"1m\xff")
            .unwrap_err()
            .starts_with("invalid value: byte array")
    );
}

/// A text in a format that does not store the types of its values.
struct Untyped(&'static str);

impl<'de> Deserializer<'de> for Untyped {
    type Error = Error;

    fn deserialize_any<V: Visitor<'de>>(self, _: V) -> Result<V::Value, Error> {
        Err(Error::custom("the type is not known"))
    }

    fn deserialize_str<V: Visitor<'de>>(self, visitor: V) -> Result<V::Value, Error> {
        visitor.visit_borrowed_str(self.0)
    }

    fn deserialize_option<V: Visitor<'de>>(self, visitor: V) -> Result<V::Value, Error> {
        visitor.visit_some(self)
    }

    forward_to_deserialize_any! {
        bool i8 i16 i32 i64 u8 u16 u32 u64 f32 f64 char string bytes byte_buf unit unit_struct newtype_struct seq
        tuple tuple_struct map struct enum identifier ignored_any
    }
}

fn read<D: Deserializer<'static, Error = Error>>(text: impl Fn() -> D) -> Result<Duration, String> {
    let required: Result<Duration, Error> = human::deserialize(text());
    let optional: Result<Option<Duration>, Error> = human::deserialize(text());
    assert_eq!(optional, required.clone().map(Some));
    assert_eq!(
        HumanDuration::deserialize(text()).map(Duration::from),
        required
    );
    required.map_err(|error| error.to_string())
}

#[test]
fn reads_required_and_optional_texts_in_one_way() {
    let minute = Ok(Duration::from_secs(60));
    assert_eq!(read(|| Untyped("1m")), minute);
    assert_eq!(read(|| Untyped("60")), minute);
    assert_eq!(
        read(|| Untyped("")),
        Err("invalid duration: empty text".to_string())
    );
    let required: Result<Duration, Error> = duration_str::deserialize_duration(Untyped("60"));
    assert_eq!(required, Err(Error::custom("the type is not known")));
    let optional: Result<Option<Duration>, Error> =
        duration_str::deserialize_duration(Untyped("60"));
    assert_eq!(optional, Ok(Some(Duration::from_secs(60))));
    let optional = Option::<HumanDuration>::deserialize(Untyped(""));
    assert_eq!(optional, Err(Error::custom("invalid duration: empty text")));
}

#[test]
fn reads_bytes_as_text() {
    let bytes = |bytes| human::deserialize(BytesDeserializer::<Error>::new(bytes));
    assert_eq!(bytes(b"1m"), Ok(Duration::from_secs(60)));
    let refusal = "invalid value: byte array, expected a duration such as '1min 30s'";
    assert_eq!(bytes(b"1m\xff"), Err(Error::custom(refusal)));
}

fn keeps<T: HumanText + std::fmt::Debug + PartialEq>(value: T, written: Value) {
    assert_eq!(human::serialize(&value, Serializer).unwrap(), written);
    assert_eq!(human::deserialize::<T, _>(written).unwrap(), value);
}

#[test]
fn writes_fields_of_all_types() {
    let minute = Duration::from_secs(60);
    keeps(vec![minute, minute * 2], json!(["1min", "2min"]));
    keeps(Vec::<Duration>::new(), json!([]));
    keeps(Some(vec![Some(minute), None]), json!(["1min", null]));
    keeps(None::<Duration>, json!(null));
    keeps(
        Duration::from_nanos(u64::MAX),
        json!("584y 3q 2mon 1w 3d 23h 34min 33s 709ms 551µs 615ns"),
    );
    #[cfg(feature = "chrono")]
    keeps(Some(chrono::Duration::minutes(1)), json!("1min"));
    #[cfg(feature = "time")]
    keeps(Some(time::Duration::minutes(1)), json!("1min"));
}

#[test]
fn writes_nothing_that_it_refuses() {
    let refusal = |value: Result<Value, serde_json::Error>| {
        value.map_err(|error| error.to_string()).unwrap_err()
    };
    let long = "a duration of over 584 years can't be read back";
    for length in [
        Duration::from_nanos(u64::MAX) + Duration::from_nanos(1),
        Duration::MAX,
    ] {
        assert_eq!(refusal(to_value(HumanDuration(length))), long);
        assert_eq!(refusal(human::serialize(&length, Serializer)), long);
        assert_eq!(refusal(human::serialize(&Some(length), Serializer)), long);
    }
    #[cfg(any(feature = "chrono", feature = "time"))]
    let negative = "a negative duration can't be read back";
    #[cfg(feature = "chrono")]
    assert_eq!(
        refusal(human::serialize(
            &chrono::Duration::nanoseconds(-1),
            Serializer
        )),
        negative
    );
    #[cfg(feature = "time")]
    assert_eq!(
        refusal(human::serialize(
            &time::Duration::nanoseconds(-1),
            Serializer
        )),
        negative
    );
}

#[derive(Debug, Serialize, Deserialize, PartialEq)]
struct RequireUnit {
    #[serde(with = "duration_str::human_require_unit")]
    timeout: Duration,
    #[serde(default, with = "duration_str::human_require_unit")]
    keep_alive: Option<Duration>,
    #[serde(default, with = "duration_str::human_require_unit")]
    pauses: Vec<Duration>,
}

#[test]
fn requires_units_in_fields() {
    let minute = Duration::from_secs(60);
    let wanted = RequireUnit {
        timeout: minute,
        keep_alive: Some(minute),
        pauses: vec![minute],
    };
    let written = json!({ "timeout": "1min", "keep_alive": "1min", "pauses": ["1min"] });
    assert_eq!(to_value(&wanted).unwrap(), written);
    assert_eq!(from_value::<RequireUnit>(written).unwrap(), wanted);
    let short: RequireUnit = from_value(json!({ "timeout": "1m" })).unwrap();
    assert_eq!((short.keep_alive, short.pauses), (None, vec![]));
    for refused in [
        json!({ "timeout": "90" }),
        json!({ "timeout": "1m", "keep_alive": "90" }),
        json!({ "timeout": "1m", "pauses": ["1m", "90"] }),
    ] {
        let refusal = from_value::<RequireUnit>(refused).unwrap_err().to_string();
        let line = "invalid duration: expected a unit at column 3, found the end \
            (write the number's unit: y, q, mon, w, d, h, min, s, ms, us or ns)";
        assert_eq!(refusal, line);
    }
    let number: Result<Duration, _> = human_require_unit::deserialize(Untyped("90"));
    assert!(number.is_err());
    assert!(human_require_unit::deserialize::<Duration, _>(json!(90)).is_err());
}

#[test]
fn reads_more_names_in_fields() {
    let text = json!({ "first": "5 mins", "later": ["2hrs 30", "1 yr"], "none": null });
    let read: MoreNames = from_value(text).unwrap();
    let wanted = MoreNames {
        first: Duration::from_secs(300),
        later: vec![Duration::from_secs(7_230), Duration::from_secs(31_536_000)],
        none: None,
    };
    assert_eq!(read, wanted);
    let written = json!({ "first": "5min", "later": ["2h 30s", "1y"], "none": null });
    assert_eq!(to_value(&read).unwrap(), written);
    for (refused, line) in [
        (
            "5 minz",
            "unknown unit \"minz\" at column 3 (write y, q, mon, w, d, h, min, s, ms, us or ns)",
        ),
        (
            "5 Mo",
            "unknown unit \"Mo\" at column 3 (write y, q, mon, w, d, h, min, s, ms, us or ns)",
        ),
        (
            "5 mos",
            "unknown unit \"mos\" at column 3 (did you mean \"mon\"?)",
        ),
    ] {
        let refusal = human_more_names::deserialize::<Duration, _>(json!(refused)).unwrap_err();
        assert_eq!(refusal.to_string(), format!("invalid duration: {line}"));
    }
    assert!(human_more_names::deserialize::<Duration, _>(json!(300)).is_err());
    assert!(human::deserialize::<Duration, _>(json!("5 mins")).is_err());
}

#[derive(Debug, Serialize, Deserialize, PartialEq)]
struct MoreNames {
    #[serde(with = "duration_str::human_more_names")]
    first: Duration,
    #[serde(with = "duration_str::human_more_names")]
    later: Vec<Duration>,
    #[serde(with = "duration_str::human_more_names")]
    none: Option<Duration>,
}

#[test]
fn reads_and_writes_maps_by_the_rules_of_the_module() {
    type Pauses = BTreeMap<String, Option<Duration>>;
    let read = |value| human_or_millis::deserialize::<Pauses, _>(value);
    let pauses = read(json!({ "first": 1500, "later": "2s", "none": null })).unwrap();
    assert_eq!(pauses["first"], Some(Duration::from_millis(1500)));
    assert_eq!(
        (pauses["later"], pauses["none"]),
        (Some(Duration::from_secs(2)), None)
    );
    let written = human_or_millis::serialize(&pauses, Serializer);
    assert_eq!(
        written.unwrap(),
        json!({ "first": "1s 500ms", "later": "2s", "none": null })
    );
    let bare = json!({ "first": "90" });
    assert!(human::deserialize::<BTreeMap<String, Duration>, _>(bare.clone()).is_ok());
    assert!(human_require_unit::deserialize::<BTreeMap<String, Duration>, _>(bare).is_err());
}
