//! Durations that serde reads as numbers too: whole seconds or milliseconds.
use crate::vectors;
use duration_str::{
    TimeUnit, human, human_or_millis, human_or_seconds, human_require_unit, humantime_serde,
    parse_duration, parse_in,
};
use serde::de::Deserializer;
use serde::de::value::{
    BytesDeserializer, Error, F32Deserializer, F64Deserializer, I64Deserializer, I128Deserializer,
    U64Deserializer, U128Deserializer,
};
use serde_json::{Value, json, value::Serializer};
use std::time::Duration;

fn with_numbers<'de, D: Deserializer<'de, Error = Error>>(value: D) -> Result<Duration, String> {
    human_or_seconds::deserialize(value).map_err(|error| error.to_string())
}

#[test]
fn reads_whole_seconds_and_texts() {
    let minute = Ok(Duration::from_secs(60));
    // JSON and YAML pass positive integers on as unsigned, and TOML passes integers on as signed.
    assert_eq!(with_numbers(U64Deserializer::new(60)), minute);
    assert_eq!(with_numbers(I64Deserializer::new(60)), minute);
    assert_eq!(with_numbers(U128Deserializer::new(60)), minute);
    assert_eq!(with_numbers(I128Deserializer::new(60)), minute);
    assert_eq!(with_numbers(BytesDeserializer::new(b"1m")), minute);
    let several: Vec<Option<Duration>> =
        human_or_seconds::deserialize(json!([1, "2s", null])).unwrap();
    assert_eq!(
        several,
        [1, 2, 0].map(|secs| (secs > 0).then(|| Duration::from_secs(secs)))
    );
    assert_eq!(
        human_or_seconds::serialize(&several, Serializer).unwrap(),
        json!(["1s", "2s", null])
    );
}

fn in_millis<'de, D: Deserializer<'de, Error = Error>>(value: D) -> Result<Duration, String> {
    human_or_millis::deserialize(value).map_err(|error| error.to_string())
}

#[test]
fn reads_whole_milliseconds_and_texts() {
    let longest = u64::MAX / 1_000_000;
    let most = Ok(Duration::from_millis(longest));
    assert_eq!(in_millis(U64Deserializer::new(longest)), most);
    for value in [json!(1_500), json!("1500"), json!("1s 500")] {
        let several: Vec<Option<Duration>> =
            human_or_millis::deserialize(json!([value, null])).unwrap();
        let written = human_or_millis::serialize(&several, Serializer).unwrap();
        assert_eq!(written, json!(["1s 500ms", null]));
    }
    let expected = "a duration such as '1min 30s', or whole milliseconds of at most 584 years";
    let refusal = |sort: &str| Err(format!("invalid {sort}, expected {expected}"));
    assert_eq!(
        in_millis(I64Deserializer::new(-1)),
        refusal("value: integer `-1`")
    );
    assert_eq!(
        in_millis(U64Deserializer::new(longest + 1)),
        refusal("value: integer `18446744073710`")
    );
    for text in ["90s*2", "5 mins"] {
        let line = parse_in(text, TimeUnit::MilliSecond).unwrap_err();
        let refusal = in_millis(BytesDeserializer::new(text.as_bytes()));
        assert_eq!(refusal, Err(format!("invalid duration: {line}")));
    }
}

#[test]
fn reads_whole_floats_as_numbers() {
    let wanted = Ok(Duration::from_millis(1_500));
    assert_eq!(in_millis(F64Deserializer::new(1_500.0)), wanted);
    assert_eq!(in_millis(F32Deserializer::new(1_500.0)), wanted);
    assert_eq!(
        with_numbers(F64Deserializer::new(30.0)),
        Ok(Duration::from_secs(30))
    );
    assert_eq!(in_millis(F64Deserializer::new(-0.0)), Ok(Duration::ZERO));
    let json: Option<Duration> = human_or_millis::deserialize(json!(1_500.0)).unwrap();
    assert_eq!(json, Some(Duration::from_millis(1_500)));
    // These are the greatest floats of 32 and of 64 bits that can't have lost a digit. As
    // milliseconds, the second is too long, so it is refused with the error of the same integer.
    assert_eq!(
        in_millis(F32Deserializer::new(16_777_215.0)),
        Ok(Duration::from_millis(16_777_215))
    );
    assert_eq!(
        in_millis(F64Deserializer::new(9_007_199_254_740_991.0)),
        in_millis(U64Deserializer::new(9_007_199_254_740_991))
    );
}

#[test]
fn refuses_other_floats() {
    let expected = "a duration such as '1min 30s', or whole milliseconds of at most 584 years";
    let is_refused = |read: Result<Duration, String>| {
        let line = read.unwrap_err();
        // Some versions of serde write `-1.0` as `-1`.
        assert!(
            line.starts_with("invalid value: floating point `"),
            "{line}"
        );
        assert!(line.ends_with(&format!(", expected {expected}")), "{line}");
    };
    for number in [
        1.5,
        -1.0,
        0.1,
        9_007_199_254_740_992.0,
        18_446_744_073_709_551_616.0,
        f64::NAN,
        f64::INFINITY,
    ] {
        is_refused(in_millis(F64Deserializer::new(number)));
    }
    is_refused(in_millis(F32Deserializer::new(16_777_216.0)));
    assert!(human::deserialize::<Duration, _>(json!(60.0)).is_err());
    assert!(human_require_unit::deserialize::<Duration, _>(json!(60.0)).is_err());
    let number = F64Deserializer::<Error>::new(60.0);
    assert!(human::deserialize::<Duration, _>(number).is_err());
}

/// Only seconds and milliseconds have a module that reads numbers.
fn by_module(unit: &str, value: Value) -> Option<Result<Duration, serde_json::Error>> {
    match unit {
        "s" => Some(human_or_seconds::deserialize(value)),
        "ms" => Some(human_or_millis::deserialize(value)),
        _ => None,
    }
}

#[test]
fn reads_the_numbers_of_the_vectors() {
    for (unit, number, secs, nanos) in vectors().numbers {
        let wanted = Duration::new(secs, nanos);
        for value in [json!(number), json!(number.to_string())] {
            if let Some(read) = by_module(&unit, value) {
                assert_eq!(read.unwrap(), wanted, "{number} {unit}");
            }
        }
    }
    for (unit, number, _) in vectors().refused_numbers {
        for value in [json!(number.to_string()), number] {
            if let Some(read) = by_module(&unit, value) {
                assert!(read.is_err(), "{unit}");
            }
        }
    }
}

#[test]
fn refuses_other_numbers_in_one_line() {
    let refusal = |sort: &str| {
        let expected = "a duration such as '1min 30s', or whole seconds of at most 584 years";
        Err(format!("invalid {sort}, expected {expected}"))
    };
    assert_eq!(
        with_numbers(I64Deserializer::new(-1)),
        refusal("value: integer `-1`")
    );
    assert_eq!(
        with_numbers(U64Deserializer::new(18_446_744_074)),
        refusal("value: integer `18446744074`")
    );
    assert_eq!(
        with_numbers(U128Deserializer::new(1 << 64)),
        refusal("value: integer of 2^64 or more")
    );
    assert_eq!(
        with_numbers(I128Deserializer::new(-1)),
        refusal("value: negative integer")
    );
    let long: Result<Duration, _> = human_or_seconds::deserialize(json!("600y"));
    assert_eq!(
        long.unwrap_err().to_string(),
        format!("invalid duration: {}", parse_duration("600y").unwrap_err())
    );
    assert!(human::deserialize::<Duration, _>(json!(60)).is_err());
    // This deserializer gives a number even if it is asked for a text.
    let number = || I64Deserializer::<Error>::new(60);
    assert!(human::deserialize::<Duration, _>(number()).is_err());
    assert!(humantime_serde::deserialize::<Duration, _>(number()).is_err());
}
