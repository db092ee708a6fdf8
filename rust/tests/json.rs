//! Tests durations that are numbers in JSON. `tests/precision` runs the same rows with serde_json's
//! feature `arbitrary_precision`, under which serde_json passes some numbers on as maps.
#[path = "near.rs"]
mod near;

use duration_str::{human_or_millis, human_or_seconds, parse_duration};
use serde::Deserialize;
use serde_json::{Deserializer, Error, Number, json};
use std::time::Duration;

const EXPECTED: &str = "a duration such as '1min 30s', or whole seconds of at most 584 years";

#[derive(Deserialize)]
struct Settings {
    #[serde(with = "human_or_seconds")]
    timeout: Duration,
}

/// With `flatten`, serde keeps the values until the inner struct reads them.
#[derive(Deserialize)]
struct Outer {
    #[serde(flatten)]
    settings: Settings,
}

fn of_text(json: &str) -> Result<Duration, Error> {
    human_or_seconds::deserialize(&mut Deserializer::from_str(json))
}

fn both_ways(json: &str) -> [Result<Duration, Error>; 2] {
    let outer = serde_json::from_str(&format!(r#"{{ "timeout": {json} }}"#));
    let inner = outer.map(|outer: Outer| outer.settings.timeout);
    [of_text(json), inner]
}

#[test]
fn only_the_crate_precision_has_the_feature() {
    // Without the feature, serde_json refuses a number that is too large for a float.
    let has_feature = serde_json::from_str::<serde_json::Value>("1e400").is_ok();
    assert_eq!(has_feature, env!("CARGO_PKG_NAME") == "precision");
}

#[test]
fn reads_whole_numbers() {
    for (json, secs) in [
        ("30", 30),
        ("30.0", 30),
        ("3e1", 30),
        ("18446744073", 18_446_744_073),
        ("18446744073.0", 18_446_744_073),
        (r#""30""#, 30),
    ] {
        for read in both_ways(json) {
            assert_eq!(read.unwrap(), Duration::from_secs(secs), "{json}");
        }
    }
    let json = "[1500.0, 1.5e3, 1500, null]";
    let several: Vec<Option<Duration>> =
        human_or_millis::deserialize(&mut Deserializer::from_str(json)).unwrap();
    let pause = Some(Duration::from_millis(1_500));
    assert_eq!(several, [pause, pause, pause, None]);
}

#[test]
fn refuses_other_numbers() {
    for (json, kind) in [
        ("30.5", "floating point"),
        ("-1", "integer"),
        ("-1.5", "floating point"),
        ("18446744074", "integer"),
        ("18446744074.0", "integer"),
        ("18446744073709551615", "integer"),
        ("18446744073709551616", "floating point"),
        ("-9223372036854775809", "floating point"),
        ("1e18", "floating point"),
    ] {
        for read in both_ways(json) {
            let line = read.unwrap_err().to_string();
            let start = format!("invalid value: {kind} `");
            assert!(line.starts_with(&start), "{json}: {line}");
            let (found, rest) = line[start.len()..].split_once('`').unwrap();
            if kind == "integer" {
                assert_eq!(found, json.trim_end_matches(".0"));
            } else {
                // serde_json 1.0.87 writes 1e18 with all its zeros, and 1.0.139 as 1e18.
                assert_eq!(found.parse::<f64>(), json.parse::<f64>());
            }
            assert!(
                rest.starts_with(&format!(", expected {EXPECTED}")),
                "{json}: {line}"
            );
        }
    }
    for (json, start) in [
        ("1e400", "number out of range".to_string()),
        (
            r#""30.0""#,
            format!("invalid duration: {}", parse_duration("30.0").unwrap_err()),
        ),
    ] {
        for read in both_ways(json) {
            let line = read.unwrap_err().to_string();
            assert!(line.starts_with(&start), "{json}: {line}");
        }
    }
}

/// serde_json's own `Number` says which texts are numbers. Only with its feature does it read maps.
#[test]
fn takes_for_a_number_what_serde_json_takes() {
    let numbers = [
        "0", "30", "-1", "-0.0", "30.0", "0.5", "3e1", "0.3E+2", "3000e-2", "184e8", "inf", "NaN",
    ];
    let mut counts = [0, 0];
    for text in numbers.into_iter().flat_map(near::near) {
        let number = serde_json::from_str::<Number>(&text);
        // Here each float that is whole is exact.
        let secs = number.as_ref().ok().and_then(Number::as_f64);
        let whole =
            secs.filter(|secs| (0.0..18_446_744_074.0).contains(secs) && secs.fract() == 0.);
        let wanted = whole.map(Duration::from_secs_f64);
        let [_, read] = both_ways(&text);
        assert_eq!(read.ok(), wanted, "{text:?}");
        // If a library holds the map in a value of its own, the keys are not borrowed.
        let map = json!({ "$serde_json::private::Number": text });
        let is_number = if env!("CARGO_PKG_NAME") == "precision" {
            Number::deserialize(&map).is_ok()
        } else {
            number.is_ok() && text.trim() == text
        };
        counts[usize::from(is_number)] += 1;
        for read in [
            of_text(&map.to_string()),
            human_or_seconds::deserialize(map),
        ] {
            if is_number {
                assert_eq!(read.ok(), wanted, "{text:?}");
            } else {
                let line = read.expect_err(&text).to_string();
                assert!(line.starts_with("invalid type: map, "), "{text:?}: {line}");
            }
        }
    }
    assert!(counts.iter().all(|count| *count > 300), "{counts:?}");
}

#[test]
fn refuses_maps_that_are_no_numbers() {
    let map = format!("invalid type: map, expected {EXPECTED} at line 1 column ");
    for json in [
        "{}",
        r#"{ "secs": 30 }"#,
        r#"{ "secs": "30.0" }"#,
        r#"{ "$serde_json::private::Number": 30 }"#,
        r#"{ "$serde_json::private::Number": "30.0", "secs": 30 }"#,
        r#"{ "secs": 30, "$serde_json::private::Number": "30.0" }"#,
    ] {
        let line = of_text(json).unwrap_err().to_string();
        assert!(line.starts_with(&map), "{json}: {line}");
    }
    let json = r#"{ "$serde_json::private::Number": "18446744073709551615" }"#;
    let line = of_text(json).unwrap_err().to_string();
    let start = "invalid value: integer `18446744073709551615`, expected ";
    assert!(line.starts_with(start), "{line}");
}
