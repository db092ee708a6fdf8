use duration_str::{DeserializeDuration, deserialize_duration};
use serde::Deserialize;
use serde_json::{Value, from_value, json};
use std::fmt::Debug;
use std::time::Duration;

#[derive(Debug, Deserialize, PartialEq)]
#[serde(bound = "T: DeserializeDuration<'de>, Option<T>: DeserializeDuration<'de>")]
struct Settings<T> {
    #[serde(deserialize_with = "deserialize_duration")]
    timeout: T,
    #[serde(default, deserialize_with = "deserialize_duration")]
    keep_alive: Option<T>,
}

fn settings<T>(value: Value) -> Result<Settings<T>, String>
where
    T: for<'de> DeserializeDuration<'de> + Debug + PartialEq,
    Option<T>: for<'de> DeserializeDuration<'de>,
{
    let text = value.to_string();
    let of_text = serde_json::from_str(&text).map_err(|error| error.to_string());
    let of_value = from_value(value).map_err(|error| error.to_string());
    // If the settings are read from a text, the error's message can end with a place in that text.
    assert!(
        of_text == of_value
            || of_text
                .as_ref()
                .unwrap_err()
                .starts_with(of_value.as_ref().unwrap_err()),
        "{of_text:?}"
    );
    of_value
}

/// `length` makes a duration from seconds.
fn reads_settings<T>(length: impl Fn(u64) -> T)
where
    T: for<'de> DeserializeDuration<'de> + Debug + PartialEq,
    Option<T>: for<'de> DeserializeDuration<'de>,
{
    let rows = [
        (json!({ "timeout": "1m" }), 60, None),
        (json!({ "timeout": "1min30", "keep_alive": null }), 90, None),
        (
            json!({ "timeout": "1 y  30", "keep_alive": "" }),
            31_536_030,
            None,
        ),
        (
            json!({ "timeout": "1m", "keep_alive": "30s" }),
            60,
            Some(30),
        ),
    ];
    for (value, timeout, keep_alive) in rows {
        let wanted = Settings {
            timeout: length(timeout),
            keep_alive: keep_alive.map(&length),
        };
        assert_eq!(settings(value), Ok(wanted));
    }
    let required = "expected expect duration string, e.g: '1min+30'";
    let optional = "expected expect duration string, null, or missing field";
    let rows = [
        (json!({}), "missing field `timeout`".to_string()),
        (json!({ "timeout": "" }), "Empty input".to_string()),
        (
            json!({ "timeout": "600y" }),
            "600y\n^\noverflow error".to_string(),
        ),
        (
            json!({ "timeout": true }),
            format!("invalid type: boolean `true`, {required}"),
        ),
        (
            json!({ "timeout": 30 }),
            format!("invalid type: integer `30`, {required}"),
        ),
        (
            json!({ "timeout": null }),
            format!("invalid type: null, {required}"),
        ),
        (
            json!({ "timeout": "1m", "keep_alive": " " }),
            duration_str::parse(" ").unwrap_err(),
        ),
        (
            json!({ "timeout": "1m", "keep_alive": 30 }),
            format!("invalid type: integer `30`, {optional}"),
        ),
    ];
    for (value, message) in rows {
        assert_eq!(settings::<T>(value), Err(message));
    }
}

#[test]
fn reads_durations_of_std() {
    reads_settings(Duration::from_secs);
}

#[test]
#[cfg(feature = "chrono")]
fn reads_durations_of_chrono() {
    reads_settings(|secs| chrono::Duration::seconds(secs as i64));
}

#[test]
#[cfg(feature = "time")]
fn reads_durations_of_time() {
    reads_settings(|secs| time::Duration::seconds(secs as i64));
}

/// With `flatten`, serde keeps the values until the inner struct reads them.
#[derive(Debug, Deserialize, PartialEq)]
struct Job {
    name: String,
    #[serde(flatten)]
    settings: Settings<Duration>,
}

#[test]
fn reads_flattened_structs() {
    let rows = [
        (json!(null), None),
        (json!("30s"), Some(Duration::from_secs(30))),
    ];
    for (keep_alive, wanted) in rows {
        let job: Job =
            from_value(json!({ "name": "a", "timeout": "1m", "keep_alive": keep_alive })).unwrap();
        assert_eq!(
            job.settings,
            Settings {
                timeout: Duration::from_secs(60),
                keep_alive: wanted
            }
        );
    }
}

#[test]
#[allow(deprecated)]
fn keeps_the_older_names() {
    macro_rules! reads {
        ($optional:ident, $wanted:expr $(, $required:ident)?) => {
            assert_eq!(duration_str::$optional(json!("30s")).unwrap(), Some($wanted));
            assert_eq!(duration_str::$optional(json!(null)).unwrap(), None);
            $(assert_eq!(duration_str::$required(json!("30s")).unwrap(), $wanted);)?
        };
    }
    reads!(deserialize_option_duration, Duration::from_secs(30));
    #[cfg(feature = "chrono")]
    reads!(
        deserialize_option_duration_chrono,
        chrono::Duration::seconds(30),
        deserialize_duration_chrono
    );
    #[cfg(feature = "time")]
    reads!(
        deserialize_option_duration_time,
        time::Duration::seconds(30),
        deserialize_duration_time
    );
}
