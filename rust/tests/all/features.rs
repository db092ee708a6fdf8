//! Which calls the crate's features affect.
use duration_str::{
    Format, HumanDuration, Options, parse, parse_duration, parse_require_unit, parse_std,
};

/// Texts, whether the calls of `duration-str` 0.19.0 read them, and whether `parse_duration` does.
const TEXTS: [(&str, bool, bool); 4] = [
    ("1m", true, true),
    ("1m+1", cfg!(not(feature = "no_calc")), true),
    ("1M", cfg!(not(feature = "lowercase")), true),
    ("1分", cfg!(feature = "cn_unit"), cfg!(feature = "cn_unit")),
];

#[test]
fn adds_options_in_any_order() {
    let all = Options::off()
        .with_no_calc()
        .with_lowercase()
        .with_cn_unit();
    assert!(all.no_calc && all.lowercase && all.cn_unit);
    assert_eq!(
        (Options::default(), Format::default()),
        (Options::off(), Format::whole())
    );
    assert_eq!(all.with_cn_unit().with_lowercase().with_no_calc(), all);
}

#[test]
fn reads_by_all_features_as_before() {
    for (text, is_read, _) in TEXTS {
        assert_eq!(
            [parse(text).is_ok(), parse_std(text).is_ok()],
            [is_read; 2],
            "{text}"
        );
        #[cfg(feature = "time")]
        assert_eq!(duration_str::parse_time(text).is_ok(), is_read, "{text}");
        #[cfg(feature = "chrono")]
        {
            use duration_str::{
                after_naive_date, after_naive_date_time, before_naive_date, before_naive_date_time,
            };
            let times = [
                after_naive_date_time(text).is_ok(),
                before_naive_date_time(text).is_ok(),
            ];
            let dates = [
                after_naive_date(text).is_ok(),
                before_naive_date(text).is_ok(),
            ];
            assert_eq!([times, dates], [[is_read; 2]; 2], "{text}");
            assert_eq!(duration_str::parse_chrono(text).is_ok(), is_read, "{text}");
        }
    }
}

#[test]
fn reads_whatever_another_crate_takes_away() {
    for (text, _, is_read) in TEXTS {
        assert_eq!(parse_duration(text).is_ok(), is_read, "{text}");
        assert_eq!(text.parse::<HumanDuration>().is_ok(), is_read, "{text}");
        assert_eq!(
            parse_require_unit(text).is_ok(),
            is_read && has_units(text),
            "{text}"
        );
    }
}

fn has_units(text: &str) -> bool {
    text != "1m+1"
}

#[test]
#[cfg(feature = "serde")]
fn reads_fields_whatever_another_crate_takes_away() {
    use duration_str::{
        deserialize_duration, human, human_more_names, human_or_seconds, human_require_unit,
    };
    use serde_json::json;
    use std::time::Duration;
    for (text, is_read_by_the_older, is_read) in TEXTS {
        let older: Result<Duration, _> = deserialize_duration(json!(text));
        let optional: Result<Option<Duration>, _> = deserialize_duration(json!(text));
        let of_human: Result<Duration, _> = human::deserialize(json!(text));
        let with_numbers: Result<Duration, _> = human_or_seconds::deserialize(json!(text));
        let with_names: Result<Duration, _> = human_more_names::deserialize(json!(text));
        let required: Result<Duration, _> = human_require_unit::deserialize(json!(text));
        let older = [older.is_ok(), optional.is_ok()];
        assert_eq!(older, [is_read_by_the_older; 2], "{text}");
        let others = [of_human.is_ok(), with_numbers.is_ok(), with_names.is_ok()];
        assert_eq!(others, [is_read; 3], "{text}");
        assert_eq!(required.is_ok(), is_read && has_units(text), "{text}");
    }
}
