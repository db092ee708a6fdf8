//! Tests what the crate's calls return, under the features that it is built with.
#[cfg(feature = "serde")]
mod config;
#[cfg(feature = "chrono")]
mod dates;
mod faults;
mod features;
#[cfg(feature = "serde")]
mod human;
mod humantime_items;
mod lengths;
#[path = "../near.rs"]
mod near;
#[cfg(feature = "serde")]
mod numbers;
mod owned;
mod printing;
mod rounding;
mod values;

use duration_str::{
    DurationError, Options, Rules, TimeUnit, humantime, parse_duration, parse_in,
    parse_require_unit,
};
use serde::Deserialize;
use std::time::Duration;

fn has(names: &[String], name: &str) -> bool {
    names.iter().any(|each| each == name)
}

fn options_of(names: &[String]) -> Options {
    Options {
        no_calc: has(names, "no_calc"),
        lowercase: has(names, "lowercase"),
        cn_unit: has(names, "cn_unit"),
    }
}

fn default_unit_of(names: &[String]) -> Option<TimeUnit> {
    if has(names, "require_unit") {
        return None;
    }
    let named = names
        .iter()
        .find_map(|name| name.strip_prefix("default_unit="));
    Some(named.map_or(TimeUnit::Second, |name| name.parse().unwrap()))
}

/// The rules with these options, and with what else the names say.
fn rules_of(options: Options, names: &[String]) -> Rules {
    let rules = Rules::of(options).default_unit(default_unit_of(names));
    if has(names, "more_names") {
        return rules.more_names();
    }
    rules
}

/// All choices of options, each as the names of the options that are on.
fn choices() -> Vec<Vec<String>> {
    vectors().options.iter().fold(vec![vec![]], |lists, name| {
        let with_it = lists
            .iter()
            .map(|names| [names, std::slice::from_ref(name)].concat());
        with_it.chain(lists.iter().cloned()).collect()
    })
}

/// The calls of `duration-str` 0.19.0 read under these options.
const FEATURES: Options = Options {
    no_calc: cfg!(feature = "no_calc"),
    lowercase: cfg!(feature = "lowercase"),
    cn_unit: cfg!(feature = "cn_unit"),
};

/// The options of `parse_duration`.
const ADDITIONS: Options = Options {
    cn_unit: cfg!(feature = "cn_unit"),
    ..Options::off()
};

/// What `parse_duration`, `parse_in` and `parse_require_unit` return for a text, if they read by
/// these rules.
fn by_usual_calls(text: &str, rules: Rules) -> Vec<Result<Duration, DurationError>> {
    let options = rules.options;
    if rules == rules.more_names() {
        return vec![];
    }
    match rules.default_unit {
        None if options == ADDITIONS => vec![parse_require_unit(text)],
        Some(TimeUnit::Second) if options == ADDITIONS => {
            vec![parse_duration(text), parse_in(text, TimeUnit::Second)]
        }
        Some(unit) if unit != TimeUnit::Second && options == ADDITIONS.with_no_calc() => {
            vec![parse_in(text, unit)]
        }
        _ => vec![],
    }
}

#[derive(Deserialize)]
struct Vectors {
    /// A row may also name `more_names`, `require_unit` or a default unit, such as
    /// `default_unit=ms`.
    options: Vec<String>,
    values: Vec<Group>,
    /// Numbers that are not texts: a default unit, a number, and its seconds and nanoseconds.
    numbers: Vec<(String, u64, u64, u32)>,
    /// A default unit, a number that is refused, and the line for its digits as a text.
    refused_numbers: Vec<(String, serde_json::Value, String)>,
    styles: Vec<String>,
    printed: Vec<Printed>,
    /// Rows for which no unit or no part is left.
    printed_as_zero: Vec<Printed>,
    /// A duration, how it is printed, and its text in the short style if it is rounded down, to the
    /// nearest and up. The last is `None` if nothing is long enough.
    rounded: Vec<(String, Limits, String, String, Option<String>)>,
    refused: Vec<Refused>,
}

/// Rows of a value, in seconds and nanoseconds, and its texts. The texts are read if the options in
/// `on` are on and the options in `off` are off.
#[derive(Deserialize)]
struct Group {
    on: Vec<String>,
    off: Vec<String>,
    rows: Vec<(u64, u32, Vec<String>)>,
}

/// A refused text, its options, the cause, the place, the token that was found there, the kinds that
/// could stand there, the line, the spaces before the caret, if the report has a caret, the help's
/// name in capitals, the suggestion, the bytes where the part that it replaces begins and ends, and
/// the mended text.
#[derive(Deserialize)]
struct Refused(
    String,
    Vec<String>,
    String,
    Option<usize>,
    Option<String>,
    Vec<String>,
    String,
    Option<usize>,
    Option<String>,
    Option<String>,
    Option<(usize, usize)>,
    Option<String>,
);

/// A duration's text, or its seconds and nanoseconds as in `1 s 1 ns`, how it is printed, the
/// printed text in the short style and in the long style, and the seconds and nanoseconds of the
/// rest.
#[derive(Deserialize)]
struct Printed(String, Limits, String, String, u64, u32);

/// A field that is left out limits nothing.
#[derive(Deserialize)]
struct Limits {
    units: Option<Vec<String>>,
    largest: Option<String>,
    smallest: Option<String>,
    parts: Option<usize>,
}

fn vectors() -> Vectors {
    serde_json::from_str(include_str!("../../vectors.json"))
        .expect("vectors.json is laid out as the struct")
}
