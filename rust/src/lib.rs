//! This crate reads durations as people write them, such as `1h 30m`, from a command line, a
//! configuration file or any other text. It also prints them, such as `1h 30min`. If a text can't
//! be read, the error says what is wrong.
//!
//! ```
//! use duration_str::{format_duration, parse_duration};
//!
//! let timeout = parse_duration("90m")?; // a std::time::Duration
//! assert_eq!(format_duration(timeout).to_string(), "1h 30min");
//! let refusal = parse_duration("5 mins").unwrap_err();
//! assert!(refusal.to_string().starts_with(r#"unknown unit "mins" at column 3"#));
//! # Ok::<(), duration_str::DurationError>(())
//! ```
//!
//! # Which call to take
//!
//! - Use [`parse_duration`] for most texts. Its [`DurationError`] owns the text, so it can go
//!   through `?`, threads and chains of errors.
//! - Use [`parse_require_unit`] to refuse numbers without a unit, such as in `90` and `1h 30`. Most
//!   calls read them as seconds.
//! - Use [`parse_in`] if your program's numbers count another unit, such as milliseconds.
//! - Use [`parse_with`] to set options, or if nothing may be allocated. Its [`Fault`] borrows the
//!   text. [`parse_by`] takes [`Rules`], which also name the default unit, or `None` to require
//!   units, and by which [more names](Rules::more_names) such as `mins` can be read.
//! - [`parse`], [`parse_std`] (which is the same), `parse_chrono` and `parse_time` are calls of
//!   `duration-str` 0.19.0. Their error is a `String` of up to three lines. This crate's features
//!   decide what they read, and are the same for the whole program.
#![cfg_attr(
    feature = "macros",
    doc = "- Use [`duration!`] for a text in the source, which is read at compile time:"
)]
#![cfg_attr(
    not(feature = "macros"),
    doc = "- Use `duration!` for a text in the source, which is read at compile time (feature `macros`):"
)]
//!
#![cfg_attr(feature = "macros", doc = "```")]
#![cfg_attr(not(feature = "macros"), doc = "```ignore")]
//! const TIMEOUT: std::time::Duration = duration_str::duration!("1h 30m");
//! assert_eq!(TIMEOUT.as_secs(), 5_400);
//! ```
//!
//! # Configuration files
//!
//! The module `human` is for fields that serde writes and reads as text. `human_require_unit`
//! refuses a number without a unit, such as `"90"`. `human_or_seconds` also reads a number of
//! seconds, such as `timeout = 30`. For `human_or_millis` numbers are milliseconds.
//! `human_more_names` also reads more names of units, such as in `"5 mins"`.
//!
#![cfg_attr(feature = "serde", doc = "```")]
#![cfg_attr(not(feature = "serde"), doc = "```ignore")]
//! #[derive(serde::Deserialize)]
//! struct Settings {
//!     #[serde(with = "duration_str::human")]
//!     timeout: std::time::Duration,
//!     #[serde(default, with = "duration_str::human")]
//!     keep_alive: Option<std::time::Duration>,
//! }
//!
//! let settings: Settings = serde_json::from_str(r#"{ "timeout": "1m 30s" }"#)?;
//! assert_eq!(settings.timeout.as_secs(), 90);
//! # Ok::<(), serde_json::Error>(())
//! ```
//!
//! `{ "timeout": "5 mins" }` is refused with
//! `invalid duration: unknown unit "mins" at column 3 (did you mean "min"?) at line 1 column 21`.
//!
//! # Command lines
//!
//! For clap, use [`HumanDuration`] as the field's type, or a `Duration` with [`parse_duration`] as
//! its `value_parser`. To refuse a number without a unit, take [`parse_require_unit`] instead. For
//! other [`Rules`], such as with more names, write a function that calls [`parse_by`], and then
//! [`Fault::into_owned`] for the error. If you set `allow_hyphen_values`, `-5m` is refused as a
//! negative duration, and not taken for an option. The README of this crate has such a function,
//! and a program with clap.
//!
//! # Printing
//!
//! ```
//! use duration_str::{Style, TimeUnit, format_duration};
//!
//! let uptime = format_duration(std::time::Duration::from_secs(1_000_000));
//! assert_eq!(uptime.to_string(), "1w 4d 13h 46min 40s");
//! assert_eq!(uptime.parts(2).to_string(), "1w 4d");
//! let long = uptime.largest(TimeUnit::Day).parts(2).style(Style::Long);
//! assert_eq!(long.to_string(), "11 days 13 hours");
//! assert_eq!(uptime.only(&[TimeUnit::Day, TimeUnit::Minute]).to_string(), "11d 826min");
//! ```
//!
//! For durations of `chrono` and `time`, [`HumanFormat::formatted`] does the same. [`write_format`]
//! and [`write_rounded`] write into a buffer, and allocate nothing.
//!
//! # Why and where a text is refused
//!
//! A [`Fault`] and a [`DurationError`] display as one line. For most syntax faults their `report`
//! also gives the text, and a caret below the place. Their `reason` is the line without the column.
//!
//! ```
//! use duration_str::{Options, parse_with};
//!
//! let fault = parse_with("1m 3-5", Options::off()).unwrap_err();
//! assert_eq!((fault.place(), fault.found()), (Some(4), Some("-")));
//! let line = r#"expected a unit, '+', '*' or the end at column 5, found "-""#;
//! assert_eq!(fault.to_string(), line);
//! assert_eq!(fault.report(), format!("1m 3-5\n    ^\n{line}"));
//! assert_eq!(fault.reason(), r#"expected a unit, '+', '*' or the end, found "-""#);
//! ```
//!
//! The line often ends with [`Help`], in parentheses. `help` returns it as a value. If it is certain
//! what to write instead, `mend` returns it and its place. `mended` returns a text that is read, if
//! that is certain for all faults of the text. So a program can say everything in its own words, or
//! in another language, and need not look into the line:
//!
//! ```
//! use duration_str::{Help, parse_duration};
//!
//! let refusal = parse_duration("2h 1.5mins 1_000ms").unwrap_err();
//! assert_eq!(refusal.help(), Some(Help::Fraction));
//! assert_eq!(refusal.mend().unwrap().replaced, "1.5mins");
//! assert_eq!(refusal.mend().unwrap().suggestion.to_string(), "90s");
//! assert_eq!(refusal.mended().unwrap(), "2h 90s 1000ms");
//! assert_eq!(parse_duration("1:30").unwrap_err().mended(), None);
//! ```
//!
//! # What a text means
//!
//! A text is one term or several. A term is a number and a unit, such as `3m` or `29 ms`. Terms are
//! joined by `+` or by `*`. If the operator is left out, as in `3m 13s`, the terms are added. A
//! text is a sum or a product, and can't mix both. A product multiplies its terms in seconds:
//! `1m*10ms` is 600 ms. Each of its steps is rounded down to nanoseconds. A number without a unit
//! counts seconds, unless another default unit is named or units are required. Such a number must
//! be last or before an operator. Blanks (space, tab, carriage return, line feed) may be anywhere
//! except inside a number or a unit. Each number must be below 2^64. Each term, each step of the
//! evaluation and the value must be below 2^64 nanoseconds, which is some 584 years.
//!
//! <!-- The table is made by tools/facts --write. -->
//! | unit | names | with `cn_unit` also |
//! |---|---|---|
//! | 365 days | y, year, years | 年 |
//! | 91 days | q, quarter, quarters | |
//! | 30 days | mon, month, months | 月 |
//! | 7 days | w, week, weeks | 周 |
//! | day | d, day, days | 日, 天 |
//! | hour | h, hr, hour, hours | 时 |
//! | minute | m, min, minute, minutes | 分 |
//! | second | s, sec, second, seconds | 秒 |
//! | millisecond | ms, msec, millisecond, milliseconds | 毫秒 |
//! | microsecond | µs, µsec, µsecond, us, usec, usecond, microsecond, microseconds | 微秒 |
//! | nanosecond | ns, nsec, nanosecond, nanoseconds | 纳秒 |
//!
//! [`Rules::more_names`] adds these names, for [`parse_by`] and the module `human_more_names`:
//!
//! | unit | names that `more_names` adds |
//! |---|---|
//! | 365 days | yr, yrs |
//! | 91 days | qtr, qtrs |
//! | 30 days | mons, mth, mths |
//! | 7 days | wk, wks |
//! | hour | hrs |
//! | minute | mins |
//! | second | secs |
//! | millisecond | msecs, milli, millis |
//! | microsecond | µsecs, µseconds, usecs, useconds, micro, micros |
//! | nanosecond | nsecs, nano, nanos |
//!
//! # Features
//!
//! Without its default features, the crate is `no_std`, and needs `alloc`.
//!
//! - `serde`, `chrono` and `time` are on by default, and add the calls for these crates.
//! - `macros` adds the macro `duration!`.
//! - `no_calc`, `lowercase` and `cn_unit` turn on the [option](Options) of the same name for the
//!   calls of `duration-str` 0.19.0.
//!
//! Cargo turns on each feature that any crate of a program asks for. Of the last three features,
//! only `cn_unit` takes nothing away from what another crate reads. So it alone affects calls that
//! `duration-str` 0.19.0 does not have. To set options for one call, use [`parse_with`].
//!
//! # What is proved
//!
//! `docs/PROMISES.md` in the repository says what is proved, what is tested, and what you trust.
//!
//! # From humantime and `duration-str` 0.19.0
//!
//! If you come from humantime, change one import: `use` the module [`humantime`] of this crate. Its
//! months and years have humantime's lengths.
//!
//! This crate has the calls of `duration-str` 0.19.0 from crates.io, such as [`parse`], whose error
//! is a `String`, and `deserialize_duration`. Two macros are missing, which `docs/MIGRATING.md` in
//! the repository names. The module `dates` has the calls of `duration-str` for a moment before or
//! after now, and two for a moment before or after another.
//!
//! ```
//! use duration_str::{parse, HumanFormat};
//!
//! let duration = parse("3m 13s 29ms")?;
//! assert_eq!(duration.human_format(), "3min 13s 29ms");
//! # Ok::<(), String>(())
//! ```
#![no_std]
#![cfg_attr(docsrs, feature(doc_cfg))]
#![forbid(unsafe_code)]

extern crate alloc;

#[cfg(feature = "chrono")]
pub mod dates;
mod derror;
mod error;
mod fault;
mod formatted;
mod human_duration;
mod human_format;
pub mod humantime;
mod mend;
mod original;
mod parser;
#[cfg(feature = "serde")]
mod serde;

// These are hidden, since the list of this crate's functions, which is in alphabetical order, would
// otherwise begin with four of them.
#[cfg(feature = "chrono")]
#[doc(hidden)]
pub use dates::{
    after_naive_date, after_naive_date_time, before_naive_date, before_naive_date_time,
    moment_after, moment_before,
};
pub use derror::{DError, DResult};
#[doc(inline)]
pub use duration_str_core::{
    Breakdown, Cause, CondUnit, Expected, FORMAT_BUFFER_SIZE, Format, HUMAN_BUFFER_SIZE, Help,
    ONE_LINE_BUFFER_SIZE, Options, Rounding, Rules, SUGGESTION_BUFFER_SIZE, Style, Suggestion,
    TimeUnit, Units, UnknownStyle, UnknownUnit, write_format, write_human, write_rounded,
};
// `MAX_LONG_LEN`, `MAX_PRINTED_LEN`, `UNITS` and `round_to`, below, are hidden, since programs that
// use this crate don't need them. Examples in the core's documentation take some of them from here.
#[cfg(feature = "serde")]
#[allow(deprecated)]
pub use self::serde::original::{
    DeserializeDuration, deserialize_duration, deserialize_option_duration,
};
#[cfg(all(feature = "serde", feature = "chrono"))]
#[allow(deprecated)]
pub use self::serde::original::{deserialize_duration_chrono, deserialize_option_duration_chrono};
#[cfg(all(feature = "serde", feature = "time"))]
#[allow(deprecated)]
pub use self::serde::original::{deserialize_duration_time, deserialize_option_duration_time};
#[cfg(feature = "serde")]
#[doc(inline)]
pub use self::serde::{
    human, human_more_names, human_or_millis, human_or_seconds, human_require_unit, humantime_serde,
};
#[doc(hidden)]
pub use duration_str_core::{MAX_LONG_LEN, MAX_PRINTED_LEN, UNITS, round_to};
#[cfg(feature = "macros")]
pub use duration_str_macros::duration;
pub use error::DurationError;
pub use fault::Fault;
pub use formatted::{FormattedDuration, RoundedDuration, format_duration};
pub use human_duration::HumanDuration;
pub use human_format::HumanFormat;
pub use mend::Mend;
#[cfg(feature = "chrono")]
pub use original::parse_chrono;
#[cfg(feature = "time")]
pub use original::parse_time;
pub use original::{parse, parse_std};
pub use parser::{parse_by, parse_duration, parse_in, parse_require_unit, parse_with};
