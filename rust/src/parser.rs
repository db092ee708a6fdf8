//! The calls that read a text, and return a [`Fault`] or a [`DurationError`] if it is refused.
use crate::error::DurationError;
use crate::fault::Fault;
use crate::original::FEATURES;
use core::time::Duration;
use duration_str_core::{self as proved, Options, Rules, TimeUnit};

/// Reads a text by these rules, and returns its duration.
///
/// If your program's numbers are milliseconds, turn on `no_calc`, or call [`parse_in`], which turns
/// it on for each default unit except seconds. `docs/GRAMMAR.md` in the repository says why.
///
/// # Errors
///
/// Returns the [`Fault`] if the text is refused.
///
/// ```
/// use duration_str::{Options, Rules, TimeUnit, parse_by};
/// use std::time::Duration;
///
/// const WITH_MORE_NAMES: Rules = Rules::of(Options::off()).more_names();
/// assert_eq!(parse_by("5 mins", WITH_MORE_NAMES), Ok(Duration::from_secs(300)));
///
/// let no_calc = Rules::of(Options { no_calc: true, ..Options::off() });
/// let in_millis = |text| parse_by(text, no_calc.default_unit(Some(TimeUnit::MilliSecond)));
/// assert_eq!(in_millis("1500"), Ok(Duration::from_millis(1_500)));
/// assert_eq!(in_millis("1s 500"), Ok(Duration::from_millis(1_500)));
/// assert_eq!(in_millis("90s*2").unwrap_err().place(), Some(3));
/// assert_eq!(parse_by("1h 30", no_calc.default_unit(None)).unwrap_err().place(), Some(5));
///
/// // Not 3 minutes: 90 seconds times 2 milliseconds
/// let rules = Rules::of(Options::off()).default_unit(Some(TimeUnit::MilliSecond));
/// assert_eq!(parse_by("90s*2", rules), Ok(Duration::from_millis(180)));
/// ```
#[inline]
pub fn parse_by(input: &str, rules: Rules) -> Result<Duration, Fault<'_>> {
    match proved::parse_by(input, rules) {
        Ok(duration) => Ok(duration),
        Err(fault) => Err(Fault::new(fault, rules)),
    }
}

/// Reads a text under these options, and returns its duration.
///
/// # Errors
///
/// Returns the [`Fault`] if the text is refused.
///
/// ```
/// use duration_str::{Options, parse_with};
/// use std::time::Duration;
///
/// assert_eq!(parse_with("1m*10", Options::off()), Ok(Duration::from_secs(600)));
/// let no_calc = Options { no_calc: true, ..Options::off() };
/// assert_eq!(parse_with("1m*10", no_calc).unwrap_err().found(), Some("*"));
/// ```
#[inline]
pub fn parse_with(input: &str, options: Options) -> Result<Duration, Fault<'_>> {
    parse_by(input, Rules::of(options))
}

/// The options of the calls that `duration-str` 0.19.0 lacks, such as [`parse_duration`]. If the
/// features `no_calc` and `lowercase` affected them, a crate that turns one on could break what the
/// other crates of the program read.
pub(crate) const ADDITIONS: Options = Options {
    cn_unit: FEATURES.cn_unit,
    ..Options::off()
};

pub(crate) const CASE_SENSITIVE: Options = ADDITIONS.with_lowercase();

/// Reads a text such as `1h 30m`, and returns its duration. You can use this function as a
/// `value_parser` of clap. It has the same name as humantime's function.
///
/// All options are off, whatever features of the crate are on, except that the feature `cn_unit`
/// adds the Chinese names. To set options, use [`parse_with`].
///
/// # Errors
///
/// Returns why the text is refused, with a copy of the text.
///
/// ```
/// use duration_str::parse_duration;
/// use std::error::Error;
/// use std::time::Duration;
///
/// fn timeout(text: &str) -> Result<Duration, Box<dyn Error + Send + Sync>> {
///     Ok(parse_duration(text)?)
/// }
///
/// assert_eq!(timeout("1m 30s")?, Duration::from_secs(90));
/// assert_eq!(timeout("").unwrap_err().to_string(), "empty text");
/// # Ok::<(), Box<dyn Error + Send + Sync>>(())
/// ```
pub fn parse_duration(input: &str) -> Result<Duration, DurationError> {
    parse_with(input, ADDITIONS).map_err(Fault::into_owned)
}

/// Reads a text as [`parse_duration`] does, except that a number without a unit counts this unit.
/// If the unit is not seconds, `+` and `*` are not read.
///
/// This is for texts that used to be plain numbers, such as milliseconds in a configuration file.
/// For fields that serde reads, the module `human_or_millis` also reads numbers that are not texts.
///
/// # Errors
///
/// Returns why the text is refused, with a copy of the text.
///
/// ```
/// use duration_str::{DurationError, TimeUnit, parse_in};
/// use std::time::Duration;
///
/// let timeout = |text| parse_in(text, TimeUnit::MilliSecond);
/// assert_eq!(timeout("1500")?, Duration::from_millis(1_500));
/// assert_eq!(timeout("2h")?, Duration::from_secs(7_200));
/// let refusal = timeout("90s*2").unwrap_err();
/// assert!(refusal.to_string().ends_with(r#"at column 4, found "*""#));
/// assert_eq!(parse_in("90s*2", TimeUnit::Second)?, Duration::from_secs(180));
/// # Ok::<(), DurationError>(())
/// ```
pub fn parse_in(input: &str, default_unit: TimeUnit) -> Result<Duration, DurationError> {
    parse_by(input, naming(default_unit)).map_err(Fault::into_owned)
}

/// The rules of [`parse_in`].
pub(crate) fn naming(default_unit: TimeUnit) -> Rules {
    let options = Options {
        no_calc: default_unit != TimeUnit::Second,
        ..ADDITIONS
    };
    Rules::of(options).default_unit(Some(default_unit))
}

/// The rules of [`parse_require_unit`].
pub(crate) const REQUIRING_UNITS: Rules = Rules::of(ADDITIONS).default_unit(None);

/// Reads a text as [`parse_duration`] does, but refuses a number without a unit.
///
/// Most other calls read such a number, as in `90` and `1h 30`, as seconds, which may not be what
/// was meant. In clap, write `value_parser = duration_str::parse_require_unit`. For serde, use the
/// module `human_require_unit`.
///
/// # Errors
///
/// Returns why the text is refused, with a copy of the text.
///
/// ```
/// use duration_str::{DurationError, parse_require_unit};
///
/// assert_eq!(parse_require_unit("1h 30m")?.as_secs(), 5_400);
/// assert_eq!(parse_require_unit("1h 30").unwrap_err().place(), Some(5));
/// let zero = parse_require_unit("0").unwrap_err();
/// assert_eq!(zero.to_string(), "expected a unit at column 2, found the end (write 0s)");
/// # Ok::<(), DurationError>(())
/// ```
pub fn parse_require_unit(input: &str) -> Result<Duration, DurationError> {
    parse_by(input, REQUIRING_UNITS).map_err(Fault::into_owned)
}
