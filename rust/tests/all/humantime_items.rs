//! Uses humantime's items for durations, and their traits. The example `service` compiles this file
//! with humantime too.
use crate::humantime::{
    Duration, DurationError, FormattedDuration, format_duration, parse_duration,
};
use std::collections::HashSet;
use std::error::Error;
use std::time::Duration as StdDuration;

fn is_shared(_: &(dyn Error + Send + Sync + 'static)) {}

#[test]
fn has_the_functions() {
    let read: fn(&str) -> Result<StdDuration, DurationError> = parse_duration;
    let print: fn(StdDuration) -> FormattedDuration = format_duration;
    let length = read("2h 37min").unwrap();
    assert_eq!(length, StdDuration::new(9_420, 0));
    let printed = Clone::clone(&print(length));
    assert_eq!(*printed.get_ref(), length);
    assert_eq!(parse_duration(&printed.to_string()), Ok(length));
    assert!(!format!("{printed:?}").is_empty());
}

#[test]
fn has_the_traits_of_durations() {
    let length: Duration = "12h 5min 2ns".parse().unwrap();
    let std: StdDuration = length.into();
    assert_eq!(std, StdDuration::new(12 * 3600 + 5 * 60, 2));
    assert_eq!((length.as_secs(), *length), (43_500, std));
    let of_std: &StdDuration = length.as_ref();
    assert_eq!(Duration::from(*of_std), Clone::clone(&length));
    assert_eq!(length.to_string(), format_duration(std).to_string());
    assert_eq!(HashSet::from([length, length]).len(), 1);
    assert!(!format!("{length:?}").is_empty());
}

#[test]
fn has_the_traits_of_errors() {
    let error: DurationError = "1x".parse::<Duration>().unwrap_err();
    is_shared(&error);
    assert_eq!(parse_duration("1x"), Err(error.clone()));
    assert!(!error.to_string().contains('\n') && !format!("{error:?}").contains('\n'));
}
