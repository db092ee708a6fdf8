//! Functions that print durations in other ways than this crate. Many are named after a program.
//! docs/MIGRATING.md in the repository says for which durations they give the same text as that
//! program, byte for byte.
#![forbid(unsafe_code)]

use duration_str::TimeUnit::{self, Day, Hour, MilliSecond, Minute, Second, Week, Year};
use duration_str::{FormattedDuration, Style, format_duration};
use std::time::Duration;

// `m` for the minute, or one unit

fn with_m(duration: FormattedDuration) -> String {
    duration.to_string().replace("min", "m")
}

fn exact(duration: Duration, units: &[TimeUnit]) -> Option<String> {
    let nanos = duration.as_nanos();
    let divides = |unit: &&TimeUnit| nanos > 0 && nanos % u128::from(unit.nanos()) == 0;
    let unit = units.iter().find(divides)?;
    Some(format_duration(duration).only(&[*unit]).to_string())
}

fn ms(duration: Duration) -> String {
    let all = format_duration(duration).only(&[Day, Hour, Minute, Second, MilliSecond]);
    let Some((unit, _)) = all.breakdown().next() else {
        return "0ms".to_string();
    };
    let half = Duration::from_nanos(unit.nanos() / 2);
    with_m(format_duration(duration.saturating_add(half)).only(&[unit]))
}

fn prometheus(duration: Duration) -> String {
    let units = [Day, Hour, Minute, Second, MilliSecond];
    let text = with_m(format_duration(duration).only(&units).style(Style::Compact));
    exact(duration, &[Year, Week]).unwrap_or(text)
}

#[test]
fn prints_minutes_with_m() {
    let minutes = Duration::from_secs(90 * 60);
    assert_eq!([ms(minutes), prometheus(minutes)], ["2h", "1h30m"]);
    assert_eq!(prometheus(Duration::from_secs(15 * 86_400)), "15d");
    assert_eq!(prometheus(Duration::from_secs(14 * 86_400)), "2w");
    assert_eq!(ms(Duration::from_secs(60)), "1m");
    assert_eq!(
        [ms, prometheus].map(|print| print(Duration::ZERO)),
        ["0ms", "0s"]
    );
}

// Words with commas

fn commas(duration: FormattedDuration) -> String {
    let text = duration.style(Style::Long).to_string();
    let words: Vec<&str> = text.split(' ').collect();
    let parts: Vec<String> = words.chunks(2).map(|part| part.join(" ")).collect();
    parts.join(", ")
}

fn list(duration: FormattedDuration) -> String {
    let text = commas(duration);
    match text.rsplit_once(", ") {
        Some((others, last)) => format!("{others} and {last}"),
        None => text,
    }
}

fn humanfriendly(duration: Duration) -> String {
    list(
        format_duration(duration)
            .only(&[Week, Day, Hour, Minute, Second])
            .parts(3),
    )
}

fn precisedelta(duration: Duration) -> String {
    list(format_duration(duration).only(&[Year, Day, Hour, Minute, Second]))
}

#[test]
fn prints_words_with_commas() {
    let uptime = Duration::from_secs(1_000_000);
    assert_eq!(humanfriendly(uptime), "1 week, 4 days and 13 hours");
    assert_eq!(
        precisedelta(uptime),
        "11 days, 13 hours, 46 minutes and 40 seconds"
    );
    assert_eq!(precisedelta(Duration::ZERO), "0 seconds");
}

// Decimals

fn go(duration: Duration) -> String {
    let start = match duration.as_secs() {
        0..60 => String::new(),
        secs @ 60..3_600 => format!("{}m", secs / 60),
        secs => format!("{}h{}m", secs / 3_600, secs / 60 % 60),
    };
    let longest = format_duration(duration).largest(Second).breakdown().next();
    let unit = longest.map_or(Second, |(unit, _)| unit);
    let nanos = duration.as_nanos() % 60_000_000_000;
    format!("{start}{}{unit}", nanos as f64 / unit.nanos() as f64)
}

fn pretty_ms(duration: Duration) -> String {
    if duration.as_secs() == 0 {
        return format!("{}ms", duration.as_millis());
    }
    let mut parts = format_duration(duration)
        .only(&[Year, Day, Hour, Minute])
        .breakdown();
    let text: String = parts
        .by_ref()
        .map(|(unit, count)| format!("{count}{unit} "))
        .collect();
    let text = text.replace("min", "m");
    match parts.rest() / 100_000_000 {
        0 => text.trim_end().to_string(),
        tenths => format!("{text}{}s", tenths as f64 / 10.0),
    }
}

#[test]
fn prints_decimals() {
    let film = Duration::from_millis(3_723_500);
    assert_eq!([go(film), pretty_ms(film)], ["1h2m3.5s", "1h 2m 3.5s"]);
    assert_eq!(pretty_ms(film / 1_000), "3.7s");
    assert_eq!(go(Duration::from_nanos(1_500)), "1.5µs");
    assert_eq!(
        [go, pretty_ms].map(|print| print(Duration::ZERO)),
        ["0s", "0ms"]
    );
}

// Texts of your own

fn clock(duration: Duration) -> String {
    let secs = duration.as_secs();
    format!("{}:{:02}:{:02}", secs / 3_600, secs / 60 % 60, secs % 60)
}

/// Seconds with three decimals, after the longer units.
fn minutes_and_seconds(duration: Duration) -> String {
    let mut parts = format_duration(duration).smallest(Minute).breakdown();
    let text: String = parts
        .by_ref()
        .map(|(unit, count)| format!("{count}{unit} "))
        .collect();
    let millis = parts.rest() / 1_000_000;
    format!("{text}{}.{:03}s", millis / 1_000, millis % 1_000)
}

/// German has one form for the count 1 and another for all other counts. Some languages have more.
fn german(duration: Duration) -> String {
    let part = |(unit, count): (TimeUnit, u128)| {
        let (one, other) = match unit {
            Hour => ("Stunde", "Stunden"),
            Minute => ("Minute", "Minuten"),
            _ => ("Sekunde", "Sekunden"),
        };
        format!("{count} {}", if count == 1 { one } else { other })
    };
    let parts = format_duration(duration)
        .only(&[Hour, Minute, Second])
        .breakdown();
    let words: Vec<String> = parts.map(part).collect();
    if words.is_empty() {
        "0 Sekunden".to_string()
    } else {
        words.join(" ")
    }
}

#[test]
fn prints_texts_of_ones_own() {
    assert_eq!(
        [3_723, 90_000, 0].map(Duration::from_secs).map(clock),
        ["1:02:03", "25:00:00", "0:00:00"]
    );
    let lengths = [193_029, 0].map(Duration::from_millis);
    assert_eq!(lengths.map(minutes_and_seconds), ["3min 13.029s", "0.000s"]);
    assert_eq!(
        german(Duration::from_secs(5_461)),
        "1 Stunde 31 Minuten 1 Sekunde"
    );
    assert_eq!(german(Duration::ZERO), "0 Sekunden");
}
