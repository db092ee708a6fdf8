//! Rounds durations to those that print whole, in all sets of units and up to 12 parts.
use duration_str::{Breakdown, Format, Rounding, Style, TimeUnit, UNITS, Units, format_duration};
use std::time::Duration;

const DAY: u64 = 86_400;
const NANO: Duration = Duration::from_nanos(1);

fn nanos(count: u128) -> Duration {
    Duration::new(
        u64::try_from(count / 1_000_000_000).unwrap(),
        u32::try_from(count % 1_000_000_000).unwrap(),
    )
}

/// Returns the duration that is broken down, if there is one.
fn round_to(length: &Duration, format: Format, rounding: Rounding) -> Option<Duration> {
    let parts = Breakdown::rounded(length, format, Some(rounding))?;
    Some(nanos(parts.rest()))
}

#[test]
fn rounds() {
    let at = |seconds| Duration::from_secs(seconds);
    let minutes = Format::whole().smallest(TimeUnit::Minute);
    let weeks = Format::whole().only(&[TimeUnit::Month, TimeUnit::Week]);
    for (format, length, down, nearest, up) in [
        (minutes, at(5_429), 5_400, 5_400, 5_460),
        (minutes, at(5_430), 5_400, 5_460, 5_460),
        (minutes, at(5_430) - NANO, 5_400, 5_400, 5_460),
        (minutes, at(7_170), 7_140, 7_200, 7_200),
        (minutes, at(7_200), 7_200, 7_200, 7_200),
        (minutes, at(0), 0, 0, 0),
        (minutes.parts(1), at(7_199), 3_600, 7_200, 7_200),
        (minutes.parts(2), at(DAY - 1), DAY - 60, DAY, DAY),
        // In months and weeks 4w are followed by 1mon, which is 30d.
        (weeks, at(29 * DAY), 28 * DAY, 30 * DAY, 30 * DAY),
        (weeks.parts(1), at(38 * DAY), 30 * DAY, 30 * DAY, 60 * DAY),
        // After 4q comes 1y, 365d, and not 5q.
        (
            Format::whole().parts(1),
            at(364 * DAY + 1),
            364 * DAY,
            364 * DAY,
            365 * DAY,
        ),
        (minutes.parts(0), at(1), 0, 0, u64::MAX),
        (minutes.only(&[]), at(1), 0, 0, u64::MAX),
    ] {
        let rounded = |rounding| round_to(&length, format, rounding);
        assert_eq!(rounded(Rounding::Down), Some(at(down)), "{length:?}");
        assert_eq!(rounded(Rounding::Nearest), Some(at(nearest)), "{length:?}");
        let up = (up < u64::MAX).then(|| at(up));
        assert_eq!(rounded(Rounding::Up), up, "{length:?}");
    }
}

/// The greatest duration that prints whole and is not above this one.
fn whole_below(length: Duration, format: Format) -> Duration {
    let mut parts = Breakdown::new(&length, format);
    parts.by_ref().for_each(drop);
    length - nanos(parts.rest())
}

/// Fails if a duration is rounded to one that doesn't print whole, or if another one that prints
/// whole comes between.
fn rounds_to_next(length: Duration, format: Format) {
    let down = whole_below(length, format);
    let up = round_to(&length, format, Rounding::Up);
    assert_eq!(round_to(&length, format, Rounding::Down), Some(down));
    let nearest = match up {
        Some(up) => {
            assert!(length <= up && whole_below(up, format) == up);
            assert!(up == length || whole_below(up - NANO, format) < length);
            if length - down < up - length {
                down
            } else {
                up
            }
        }
        None => {
            assert!(whole_below(Duration::MAX, format) < length);
            down
        }
    };
    assert_eq!(round_to(&length, format, Rounding::Nearest), Some(nearest));
}

/// Lengths at the boundaries of each unit, and about halfway between two of them.
fn boundaries() -> Vec<Duration> {
    let mut lengths = vec![Duration::ZERO, Duration::MAX, Duration::MAX - NANO];
    for unit in UNITS {
        let length = Duration::from_nanos(unit.nanos());
        for near in [length, 3 * length / 2, 4 * length] {
            lengths.extend([near.saturating_sub(NANO), near]);
        }
        lengths.push(Duration::MAX - length);
        lengths.push(5 * length + Duration::new(400 * DAY, 12_345));
    }
    lengths
}

#[test]
fn rounds_to_the_next_that_prints_whole() {
    let lengths = boundaries();
    for bits in 0..2_048 {
        let mut format = Format::whole();
        format.units = Units::from_bits(bits).unwrap();
        for parts in 0..=12 {
            for &length in &lengths {
                rounds_to_next(length, format.parts(parts));
            }
        }
    }
}

#[test]
fn prints_rounded() {
    let printed = |seconds, rounding| {
        let length = format_duration(Duration::from_secs(seconds));
        let rounded = |parts| length.parts(parts).rounding(rounding).to_string();
        (rounded(1), rounded(0))
    };
    let texts = |one: &str| (one.to_string(), "0s".to_string());
    assert_eq!(printed(7_199, Rounding::Down), texts("1h"));
    assert_eq!(printed(7_199, Rounding::Nearest), texts("2h"));
    assert_eq!(printed(5_399, Rounding::Nearest), texts("1h"));
    assert_eq!(printed(5_399, Rounding::Up), texts("2h"));
    assert_eq!(printed(7_200, Rounding::Up), texts("2h"));
}

#[test]
fn stays_as_it_is_if_nothing_is_long_enough() {
    let longest = format_duration(Duration::MAX);
    for (printed, text) in [
        (longest.parts(0), "0s"),
        (longest.only(&[]), "0s"),
        (longest.only(&[TimeUnit::Year]), "584942417355y"),
    ] {
        let rounded = printed.rounding(Rounding::Up);
        assert_eq!(rounded.to_string(), text);
        assert_eq!(format!("{rounded:>15}"), format!("{text:>15}"));
        assert_eq!(rounded.duration(), Duration::MAX);
        assert!(rounded.breakdown().eq(printed.breakdown()));
        assert_eq!(rounded.breakdown().rest(), Duration::MAX.as_nanos());
    }
}

#[test]
fn rounds_in_the_chosen_units_style_and_sign() {
    let took = format_duration(Duration::from_secs(2 * DAY - 1)).only(&[TimeUnit::Hour]);
    let rounded = took.style(Style::Long).rounding(Rounding::Up);
    assert_eq!(rounded.to_string(), "48 hours");
    assert_eq!(format!("{rounded:*>10}"), "**48 hours");
    assert!(rounded.breakdown().eq([(TimeUnit::Hour, 48)]));
    #[cfg(feature = "chrono")]
    {
        use duration_str::HumanFormat;
        let late = chrono::Duration::seconds(-7_199).formatted().parts(1);
        let rounded = late.rounding(Rounding::Nearest);
        assert_eq!(rounded.to_string(), "-2h");
        assert_eq!(format!("{rounded:>5}"), "  -2h");
    }
}
