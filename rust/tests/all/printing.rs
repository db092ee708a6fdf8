use crate::{Limits, Printed, vectors};
use duration_str::{
    FORMAT_BUFFER_SIZE, Format, FormattedDuration, HumanDuration, HumanFormat, Options, Rounding,
    Style, TimeUnit, format_duration, parse_with, write_format, write_human, write_rounded,
};
#[cfg(any(feature = "chrono", feature = "time"))]
use proptest::prelude::*;
use std::iter::FusedIterator;
use std::time::Duration;

/// A duration in the form `1 s 1 ns` can be too long for the crate to read.
fn length_of(text: &str) -> Duration {
    let numbers = text
        .strip_suffix(" ns")
        .and_then(|text| text.split_once(" s "));
    match numbers {
        Some((secs, nanos)) => Duration::new(secs.parse().unwrap(), nanos.parse().unwrap()),
        None => parse_with(text, Options::off()).unwrap(),
    }
}

fn unit(name: &str) -> TimeUnit {
    TimeUnit::from_word(name, Options::off()).unwrap()
}

impl Limits {
    /// The units, the largest, the smallest, and the greatest number of parts.
    fn all(&self) -> (Vec<TimeUnit>, TimeUnit, TimeUnit, usize) {
        let units = match &self.units {
            Some(names) => names.iter().map(|name| unit(name)).collect(),
            None => TimeUnit::ALL.to_vec(),
        };
        let largest = self.largest.as_deref().map_or(TimeUnit::Year, unit);
        let smallest = self.smallest.as_deref().map_or(TimeUnit::NanoSecond, unit);
        let parts = self.parts.unwrap_or(TimeUnit::ALL.len());
        (units, largest, smallest, parts)
    }
}

fn in_each_order(length: Duration, limits: &Limits, style: Style) -> [FormattedDuration; 3] {
    let (units, first, last, parts) = limits.all();
    let human = HumanDuration(length);
    let others = TimeUnit::ALL.iter().filter(|unit| !units.contains(unit));
    let without = others.fold(human.parts(parts), |human, unit| human.without(*unit));
    let only = format_duration(length).only(&units);
    let styled = human.style(style).smallest(last).largest(first);
    [
        only.largest(first).smallest(last).parts(parts).style(style),
        styled.parts(parts).only(&units),
        without.largest(first).smallest(last).style(style),
    ]
}

#[test]
fn prints_the_vectors_and_breaks_them_down() {
    let vectors = vectors();
    for row in vectors.printed.iter().chain(&vectors.printed_as_zero) {
        let Printed(text, limits, short, long, secs, nanos) = row;
        let length = length_of(text);
        let (units, first, last, parts) = limits.all();
        let format = Format::whole().largest(first).smallest(last);
        let format = format.parts(parts).only(&units);
        for name in &vectors.styles {
            let style = name.parse().unwrap();
            let printed = match &name[..] {
                "compact" => short.replace(' ', ""),
                "long" => long.clone(),
                _ => short.clone(),
            };
            let mut buffer = [0xff; 144];
            assert_eq!(
                write_format(&length, format.style(style), &mut buffer),
                printed
            );
            for other in in_each_order(length, limits, style) {
                assert_eq!(other.to_string(), printed, "{text}");
                breaks_down(other, short, Duration::new(*secs, *nanos));
            }
        }
        if format == Format::whole() {
            prints_whole(length, short);
        }
    }
}

#[test]
fn rounds_as_the_vectors_say() {
    for (text, limits, down, nearest, up) in vectors().rounded {
        let (units, first, last, parts) = limits.all();
        let format = Format::whole().only(&units).largest(first);
        let format = format.smallest(last).parts(parts);
        let length = length_of(&text);
        let mut buffer = [0; FORMAT_BUFFER_SIZE];
        for (rounding, wanted) in [
            (None, Some(&down)),
            (Some(Rounding::Down), Some(&down)),
            (Some(Rounding::Nearest), Some(&nearest)),
            (Some(Rounding::Up), up.as_ref()),
        ] {
            let written = write_rounded(&length, format, rounding, &mut buffer);
            assert_eq!(written, wanted.map(String::as_str), "{text}");
        }
        // Without a longer duration, `rounding` changes nothing.
        let up = up.unwrap_or_else(|| down.clone());
        for printed in in_each_order(length, &limits, Style::Short) {
            let rounded = |rounding| printed.rounding(rounding).to_string();
            assert_eq!(rounded(Rounding::Down), down, "{text}");
            assert_eq!(rounded(Rounding::Nearest), nearest, "{text}");
            assert_eq!(rounded(Rounding::Up), up, "{text}");
            for rounding in [Rounding::Down, Rounding::Nearest] {
                let mut parts = printed.rounding(rounding).breakdown();
                parts.by_ref().for_each(drop);
                assert_eq!(parts.rest(), 0, "{text}");
            }
        }
    }
}

fn breaks_down(printed: FormattedDuration, short: &str, rest: Duration) {
    let mut breakdown = printed.breakdown();
    assert_eq!(breakdown.rest(), printed.get_ref().as_nanos());
    let (least, most) = breakdown.size_hint();
    let parts: Vec<String> = breakdown
        .by_ref()
        .map(|(unit, count)| format!("{count}{unit}"))
        .collect();
    assert!(least <= parts.len() && most >= Some(parts.len()));
    let is_zero = short.starts_with('0');
    assert_eq!(parts.join(" "), if is_zero { "" } else { short });
    assert_eq!(breakdown.rest(), rest.as_nanos(), "{printed}");
    assert_eq!(breakdown.next(), None, "{printed}");
}

#[test]
fn bounds_the_number_of_parts() {
    let build = format_duration(Duration::from_millis(193_029));
    for (printed, most) in [(build, 11), (build.parts(2), 2), (build.parts(0), 0)] {
        assert_eq!(printed.breakdown().size_hint(), (0, Some(most)));
    }
}

#[test]
fn returns_no_part_after_the_last_one() {
    fn is_ended(mut parts: impl FusedIterator<Item = (TimeUnit, u128)>) -> bool {
        parts.by_ref().for_each(drop);
        parts.next().is_none() && parts.next().is_none()
    }
    let build = format_duration(Duration::from_millis(193_029));
    for printed in [build, build.parts(2), build.parts(0), build.only(&[])] {
        assert!(is_ended(printed.breakdown()), "{printed}");
    }
}

#[test]
fn takes_units_out_in_any_order() {
    const USUAL: FormattedDuration = format_duration(Duration::from_secs(500 * 86_400 + 3_661))
        .only(&[
            TimeUnit::Hour,
            TimeUnit::Month,
            TimeUnit::Year,
            TimeUnit::Day,
        ])
        .without(TimeUnit::Month);
    assert_eq!(USUAL.to_string(), "1y 135d 1h");
    let other = format_duration(*USUAL.get_ref())
        .without(TimeUnit::Month)
        .without(TimeUnit::Month)
        .only(TimeUnit::ALL)
        .only(&[
            TimeUnit::Year,
            TimeUnit::Month,
            TimeUnit::Day,
            TimeUnit::Hour,
        ]);
    assert_eq!(other, USUAL);
    let days = USUAL.largest(TimeUnit::Day).largest(TimeUnit::Year);
    assert_eq!(days.to_string(), "500d 1h");
    assert_eq!(days.smallest(TimeUnit::Day).to_string(), "500d");
    assert_eq!(days.smallest(TimeUnit::Month).to_string(), "0s");
}

fn prints_whole(length: Duration, printed: &str) {
    assert_eq!(length.human_format(), printed);
    assert_eq!(write_human(&length, &mut [0xff; 64]), printed);
    #[cfg(feature = "chrono")]
    if let Ok(length) = chrono::Duration::from_std(length) {
        assert_eq!(length.human_format(), printed);
    }
    #[cfg(feature = "time")]
    if let Ok(length) = time::Duration::try_from(length) {
        assert_eq!(length.human_format(), printed);
    }
}

/// If a precision cut the text, it could become the text of another duration.
#[test]
fn pads_and_ignores_a_precision() {
    let human = format_duration(Duration::from_secs(90));
    assert_eq!(
        format!("{human:.2}|{human:*>10.2}|{human:^11}|"),
        "1min 30s|**1min 30s| 1min 30s  |"
    );
    let micros = format_duration(Duration::from_micros(5));
    assert_eq!(format!("{micros:>5}|{micros:-<6}|"), "  5µs|5µs---|");
    let whole = HumanDuration(Duration::from_secs(90));
    assert_eq!(
        format!("{whole:.2}|{whole:>10}|{:>3}|", HumanDuration::default()),
        "1min 30s|  1min 30s| 0s|"
    );
    let part = human.parts(1);
    assert_eq!(
        format!("{part:.2}|{part:*>10.2}|{part:^10}|"),
        "1min|******1min|   1min   |"
    );
}

/// `length` is minus 5,401 seconds.
#[cfg(any(feature = "chrono", feature = "time"))]
fn prints_negative(length: impl HumanFormat) {
    let printed = length.formatted();
    assert_eq!(
        format!("{printed}|{printed:>14}|{printed:14}|"),
        "-1h 30min 1s|  -1h 30min 1s|-1h 30min 1s  |"
    );
    assert_eq!(printed.largest(TimeUnit::Minute).to_string(), "-90min 1s");
    assert_eq!(printed.smallest(TimeUnit::Minute).to_string(), "-1h 30min");
    let hours = printed.parts(1).style(Style::Long);
    assert_eq!(hours.to_string(), "-1 hour");
    assert_eq!(printed.get_ref(), &Duration::from_secs(5_401));
    let zero = printed.smallest(TimeUnit::Day);
    assert_eq!(format!("{zero}|{zero:>3}|{zero:-<4}|"), "0d| 0d|0d--|");
    assert_eq!(printed.parts(0).style(Style::Long).to_string(), "0 seconds");
}

#[test]
#[cfg(feature = "chrono")]
#[allow(deprecated)] // Debian 12's chrono has no other names of the least and the most.
fn prints_negative_durations_of_chrono() {
    use chrono::Duration as Signed;
    prints_negative(Signed::seconds(-5_401));
    let [least, most] = [-Signed::min_value(), Signed::max_value()]
        .map(|length| length.to_std().unwrap().human_format());
    assert_eq!(Signed::min_value().human_format(), format!("-{least}"));
    assert_eq!(Signed::max_value().human_format(), most);
}

#[test]
#[cfg(feature = "time")]
fn prints_negative_durations_of_time() {
    use time::Duration as Signed;
    prints_negative(Signed::seconds(-5_401));
    let longest = Duration::new(i64::MAX as u64, 999_999_999).human_format();
    assert_eq!(Signed::MAX.human_format(), longest);
    assert_eq!((-Signed::MAX).human_format(), format!("-{longest}"));
    // `MIN` is one second longer than `MAX`.
    assert_eq!(
        Signed::MIN.human_format(),
        format!("-{longest}").replace(" 7s", " 8s")
    );
}

#[cfg(any(feature = "chrono", feature = "time"))]
proptest! {
    #[test]
    #[cfg(feature = "chrono")]
    fn prints_the_sign_of_chrono(nanos in prop_oneof![1..2_000_000_000i64, 1..i64::MAX]) {
        let text = Duration::from_nanos(nanos as u64).human_format();
        prop_assert_eq!(chrono::Duration::nanoseconds(nanos).human_format(), &text[..]);
        prop_assert_eq!(chrono::Duration::nanoseconds(-nanos).human_format(), format!("-{text}"));
    }

    #[test]
    #[cfg(feature = "time")]
    fn prints_the_sign_of_time(
        secs in prop_oneof![0..2i64, 0..i64::MAX],
        nanos in 1..1_000_000_000i32,
    ) {
        let text = Duration::new(secs as u64, nanos as u32).human_format();
        prop_assert_eq!(time::Duration::new(secs, nanos).human_format(), &text[..]);
        prop_assert_eq!(time::Duration::new(-secs, -nanos).human_format(), format!("-{text}"));
    }
}
