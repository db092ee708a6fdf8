use crate::near::near;
use crate::{FEATURES, Group, by_usual_calls, choices, has, options_of, rules_of, vectors};
use duration_str::{
    Fault, Options, Rules, Style, TimeUnit, UNITS, parse, parse_by, parse_in, parse_std, parse_with,
};
use duration_str_core as proved;
use std::collections::BTreeSet;
use std::time::Duration;

fn answers(text: &str) -> Vec<Result<Duration, String>> {
    Vec::from([
        parse(text),
        parse(String::from(text)),
        parse_std(text),
        parse_std(String::from(text)),
        #[cfg(feature = "chrono")]
        duration_str::parse_chrono(text).map(|length| length.to_std().unwrap()),
        #[cfg(feature = "time")]
        duration_str::parse_time(text).map(|length| length.try_into().unwrap()),
    ])
}

fn check(group: &Group, options: Options, is_read: bool) {
    let rules = rules_of(options, &group.on);
    for (secs, nanos, texts) in &group.rows {
        for text in texts {
            let answer = parse_by(text, rules);
            let wanted = is_read.then_some(Duration::new(*secs, *nanos));
            assert_eq!(
                answer.as_ref().ok().copied(),
                wanted,
                "{text:?} by {rules:?}"
            );
            for same in by_usual_calls(text, rules) {
                assert_eq!(same, answer.map_err(Fault::into_owned), "{text:?}");
            }
            if rules == Rules::of(options) {
                check_seconds(text, options);
            }
        }
    }
}

fn check_seconds(text: &str, options: Options) {
    let wanted = parse_by(
        text,
        Rules::of(options).default_unit(Some(TimeUnit::Second)),
    );
    assert_eq!(parse_with(text, options), wanted, "{text:?}");
    if options == FEATURES {
        let wanted = proved::parse_with(text, options).map_err(|fault| fault.to_string());
        assert!(
            answers(text).iter().all(|answer| *answer == wanted),
            "{text:?}: {:?}",
            answers(text)
        );
    }
}

#[test]
fn reads_the_vectors_and_refuses_them_under_the_other_options() {
    let vectors = vectors();
    for names in choices() {
        for group in &vectors.values {
            let is_on = |name: &String| names.contains(name) || !has(&vectors.options, name);
            check(
                group,
                options_of(&names),
                group.on.iter().all(is_on) && !group.off.iter().any(is_on),
            );
        }
    }
}

#[test]
fn reads_the_digits_of_numbers_in_another_unit() {
    for (unit, number, secs, nanos) in vectors().numbers {
        let read = parse_in(&number.to_string(), unit.parse().unwrap());
        assert_eq!(read, Ok(Duration::new(secs, nanos)), "{number} {unit}");
    }
    for (unit, number, line) in vectors().refused_numbers {
        let refusal = parse_in(&number.to_string(), unit.parse().unwrap()).unwrap_err();
        assert_eq!(refusal.to_string(), line);
    }
}

#[test]
fn reads_operators_only_if_numbers_count_seconds() {
    for unit in UNITS {
        for text in ["1s+1s", "90s*2"] {
            let is_read = parse_in(text, unit).is_ok();
            assert_eq!(is_read, unit == TimeUnit::Second, "{text} in {unit}");
        }
    }
}

/// The names of a unit are the words that a text can have for it.
#[test]
fn knows_whole_names_only() {
    let is_outside = |c: char| c.is_ascii_digit() || " \t\r\n+*".contains(c);
    let vectors = vectors();
    let texts = vectors.values.iter().flat_map(|group| &group.rows);
    let words =
        texts.flat_map(|(_, _, texts)| texts.iter().flat_map(|text| text.split(is_outside)));
    let names: BTreeSet<&str> = words.collect();
    let words: BTreeSet<String> = names.iter().flat_map(|name| near(name)).collect();
    let choices: Vec<Options> = choices().iter().map(|names| options_of(names)).collect();
    let (mut counts, mut added) = ([0, 0], BTreeSet::new());
    for word in words {
        let is_word = !word.is_empty() && !word.contains(is_outside);
        for options in &choices {
            let text = format!("1{word}");
            let read = parse_with(&text, *options).ok();
            let by_more_names = parse_by(&text, Rules::of(*options).more_names()).ok();
            if read.is_some() {
                assert_eq!(by_more_names, read, "{word:?}");
            } else if by_more_names.is_some() && is_word && options.lowercase {
                added.insert(word.clone());
            }
            let unit = TimeUnit::from_word(&word, *options);
            let length = unit.map(|unit| Duration::from_nanos(unit.nanos()));
            assert_eq!(length, read.filter(|_| is_word), "{word:?}");
            counts[usize::from(unit.is_some())] += 1;
        }
        let unit = TimeUnit::from_word(&word, Options::off());
        assert_eq!(word.parse().ok(), unit, "{word:?}");
    }
    assert!(counts.iter().all(|count| *count > 300), "{counts:?}");
    assert_eq!(added.len(), 24, "{added:?}");
    for word in vectors.styles.iter().flat_map(|name| near(name)) {
        let is_style = word.parse::<Style>().is_ok();
        assert_eq!(is_style, vectors.styles.contains(&word), "{word:?}");
    }
}

#[cfg(feature = "macros")]
mod macros {
    use duration_str::duration;
    use std::time::Duration;

    const TIMEOUT: Duration = duration!("1h 30m");
    static RAW: Duration = duration!(r##"1m * 10ms"##);

    macro_rules! handed_on {
        ($text:literal) => {
            duration!($text)
        };
    }

    #[test]
    fn reads_literals_with_all_options_off() {
        assert_eq!(TIMEOUT, Duration::from_secs(5_400));
        assert_eq!(RAW, Duration::from_millis(600));
        assert_eq!(handed_on!("29µs"), Duration::from_micros(29));
        let longest = duration!("18446744073709551615ns");
        assert_eq!(longest.as_nanos(), u64::MAX.into());
    }

    #[test]
    fn reads_literals_under_named_options() {
        assert_eq!(duration!("3分 13秒", cn_unit), Duration::from_secs(193));
        assert_eq!(
            duration!("2h", no_calc, lowercase,),
            Duration::from_secs(7_200)
        );
        assert_eq!(
            duration!("1h 30m", require_unit),
            Duration::from_secs(5_400)
        );
    }
}
