use crate::{FEATURES, Refused, by_usual_calls, options_of, rules_of, vectors};
use duration_str::{
    Cause, DError, Expected, Fault, Help, ONE_LINE_BUFFER_SIZE, Options, Rules, parse, parse_by,
    parse_require_unit, parse_with,
};
use duration_str_core as proved;
use std::error::Error;
use std::fmt::Display;

fn message(text: &str, options: Options) -> String {
    proved::parse_with(text, options)
        .expect_err(text)
        .to_string()
}

fn fault(text: &str, options: Options) -> Fault<'_> {
    parse_with(text, options).expect_err(text)
}

/// `kinds` could stand at the fault's place.
fn last_line(cause: &str, kinds: &[String]) -> &'static str {
    match cause {
        "EMPTY" => "Empty input",
        "NUMBER_TOO_LARGE" => "number too large to fit in target type",
        "OVERFLOW" => "overflow error",
        _ if kinds.iter().any(|kind| kind == "unit") => UNITS,
        _ if kinds.iter().any(|kind| kind == "operator") => "expected ['+', '*']",
        _ => "expected number",
    }
}

const UNITS: &str =
    r#"expected ["y", "q", "mon", "w", "d", "h", "m", "s", "ms", "µs", "us", "ns"]"#;

fn checks_message(text: &str, options: Options, place: Option<usize>, line: &str) {
    let wanted = match place {
        None => line.to_string(),
        Some(place) if text.contains('\n') => format!("byte {place}: {line}"),
        Some(place) => format!(
            "{text}\n{}^\n{line}",
            " ".repeat(text[..place].chars().count())
        ),
    };
    assert_eq!(message(text, options), wanted, "{options:?}");
    assert_eq!(fault(text, options).cause().line(), line);
    if options == FEATURES {
        assert_eq!(parse(text), Err(wanted));
    }
}

#[test]
fn tells_all_of_a_refusal() {
    for row in &vectors().refused {
        let Refused(
            text,
            names,
            cause,
            place,
            found,
            kinds,
            line,
            spaces,
            help,
            suggestion,
            span,
            mended,
        ) = row;
        let options = options_of(names);
        let rules = rules_of(options, names);
        let fault = parse_by(text, rules).expect_err(text);
        let got = (fault.place(), fault.found());
        assert_eq!(got, (*place, found.as_deref()), "{text}");
        assert_eq!(name_of(fault.cause()), cause, "{text}");
        assert_eq!(fault.expected().map_or(vec![], kinds_of), *kinds, "{text}");
        assert_eq!(fault.help().map(code_of), help.as_deref(), "{text}");
        let error = fault.into_owned();
        for same in by_usual_calls(text, rules) {
            assert_eq!(same.as_ref(), Err(&error), "{text}");
        }
        assert_eq!(error.help(), fault.help(), "{text}");
        assert_eq!(fault.mended(), *mended, "{text}");
        assert_eq!(error.mended(), *mended, "{text}");
        assert_eq!(error.mend(), fault.mend(), "{text}");
        let mend = fault.mend();
        let written = mend.map(|mend| mend.suggestion.to_string());
        assert_eq!(written, *suggestion, "{text}");
        let ends = mend.map(|mend| (mend.front.len(), text.len() - mend.rest.len()));
        assert_eq!(ends, *span, "{text}");
        let before = mend.map_or(text.clone(), |it| [it.front, it.replaced, it.rest].concat());
        assert_eq!(before, *text);
        assert_eq!([fault.to_string(), error.to_string()], [&line[..]; 2]);
        let above = spaces.map_or(String::new(), |spaces| {
            format!("{text}\n{}^\n", " ".repeat(spaces))
        });
        let reason = reason_of(line, cause, text, *place);
        assert_eq!([fault.reason(), error.reason()], [&reason[..]; 2]);
        assert_eq!(
            fault.write_reason(&mut [b'#'; ONE_LINE_BUFFER_SIZE]),
            reason
        );
        let report = above + line;
        assert_eq!([fault.report(), error.report()], [&report[..]; 2]);
        if cause != "MIXED" && rules == Rules::of(options) {
            checks_message(text, options, *place, last_line(cause, kinds));
        }
    }
}

/// The line without its column, if it has one.
fn reason_of(line: &str, cause: &str, text: &str, place: Option<usize>) -> String {
    if cause != "SYNTAX" {
        return line.to_string();
    }
    let column = 1 + text[..place.unwrap()].chars().count();
    let parts = line.split_once(&format!(" at column {column}"));
    let (front, rest) = parts.expect(line);
    format!("{front}{rest}")
}

/// The names of the helps, in the order of their numbers. The list is made by
/// tools/facts --write.
const HELPS: [&str; 16] = [
    "DID_YOU_MEAN",
    "UNITS",
    "FRACTION",
    "DIGITS_ONLY",
    "CLOCK_TIME",
    "NEGATIVE",
    "LEADING_PLUS",
    "ISO_8601",
    "ONE_DURATION",
    "NO_POINT",
    "BRACKETS",
    "DIVISION",
    "QUOTATION_MARKS",
    "MISSING_UNIT",
    "ZERO",
    "LARGE_NUMBER",
];

fn code_of(help: Help) -> &'static str {
    HELPS[help.number() as usize - 1]
}

fn name_of(cause: Cause) -> &'static str {
    match cause {
        Cause::Empty => "EMPTY",
        Cause::Syntax { .. } => "SYNTAX",
        Cause::NumberTooLarge { .. } => "NUMBER_TOO_LARGE",
        Cause::Overflow { .. } => "OVERFLOW",
        Cause::Mixed { .. } => "MIXED",
        _ => "another",
    }
}

fn kinds_of(expected: Expected) -> Vec<&'static str> {
    let kinds = [
        (expected.number, "number"),
        (expected.unit_word, "unit"),
        (expected.operator, "operator"),
        (expected.text_end, "end"),
    ];
    let could_stand = kinds.into_iter().filter(|(could, _)| *could);
    could_stand.map(|(_, name)| name).collect()
}

#[test]
fn mends_fractions_by_the_lengths_of_humantime() {
    // A month has 30.44 days there, which is 2,630,016 seconds, and a year 365.25 days.
    let rows = [
        ("1.5y", Some("13149h")),
        ("1.5months", Some("3945024s")),
        ("0.25M 1h", Some("657504s 1h")),
        ("0.25 mo", Some("657504s")),
        ("2.0M", Some("2mon")),
        ("1.5m", Some("90s")),
        ("1.5 Mins", Some("90s")),
        ("1.5H", None),
        ("1.5", None),
        ("PT5M", None),
        ("+5M", Some("5M")),
        ("0", Some("0s")),
    ];
    for (text, wanted) in rows {
        let error = duration_str::humantime::parse_duration(text).expect_err(text);
        assert_eq!(error.mended().as_deref(), wanted, "{text}");
    }
}

#[test]
fn mends_until_a_text_is_read() {
    let rows = [
        ("2hrs 1.5min", Some("2h 90s")),
        ("+1_000_000.5 mins.", Some("60000030s")),
        ("1'000_000s 1_000", Some("1000000s 1000")),
        ("1_000'00s", None),
        ("4'33", None),
        ("2024_01_31", None),
        ("5m... 10m", None),
        ("PT1H30", None),
        ("PT5M.", None),
        ("PT5M. ", None),
        ("PT5M \t\r\n", Some("5M \t\r\n")),
        ("1.5h 5x", None),
        ("1.5h, 5s", None),
        ("600years.", None),
        ("1min 2sec. * 3", None),
    ];
    for (text, wanted) in rows {
        let mended = fault(text, Options::off()).mended();
        assert_eq!(mended.as_deref(), wanted, "{text}");
    }
}

#[test]
fn mends_up_to_32_faults() {
    for (count, is_mended) in [(1, true), (32, true), (33, false), (250_000, false)] {
        let text = format!("0{}s", "_000".repeat(count));
        let wanted = is_mended.then(|| format!("0{}s", "000".repeat(count)));
        assert_eq!(fault(&text, Options::off()).mended(), wanted, "{count}");
    }
}

#[test]
fn becomes_an_error() {
    let rows = [
        ("", DError::ParseError("Empty input".to_string())),
        ("1x", DError::ParseError(UNITS.to_string())),
        (
            "1s+2*3",
            DError::ParseError("not support '+' with '*' calculate".to_string()),
        ),
        (
            "1m*2s 3s",
            DError::ParseError("not support '*' with '+' calculate".to_string()),
        ),
        ("580y*2", DError::OverflowError),
        ("600y", DError::OverflowError),
        (
            "99999999999999999999",
            DError::ParseError("number too large to fit in target type".to_string()),
        ),
    ];
    for (text, error) in rows {
        let fault = fault(text, Options::off());
        assert_eq!(error.to_string(), fault.cause().line(), "{text}");
        assert_eq!(DError::from(fault), error, "{text}");
        assert_eq!(fault.to_derror(), error, "{text}");
    }
    let text = String::from("1x");
    let error: Box<dyn Error + '_> = fault(&text, Options::off()).into();
    assert_eq!(error.to_string(), fault(&text, Options::off()).to_string());
}

#[test]
fn takes_as_much_memory_as_the_message_is_long() {
    for text in [
        "",
        "1m 3-5",
        "1分 ?",
        "600y",
        "580y 580y",
        "99999999999999999999",
    ] {
        let printed = parse(text).unwrap_err();
        assert_eq!(
            (printed.capacity(), &printed),
            (printed.len(), &message(text, FEATURES))
        );
    }
}

#[test]
fn pads_errors() {
    let fault = fault("", Options::off());
    let errors: [&dyn Display; 3] = [
        &fault,
        &fault.into_owned(),
        &parse_require_unit("").unwrap_err(),
    ];
    for error in errors {
        assert_eq!(
            format!("{error:>12}|{error:-<12}|"),
            "  empty text|empty text--|"
        );
        assert_eq!(
            format!("{error:.5}|{error:1.5}|{error:7.5}|"),
            "empty|empty|empty  |"
        );
    }
    let (unit, style) = (duration_str::UnknownUnit, duration_str::UnknownStyle);
    assert_eq!(format!("{unit:.7}|{style:.8}|"), "no unit|no style|");
}
