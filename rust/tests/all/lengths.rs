//! What the module `humantime` reads. The example `service` compares it with humantime.
use duration_str::{Cause, humantime::parse_duration};
use std::time::Duration;

const YEAR: u64 = 31_557_600;
const MONTH: u64 = 2_630_016;

#[test]
fn has_the_lengths_of_humantime() {
    for (text, seconds) in [
        ("2 years 1year", 3 * YEAR),
        ("584y", 584 * YEAR),
        ("1y + 1months", YEAR + MONTH),
        ("2s * 1M * 3s", 6 * MONTH),
        ("4w 5days 1q", (28 + 5 + 91) * 86_400),
        ("1hrs2mins3secs", 3_723),
    ] {
        let length = Duration::from_secs(seconds);
        assert_eq!(parse_duration(text), Ok(length), "{text}");
    }
}

#[test]
fn refuses_for_the_first_cause() {
    let refusal = |text| parse_duration(text).unwrap_err();
    let overflow = |place| Cause::Overflow { place };
    assert_eq!(refusal("").cause(), Cause::Empty);
    assert_eq!(refusal("585y").cause(), overflow(Some(0)));
    assert_eq!(refusal("1s + 7014month + 2s").cause(), overflow(None));
    assert!(matches!(
        refusal("1y + 2s * 3s").cause(),
        Cause::Mixed { .. }
    ));
    for (text, line) in [
        ("1m 2Mins", r#"unknown unit "Mins" at column 5"#),
        ("1M+", "expected a number at column 4"),
        ("1y 30", "expected a unit at column 6, found the end"),
        ("1y 30 + 5x", "expected a unit at column 7, found"),
        (
            "1s 7014month x",
            "expected a number, '+', '*' or the end at column 14",
        ),
        (
            "1y 5 mins 5 mos",
            r#"unknown unit "mos" at column 13 (did you mean "mon"?)"#,
        ),
    ] {
        let printed = refusal(text).to_string();
        assert!(printed.starts_with(line), "{text}: {printed}");
    }
}
