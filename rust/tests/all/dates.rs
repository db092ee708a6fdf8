//! Compares moments with arithmetic on nanoseconds since 1970.
use chrono::{Duration, NaiveDate, NaiveDateTime, TimeZone, Utc};
use duration_str::{
    Cause, HumanFormat, Options, after_naive_date, after_naive_date_time, before_naive_date,
    before_naive_date_time, moment_after, moment_before,
};
use proptest::prelude::*;

const SECOND: i128 = 1_000_000_000;

fn after_1970(nanos: i128) -> Result<NaiveDateTime, Cause> {
    let secs = nanos.div_euclid(SECOND) as i64;
    let moment = Utc
        .timestamp_opt(secs, nanos.rem_euclid(SECOND) as u32)
        .single();
    moment
        .map(|moment| moment.naive_utc())
        .ok_or(Cause::OutOfRange)
}

fn moment(secs: i64, nanos: u32) -> NaiveDateTime {
    Utc.timestamp_opt(secs, nanos).unwrap().naive_utc()
}

/// Seconds since 1970. Many are near the first or the last moment that chrono can represent.
fn secs() -> impl Strategy<Value = i64> {
    let [first, last] = [NaiveDateTime::MIN, NaiveDateTime::MAX]
        .map(|moment| Utc.from_utc_datetime(&moment).timestamp());
    prop_oneof![
        first..=last,
        first..first + 600 * 31_536_000,
        last - 600 * 31_536_000..=last
    ]
}

proptest! {
    #[test]
    fn moves_as_numbers_do(secs in secs(), nanos in 0..1_000_000_000u32, length: u64) {
        let start = moment(secs, nanos);
        let since = i128::from(secs) * SECOND + i128::from(nanos);
        let text = std::time::Duration::from_nanos(length).human_format();
        let after = moment_after(start, &text, Options::off()).map_err(|fault| fault.cause());
        prop_assert_eq!(after, after_1970(since + i128::from(length)));
        let before = moment_before(start, &text, Options::off()).map_err(|fault| fault.cause());
        prop_assert_eq!(before, after_1970(since - i128::from(length)));
    }
}

#[test]
fn refuses_moments_beyond() {
    let fault = moment_after(NaiveDateTime::MAX, "1ns", Options::off()).unwrap_err();
    assert_eq!(
        (fault.cause(), fault.to_string()),
        (Cause::OutOfRange, "date out of range".to_string())
    );
    assert_eq!(
        (fault.text(), fault.place(), fault.found()),
        ("1ns", None, None)
    );
    let fault = moment_before(NaiveDateTime::MIN, "1ns", Options::off()).unwrap_err();
    assert_eq!(fault.cause(), Cause::OutOfRange);
    let fault = moment_after(NaiveDateTime::MAX, "1x", Options::off()).unwrap_err();
    assert_eq!(fault.place(), Some(1));
}

#[test]
fn moves_under_the_options() {
    let start = moment(0, 0);
    let all = Options::off()
        .with_no_calc()
        .with_lowercase()
        .with_cn_unit();
    assert_eq!(moment_after(start, "1分 1s", all), Ok(moment(61, 0)));
    let refusal = moment_before(start, "1m*2", all).unwrap_err();
    assert_eq!(refusal.found(), Some("*"));
}

#[test]
fn counts_a_leap_second_as_chrono_does() {
    let date = NaiveDate::from_ymd_opt(2016, 12, 31).unwrap();
    let leap = date.and_hms_milli_opt(23, 59, 59, 1_500).unwrap();
    let next = date.succ_opt().unwrap();
    assert_eq!(
        moment_after(leap, "1s", Options::off()),
        Ok(next.and_hms_milli_opt(0, 0, 0, 500).unwrap())
    );
    assert_eq!(
        moment_before(leap, "1s", Options::off()),
        Ok(date.and_hms_milli_opt(23, 59, 59, 500).unwrap())
    );
}

#[test]
fn starts_now() {
    let day = Duration::days(1);
    let clock = || Utc::now().naive_utc();
    let (from, after, to) = (clock(), after_naive_date_time("1d"), clock());
    assert!((from + day..=to + day).contains(&after.unwrap()));
    let (from, before, to) = (clock(), before_naive_date_time(String::from("1d")), clock());
    assert!((from - day..=to - day).contains(&before.unwrap()));
    let (from, after, to) = (clock(), after_naive_date("1d"), clock());
    assert!(((from + day).date()..=(to + day).date()).contains(&after.unwrap()));
    let (from, before, to) = (clock(), before_naive_date("1d"), clock());
    assert!(((from - day).date()..=(to - day).date()).contains(&before.unwrap()));
    assert_eq!(
        after_naive_date_time("600y").unwrap_err(),
        "600y\n^\noverflow error"
    );
    assert_eq!(before_naive_date("").unwrap_err(), "Empty input");
}
