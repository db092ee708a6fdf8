//! `duration EXPRESSION` prints the expression's value in nanoseconds, that value as a printed
//! duration, and the moment that much after 2000-01-01T00:00:00Z, in seconds since 1970. Or it
//! prints what is wrong with the expression.
use chrono::{TimeZone, Utc};
use duration_str::{Fault, HumanFormat, Options, moment_after, parse_with};
use std::process::ExitCode;

fn line_of(expression: &str) -> Result<String, Fault<'_>> {
    let off = Options::off();
    let start = Utc
        .with_ymd_and_hms(2000, 1, 1, 0, 0, 0)
        .unwrap()
        .naive_utc();
    let length = parse_with(expression, off)?;
    let moment = Utc.from_utc_datetime(&moment_after(start, expression, off)?);
    let seconds = format!(
        "{}.{:09}",
        moment.timestamp(),
        moment.timestamp_subsec_nanos()
    );
    Ok(format!(
        "{} {} {seconds}",
        length.as_nanos(),
        length.human_format()
    ))
}

fn main() -> ExitCode {
    let words: Vec<_> = std::env::args_os().skip(1).collect();
    let [word] = words.as_slice() else {
        eprintln!("usage: duration EXPRESSION");
        return ExitCode::from(2);
    };
    let Some(expression) = word.to_str() else {
        println!("no UTF-8");
        return ExitCode::FAILURE;
    };
    match line_of(expression) {
        Ok(line) => {
            println!("{line}");
            ExitCode::SUCCESS
        }
        Err(fault) => {
            println!("{}", fault.report());
            ExitCode::FAILURE
        }
    }
}
