//! For tests/compare: prints the value and the duration of each line of the input, or the line of
//! the refusal, the reason, and the help's number, with tabs between them, and then where the part
//! to replace begins and ends, in characters, the suggestion, and the mended text. The words are
//! those of the program durstr, `more_names`, `require_unit`, and a default unit, such as
//! `default_unit=ms`. The status is 0 if all lines are read, and 1 if some are refused.
//!
//! With the word `rounded` it prints durations that are rounded down, to the nearest and up. Each
//! line has the nanoseconds, the number of a set of units, and the greatest number of parts.
#![forbid(unsafe_code)]

use duration_str::{Fault, Options, Rounding, Rules, TimeUnit, format_duration, parse_by};
use std::io::Read;
use std::process::ExitCode;
use std::time::Duration;

fn print_rounded(line: &str) {
    let numbers: Vec<u128> = line.split(' ').map(|each| each.parse().unwrap()).collect();
    let chosen = |place: usize| numbers[1] >> place & 1 == 1;
    let units = TimeUnit::ALL.iter().enumerate();
    let units: Vec<TimeUnit> = units
        .filter(|(place, _)| chosen(*place))
        .map(|(_, unit)| *unit)
        .collect();
    let secs = (numbers[0] / 1_000_000_000).try_into().unwrap();
    let nanos = (numbers[0] % 1_000_000_000).try_into().unwrap();
    let printed = format_duration(Duration::new(secs, nanos)).only(&units);
    let printed = printed.parts(numbers[2].try_into().unwrap());
    let rounded = |rounding| printed.rounding(rounding).to_string();
    let [down, nearest, up] = [Rounding::Down, Rounding::Nearest, Rounding::Up].map(rounded);
    println!("{down}, {nearest}, {up}");
}

fn line_and_help(fault: Fault<'_>) -> String {
    let mut told = format!("{fault}\t{}", fault.reason());
    let Some(help) = fault.help() else {
        return told;
    };
    told += &format!("\t{}", help.number());
    if let Some(mend) = fault.mend() {
        let start = mend.front.chars().count();
        let end = start + mend.replaced.chars().count();
        told += &format!(" {start}-{end} <{}>", mend.suggestion);
    }
    if let Some(mended) = fault.mended() {
        told += &format!(" {mended}");
    }
    told
}

fn main() -> ExitCode {
    let is_on = |name: &str| std::env::args().skip(1).any(|word| word == name);
    let options = Options {
        no_calc: is_on("no_calc"),
        lowercase: is_on("lowercase"),
        cn_unit: is_on("cn_unit"),
    };
    let mut words = std::env::args();
    let named = words.find_map(|word| word.strip_prefix("default_unit=").map(String::from));
    let default_unit = match named {
        _ if is_on("require_unit") => None,
        Some(name) => Some(name.parse().expect("a unit")),
        None => Some(TimeUnit::Second),
    };
    let mut rules = Rules::of(options).default_unit(default_unit);
    if is_on("more_names") {
        rules = rules.more_names();
    }
    let mut input = Vec::new();
    std::io::stdin().read_to_end(&mut input).expect("an input");
    if is_on("rounded") {
        String::from_utf8(input)
            .unwrap()
            .lines()
            .for_each(print_rounded);
        return ExitCode::SUCCESS;
    }
    let mut refusals = 0;
    for line in input.split_inclusive(|byte| *byte == b'\n') {
        let line = line.strip_suffix(b"\n").unwrap_or(line);
        let answer = match std::str::from_utf8(line) {
            Ok(text) => parse_by(text, rules).map_err(line_and_help),
            Err(_) => Err(String::from("not UTF-8")),
        };
        match answer {
            Ok(read) => println!("{} {}", read.as_nanos(), format_duration(read)),
            Err(message) => {
                println!("{message}");
                refusals += 1;
            }
        }
    }
    ExitCode::from(u8::from(refusals > 0))
}
