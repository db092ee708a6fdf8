//! Compares humantime with the module `humantime` of this crate.
use duration_str::humantime as after;
use duration_str::humantime_serde;
use humantime as before;
use serde::{Deserialize, Serialize};
use std::time::Duration;

struct Numbers(u64);

impl Numbers {
    fn next(&mut self) -> u64 {
        self.0 ^= self.0 << 13;
        self.0 ^= self.0 >> 7;
        self.0 ^= self.0 << 17;
        self.0
    }

    fn below(&mut self, limit: usize) -> usize {
        (self.next() % limit as u64) as usize
    }

    /// Returns a number, and often a short one.
    fn any(&mut self) -> u64 {
        self.next() >> self.below(64)
    }

    fn one_of<'a>(&mut self, words: &[&'a str]) -> &'a str {
        words[self.below(words.len())]
    }
}

/// All names of humantime 2.1.
const NAMES: [&str; 35] = [
    "nanos", "nsec", "ns", "usec", "us", "millis", "msec", "ms", "seconds", "second", "secs",
    "sec", "s", "minutes", "minute", "mins", "min", "m", "hours", "hour", "hrs", "hr", "h", "days",
    "day", "d", "weeks", "week", "w", "months", "month", "M", "years", "year", "y",
];

/// 2^64 nanoseconds. After the move, no text of this duration or a longer one is read.
const LIMIT: Duration = Duration::new(18_446_744_073, 709_551_616);

#[test]
fn reads_what_was_read() {
    let mut numbers = Numbers(0x9e37_79b9_7f4a_7c15);
    let mut read = 0;
    for _ in 0..200_000 {
        let terms = 1 + numbers.below(4);
        let text: String = (0..terms)
            .map(|_| {
                let number = numbers.any() >> numbers.below(40);
                let name = numbers.one_of(&NAMES);
                format!(
                    "{}{number}{}{name}",
                    numbers.one_of(&["", " "]),
                    numbers.one_of(&["", "", " "])
                )
            })
            .collect();
        let was = before::parse_duration(&text)
            .ok()
            .filter(|length| *length < LIMIT);
        assert_eq!(after::parse_duration(&text).ok(), was, "{text}");
        read += usize::from(was.is_some());
    }
    assert!(read > 50_000, "{read}");
}

#[test]
fn reads_nothing_with_another_value() {
    const PARTS: [&str; 20] = [
        "1", "7", "30", "584", "7014", "0", "year", "y", "month", "mon", "M", "d", "ay", "s", "ns",
        "m", "o", " ", "+", "*",
    ];
    let mut numbers = Numbers(0x2545_f491_4f6c_dd1d);
    let mut read = 0;
    for _ in 0..200_000 {
        let parts = 1 + numbers.below(7);
        let text: String = (0..parts).map(|_| numbers.one_of(&PARTS)).collect();
        if let (Ok(was), Ok(is)) = (before::parse_duration(&text), after::parse_duration(&text)) {
            assert_eq!(is, was, "{text}");
            read += 1;
        }
    }
    assert!(read > 5_000, "{read}");
}

#[derive(Serialize, Deserialize)]
struct Stored {
    #[serde(with = "humantime_serde")]
    length: Duration,
}

#[test]
fn prints_what_was_printed_and_reads_it() {
    let mut numbers = Numbers(0x0123_4567_89ab_cdef);
    for _ in 0..200_000 {
        let length = Duration::from_nanos(numbers.any());
        let was = before::format_duration(length).to_string();
        assert_eq!(after::parse_duration(&was), Ok(length), "{was}");
        let is = after::format_duration(length).to_string();
        assert_eq!(is, was);
        let stored: Stored = serde_json::from_value(serde_json::json!({ "length": was })).unwrap();
        assert_eq!(
            serde_json::to_value(&stored).unwrap(),
            serde_json::json!({ "length": is })
        );
        // `long` can be too long for this crate to read.
        let long = Duration::new(numbers.any(), 999_999_999);
        let was = before::format_duration(long).to_string();
        assert_eq!(after::format_duration(long).to_string(), was);
    }
}
