//! Makes calls of Rust. bench/run says how each such program is called, and puts the calls of its
//! table into this one.
#![allow(unused)]
use duration_str::{HUMAN_BUFFER_SIZE, Options, Rounding::Nearest};
use std::hint::black_box;
use std::time::{Duration, Instant};

const ALL_ON: Options = Options {
    no_calc: true,
    lowercase: true,
    cn_unit: true,
};

struct Rounds {
    least: u32,
    time: Duration,
}

impl Rounds {
    /// Returns the nanoseconds for an item, in the quickest of the rounds.
    fn nanos<T, R>(&self, items: &[T], call: impl Fn(&T) -> R) -> f64 {
        let round = || {
            let start = Instant::now();
            for item in items {
                black_box(call(black_box(item)));
            }
            start.elapsed().as_nanos() as f64 / items.len() as f64
        };
        let mut quickest = round();
        let (start, mut count) = (Instant::now(), 0);
        std::os::unix::process::parent_id();
        while count < self.least || start.elapsed() < self.time {
            quickest = quickest.min(round());
            count += 1;
        }
        std::os::unix::process::parent_id();
        quickest
    }
}

fn main() {
    let words: Vec<String> = std::env::args().skip(1).collect();
    let rounds = Rounds {
        least: words[0].parse().expect("a number of rounds"),
        time: Duration::from_millis(words[1].parse().expect("milliseconds")),
    };
    for pair in words[2..].chunks_exact(2) {
        let file = std::fs::read_to_string(&pair[1]).expect("a file of texts");
        let texts: Vec<&str> = file.lines().collect();
        let lengths: Vec<Duration> = texts
            .iter()
            .filter_map(|text| duration_str::parse_duration(text).ok())
            .collect();
        let nanos = match pair[0].as_str() {
            // CALLS
            call => panic!("no such call: {call}"),
        };
        println!("{nanos:.1}");
    }
}
