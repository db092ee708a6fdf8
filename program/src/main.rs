//! The program `durstr`.
#![forbid(unsafe_code)]

use duration_str_core::Options;
use durstr_run::{Heap, ending, run, with_word};
use std::io::{self, Write};
use std::process::ExitCode;

/// Returns the status, and the line for standard error, which may be empty.
fn outcome() -> (u8, &'static str) {
    let mut options = Options::off();
    for word in std::env::args_os().skip(1) {
        match word.to_str().and_then(|word| with_word(options, word)) {
            Some(next) => options = next,
            None => return (2, "durstr: unknown word"),
        }
    }
    let (mut input, mut output) = (io::stdin().lock(), io::stdout().lock());
    ending(run(Heap, &mut input, &mut output, options))
}

fn main() -> ExitCode {
    let (status, line) = outcome();
    if !line.is_empty() {
        // The exit status also says that the run failed.
        let _ = writeln!(io::stderr(), "{line}");
    }
    ExitCode::from(status)
}
