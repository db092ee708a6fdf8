// Made by tools/erase of crates/durstr_run/src/words.rt.
//! The words of the command line, and how the program ends.

use crate::fault::RunFault;
use duration_str_core::Options;

/// Returns the options with the field of this name on and the other fields unchanged, or `None` if
/// the word is no option's name.
///
/// ```text
/// with_word(Options::off(), "no_calc") // Some(Options { no_calc: true, ..Options::off() })
/// with_word(Options::off(), "nocalc")  // None
/// ```
pub fn with_word(options: Options, word: &str) -> Option<Options> {
    match word {
        "no_calc" => Some(Options {
            no_calc: true,
            ..options
        }),
        "lowercase" => Some(Options {
            lowercase: true,
            ..options
        }),
        "cn_unit" => Some(Options {
            cn_unit: true,
            ..options
        }),
        _ => None,
    }
}

/// Returns the exit status for this result of `run`, and the line for standard error, which is
/// empty if there is none.
///
/// ```text
/// ending(Ok(false))             // (1, "")
/// ending(Err(RunFault::Memory)) // (3, "durstr: out of memory")
/// ```
pub fn ending(answer: Result<bool, RunFault>) -> (u8, &'static str) {
    match answer {
        Ok(true) => (0, ""),
        Ok(false) => (1, ""),
        Err(RunFault::Read) => (2, "durstr: read failed"),
        Err(RunFault::Write) => (2, "durstr: write failed"),
        Err(RunFault::TooLong) => (2, "durstr: input too long"),
        Err(RunFault::Memory) => (3, "durstr: out of memory"),
    }
}
