// Made by tools/erase of crates/duration_str/src/lib.rt.
//! Duration expressions such as `3m + 13s + 29ms`, read and printed.
#![no_std]

#[forbid(unsafe_code)]
mod impls; // Written by hand.

pub use self::impls::{UnknownStyle, UnknownUnit};

#[forbid(unsafe_code)]
mod blank;
#[forbid(unsafe_code)]
mod breakdown;
#[forbid(unsafe_code)]
mod buffer;
#[forbid(unsafe_code)]
mod cause;
#[forbid(unsafe_code)]
mod characters;
#[allow(unsafe_code)] // Blocks: 1.
mod eye;
#[forbid(unsafe_code)]
mod fault;
#[forbid(unsafe_code)]
mod format;
#[forbid(unsafe_code)]
mod fraction;
#[forbid(unsafe_code)]
mod help;
#[forbid(unsafe_code)]
mod humantime;
#[allow(unsafe_code)] // Blocks: 1.
mod layout;
#[forbid(unsafe_code)]
mod mend;
#[forbid(unsafe_code)]
mod message;
#[forbid(unsafe_code)]
mod more_names;
#[allow(unsafe_code)] // Blocks: 2.
mod one_line;
#[forbid(unsafe_code)]
mod operator;
#[forbid(unsafe_code)]
mod options;
#[forbid(unsafe_code)]
mod packed;
#[forbid(unsafe_code)]
mod parser;
#[allow(unsafe_code)] // Blocks: 1.
mod printing;
#[forbid(unsafe_code)]
mod reader;
#[forbid(unsafe_code)]
mod report;
#[forbid(unsafe_code)]
mod rounding;
#[forbid(unsafe_code)]
mod rules;
#[allow(unsafe_code)] // Blocks: 2.
mod slice;
#[allow(unsafe_code)] // Blocks: 1.
mod suggestion;
#[forbid(unsafe_code)]
mod table;
#[forbid(unsafe_code)]
mod token;
#[forbid(unsafe_code)]
mod unit;

pub use self::rules::Rules;
pub use self::help::Help;
pub use self::mend::Mend;
pub use self::suggestion::{MAX_SUGGESTION_LEN, SUGGESTION_BUFFER_SIZE, Suggestion};
pub use self::breakdown::Breakdown;
pub use self::format::{Format, Style, Units};
pub use self::rounding::{Rounding, round_to};
pub use self::one_line::{MAX_ONE_LINE_LEN, ONE_LINE_BUFFER_SIZE};
pub use self::report::REPORT_BUFFER_SIZE;
pub use self::parser::{
    Cause, Expected, Fault, parse, parse_by, parse_looked, parse_nanos, parse_nanos_specialized,
    parse_std, parse_with,
};
pub use self::printing::{
    FORMAT_BUFFER_SIZE, HUMAN_BUFFER_SIZE, MAX_LONG_LEN, MAX_PRINTED_LEN, write_format,
    write_human, write_rounded,
};
pub use self::token::{Token, Tokens, What};
pub use self::unit::{CondUnit, Options, TimeUnit, UNITS};
