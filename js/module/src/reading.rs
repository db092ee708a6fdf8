// Made by tools/erase of crates/duration_str_js/src/reading.rt.
//! The call that reads a text.

use duration_str_core::{
    Cause, Expected, Fault, Help, Options, REPORT_BUFFER_SIZE, Rules, Suggestion, TimeUnit, UNITS,
    parse_nanos_specialized,
};

const NO_CALC: u32 = 1;

const LOWERCASE: u32 = 2;

const CN_UNIT: u32 = 4;

const REQUIRE_UNIT: u32 = 8;

const MORE_NAMES: u32 = 16;

/// The first of the bits that hold the default unit: its index in `UNITS` plus 1, or 0 if none is
/// named.
const DEFAULT_UNIT_SHIFT: u32 = 16;

const EMPTY: u32 = 1;

const SYNTAX: u32 = 2;

const NUMBER_TOO_LARGE: u32 = 3;

const OVERFLOW: u32 = 4;

const MIXED: u32 = 5;

const OUT_OF_RANGE: u32 = 6;

const NOT_TEXT: u32 = 7;

/// Why a text is refused, and what to write in place of a part of it, if that is certain.
#[repr(C)]
#[derive(Clone, Copy)]
pub struct Refusal {
    /// The count to write, or 0 if there is none.
    pub count: u64,
    /// The byte offset of the fault, or -1 if the fault has no place.
    pub place: isize,
    /// The length in bytes of the token at the place of a syntax fault. It is 0 at the end of the
    /// text, and for other faults.
    pub found_length: usize,
    /// The number of the cause, from 1 for `Empty` on, in the order of `Cause`.
    pub cause: u32,
    /// What could stand at the place of a syntax fault, as bits: 1 is a number, 2 a unit, 4 an
    /// operator, and 8 the end. For other faults it is 0.
    pub expected: u32,
    /// The number of the help, as `Help::number` gives it, or 0 if there is none.
    pub help: u32,
    /// The byte offset of the part to replace, or -1 if it isn't certain what to write.
    pub start: isize,
    /// The length in bytes of the part to replace. It is 0 if there is no such part.
    pub length: usize,
    /// 1 if a count is to be written, otherwise 0.
    pub has_count: u32,
    /// The index in `UNITS` of the unit whose name is to be written, plus 1, or 0 if there is none.
    pub unit: u32,
}

/// Reads a text by the rules that the bits stand for, and returns its value in nanoseconds.
///
/// # Errors
///
/// If the text is refused, it writes why, and returns the report.
pub fn read<'b>(
    text: &str,
    bits: u32,
    refusal: &mut Refusal,
    buffer: &'b mut [u8; REPORT_BUFFER_SIZE],
) -> Result<u64, &'b str> {
    let rules = rules_of_bits(bits);
    match parse_nanos_specialized(text, rules) {
        Ok(nanos) => Ok(nanos),
        Err(fault) => {
            *refusal = refusal_of(&fault, rules);
            Err(fault.write_report(rules, buffer))
        }
    }
}

fn rules_of_bits(bits: u32) -> Rules {
    let rules = Rules::of(options_of_bits(bits)).default_unit(default_unit_of_bits(bits));
    if bits & MORE_NAMES != 0 {
        rules.more_names()
    } else {
        rules
    }
}

fn options_of_bits(bits: u32) -> Options {
    Options {
        no_calc: bits & NO_CALC != 0,
        lowercase: bits & LOWERCASE != 0,
        cn_unit: bits & CN_UNIT != 0,
    }
}

fn default_unit_of_bits(bits: u32) -> Option<TimeUnit> {
    if bits & REQUIRE_UNIT != 0 {
        return None;
    }
    let number = bits >> DEFAULT_UNIT_SHIFT;
    if number == 0 {
        return Some(TimeUnit::Second);
    }
    UNITS.get(number as usize - 1).copied()
}

fn refusal_of(fault: &Fault<'_>, rules: Rules) -> Refusal {
    let cause = fault.cause();
    let replacement = replacement_of(fault, rules);
    Refusal {
        count: count_of(replacement.suggestion),
        place: place_number(fault),
        found_length: found_length(fault, rules),
        cause: cause_number(cause),
        expected: expected_bits(cause),
        help: number_of(fault.help()),
        start: replacement.start,
        length: replacement.length,
        has_count: has_count(replacement.suggestion),
        unit: unit_number(replacement.suggestion),
    }
}

fn place_number(fault: &Fault<'_>) -> isize {
    // No place exceeds the length, and no length exceeds `isize::MAX`.
    let _length = fault.text().len();
    match fault.cause().place() {
        Some(place) => place as isize,
        None => -1,
    }
}

fn found_length(fault: &Fault<'_>, rules: Rules) -> usize {
    fault.run_len(rules.options)
}

/// The part of a refused text to replace, and what to write instead.
#[derive(Clone, Copy)]
struct Replacement {
    start: isize,
    length: usize,
    suggestion: Option<Suggestion>,
}

fn replacement_of(fault: &Fault<'_>, rules: Rules) -> Replacement {
    match fault.mend(rules) {
        Some(mend) => Replacement {
            // No length exceeds `isize::MAX`.
            start: mend.front.len() as isize,
            length: mend.replaced.len(),
            suggestion: Some(mend.suggestion),
        },
        None => Replacement {
            start: -1,
            length: 0,
            suggestion: None,
        },
    }
}

fn count_of(suggestion: Option<Suggestion>) -> u64 {
    match suggestion {
        Some(suggestion) => suggestion.count.unwrap_or(0),
        None => 0,
    }
}

fn has_count(suggestion: Option<Suggestion>) -> u32 {
    match suggestion {
        Some(suggestion) => u32::from(suggestion.count.is_some()),
        None => 0,
    }
}

fn unit_number(suggestion: Option<Suggestion>) -> u32 {
    let Some(suggestion) = suggestion else {
        return 0;
    };
    match suggestion.unit {
        Some(unit) => unit as u32 + 1,
        None => 0,
    }
}

fn cause_number(cause: Cause) -> u32 {
    match cause {
        Cause::Empty => EMPTY,
        Cause::Syntax { .. } => SYNTAX,
        Cause::NumberTooLarge { .. } => NUMBER_TOO_LARGE,
        Cause::Overflow { .. } => OVERFLOW,
        Cause::Mixed { .. } => MIXED,
        Cause::OutOfRange => OUT_OF_RANGE,
        _ => NOT_TEXT,
    }
}

fn expected_bits(cause: Cause) -> u32 {
    match cause {
        Cause::Syntax { expected, .. } => bits_of(expected),
        _ => 0,
    }
}

fn bits_of(expected: Expected) -> u32 {
    u32::from(expected.number)
        | u32::from(expected.unit_word) << 1
        | u32::from(expected.operator) << 2
        | u32::from(expected.text_end) << 3
}

fn number_of(help: Option<Help>) -> u32 {
    match help {
        Some(help) => help.number(),
        None => 0,
    }
}
