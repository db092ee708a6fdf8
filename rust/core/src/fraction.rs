// Made by tools/erase of crates/duration_str_help/src/fraction.rt.
//! The term to write instead of a number with a fraction, such as `90min` for `1.5h`.

use crate::help::{Help, found_at};
use crate::suggestion::{Replacement, Suggestion};
use crate::blank::is_blank;
use crate::cause::Expected;
use crate::operator::CondUnit;
use crate::packed::packed_word;
use crate::rules::{Rules, unit_table};
use crate::slice::range_from;
use crate::table::UnitTable;
use crate::unit::{TimeUnit, UNITS};

/// Returns what to replace for the number whose point is at the place.
pub(crate) fn fraction_replacement(
    text: &str,
    place: usize,
    expected: Expected,
    rules: Rules,
) -> Option<Replacement> {
    let bytes = text.as_bytes();
    let whole = last_digits(&bytes[..place]);
    if whole.is_empty() && !expected.number {
        return None;
    }
    if place == bytes.len() {
        return None;
    }
    let decimals = first_digits(&bytes[place + 1..]);
    if decimals.is_empty() {
        return None;
    }
    let end = place + 1 + decimals.len();
    let (unit, more) = unit_ahead(range_from(text, end), rules)?;
    let nanos = nanos_of_fraction(whole, decimals, unit_table(rules).nanos(unit))?;
    Some(Replacement {
        start: place - whole.len(),
        end: end + more,
        suggestion: as_term(unit_table(rules), unit, nanos),
    })
}

/// Returns the digits that the bytes end with.
fn last_digits(bytes: &[u8]) -> &[u8] {
    let mut start = bytes.len();
    while start > 0 && bytes[start - 1].is_ascii_digit() {
        start -= 1;
    }
    &bytes[start..]
}

/// Returns the digits that the bytes begin with.
pub(crate) fn first_digits(bytes: &[u8]) -> &[u8] {
    let mut len = 0;
    while len < bytes.len() && bytes[len].is_ascii_digit() {
        len += 1;
    }
    &bytes[..len]
}

/// Returns the unit of the number before this text, and the length of the blanks and the word that
/// name it. The length is 0 if the number has the default unit.
fn unit_ahead(text: &str, rules: Rules) -> Option<(TimeUnit, usize)> {
    let blanks = blanks_len(text.as_bytes());
    // This asks as for a syntax fault at which only a unit could stand. Letters there are then said
    // to be no unit, but here they can name one.
    let found = found_at(text, blanks, UNIT_ALONE);
    if found.is_unknown_unit {
        let unit = meant_unit(found.piece, found.help, rules)?;
        return Some((unit, blanks + found.piece.len()));
    }
    if !can_end_number(range_from(text, blanks).as_bytes(), rules) {
        return None;
    }
    Some((rules.default_unit?, 0))
}

const UNIT_ALONE: Expected = Expected {
    number: false,
    unit_word: true,
    operator: false,
    text_end: false,
};

/// Returns how many blanks the bytes begin with.
fn blanks_len(bytes: &[u8]) -> usize {
    let mut len = 0;
    while len < bytes.len() && is_blank(char::from(bytes[len])) {
        len += 1;
    }
    len
}

/// Returns the unit that a word names, or otherwise the unit that it is near, which is in its help.
fn meant_unit(word: &str, help: Option<Help>, rules: Rules) -> Option<TimeUnit> {
    match (named_unit(word, rules), help) {
        (Some(unit), _) | (None, Some(Help::DidYouMean(unit))) => Some(unit),
        _ => None,
    }
}

fn named_unit(word: &str, rules: Rules) -> Option<TimeUnit> {
    let (packed, _) = packed_word(word, rules.options, false)?;
    unit_table(rules).unit_of_packed(packed)
}

/// Returns whether a number without a unit can stand before these bytes.
fn can_end_number(bytes: &[u8], rules: Rules) -> bool {
    match bytes.first() {
        None => true,
        Some(b) => !rules.options.no_calc && CondUnit::from_char(char::from(*b)).is_some(),
    }
}

/// Returns the nanoseconds of a number with these digits before and after its point, if they are a
/// whole number below 2^64.
fn nanos_of_fraction(whole: &[u8], decimals: &[u8], unit_nanos: u64) -> Option<u64> {
    let after = nanos_after_point(decimals, unit_nanos)?;
    let number = number_of(whole)?;
    // In WebAssembly `checked_mul` would be a call.
    if number > (u64::MAX - after) / unit_nanos {
        None
    } else {
        Some(number * unit_nanos + after)
    }
}

/// Returns the nanoseconds of the digits after a point, if they are a whole number. From the last
/// digit to the first, it adds the digit's nanoseconds and divides by 10. So no number is longer
/// than ten units, however many digits there are.
fn nanos_after_point(decimals: &[u8], unit_nanos: u64) -> Option<u64> {
    let mut nanos = 0;
    let mut start = decimals.len();
    while start > 0 {
        start -= 1;
        let tenths = nanos + u64::from(decimals[start] - b'0') * unit_nanos;
        if tenths % 10 != 0 {
            return None;
        }
        nanos = tenths / 10;
    }
    Some(nanos)
}

/// Returns the number that the digits write, if it is below 2^64.
fn number_of(digits: &[u8]) -> Option<u64> {
    let mut number = 0u64;
    for b in digits {
        let digit = u64::from(*b - b'0');
        // In WebAssembly `checked_mul` would be a call.
        if number > (u64::MAX - digit) / 10 {
            return None;
        }
        number = number * 10 + digit;
    }
    Some(number)
}

/// Returns the nanoseconds as one term. Its unit is the longest that divides them and is not longer
/// than this one.
fn as_term(table: UnitTable, unit: TimeUnit, nanos: u64) -> Suggestion {
    let longest = longest_whole(table, unit, nanos);
    Suggestion {
        count: Some(nanos / table.nanos(longest)),
        unit: Some(longest),
    }
}

fn longest_whole(table: UnitTable, unit: TimeUnit, nanos: u64) -> TimeUnit {
    // No unit from this one on is longer than it.
    for longest in &UNITS[unit.rank()..] {
        if nanos % table.nanos(*longest) == 0 {
            return *longest;
        }
    }
    TimeUnit::NanoSecond
}
