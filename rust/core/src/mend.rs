// Made by tools/erase of crates/duration_str_help/src/mend.rt.
//! Which part of a refused text to replace, and by what.

use crate::characters::is_letter;
use crate::fraction::{first_digits, fraction_replacement};
use crate::help::{Found, Help};
use crate::suggestion::{Replacement, Suggestion};
use crate::blank::is_blank;
use crate::cause::Expected;
use crate::rules::Rules;
use crate::slice::{range_from, range_to};
use crate::unit::TimeUnit;

/// A suggestion and its place in a refused text. The refused text is `front`, `replaced` and
/// `rest`, one after the other. With the suggestion it is `front`, the suggestion and `rest`.
///
/// ```
/// use duration_str::{Options, parse_with};
///
/// let mend = parse_with("2 * 1.5h", Options::off()).unwrap_err().mend().unwrap();
/// assert_eq!([mend.front, mend.replaced, mend.rest], ["2 * ", "1.5h", ""]);
/// assert_eq!(mend.suggestion.to_string(), "90min");
/// ```
#[derive(Clone, Copy, Debug, PartialEq, Eq, Hash)]
#[non_exhaustive]
pub struct Mend<'a> {
    /// The text before the part that is replaced.
    pub front: &'a str,
    /// The part that is replaced. It is empty if the suggestion is to be inserted.
    pub replaced: &'a str,
    /// What to write instead. It is empty if the part is to be removed.
    pub suggestion: Suggestion,
    /// The text after the part that is replaced.
    pub rest: &'a str,
}

pub(crate) fn cut_out(text: &str, replacement: Replacement) -> Mend<'_> {
    let ahead = range_from(text, replacement.start);
    Mend {
        front: range_to(text, replacement.start),
        replaced: range_to(ahead, replacement.end - replacement.start),
        suggestion: replacement.suggestion,
        rest: range_from(text, replacement.end),
    }
}

/// Returns what to replace, given what was found at the place, if it has one that is certain.
pub(crate) fn replacement_for(
    text: &str,
    place: usize,
    expected: Expected,
    found: &Found<'_>,
    rules: Rules,
) -> Option<Replacement> {
    let piece = found.piece;
    let end = place + piece.len();
    match found.help? {
        Help::DidYouMean(unit) => Some(named(place, end, unit)),
        Help::Fraction => fraction_replacement(text, place, expected, rules),
        Help::LeadingPlus => removed_if(true, place, end),
        Help::NoPoint => removed_if(ends_unit(range_from(text, end)), place, end),
        Help::DigitsOnly => {
            let is_mark = piece == "_" || piece == "'";
            let rest = range_from(text, end).as_bytes();
            removed_if(is_mark && separates_thousands(rest), place, end)
        }
        Help::Iso8601 => {
            let is_time = piece.len() == 2 && !rules.options.lowercase;
            removed_if(is_time && ends_with_letter(text.as_bytes()), place, end)
        }
        Help::Zero if piece.is_empty() => Some(named(place, place, TimeUnit::Second)),
        _ => None,
    }
}

/// Returns whether a point can go that this text follows directly: it begins with no letter, which
/// would join the unit's word, with no digit, since the point can begin a fraction, and with no
/// point, since two can stand between the ends of a range.
fn ends_unit(text: &str) -> bool {
    match text.chars().next() {
        Some('.') => false,
        Some(c) => !is_letter(c) && !c.is_ascii_digit(),
        None => true,
    }
}

/// Returns whether a mark can go that these bytes follow directly: they begin with exactly three
/// digits, so that the mark separates thousands. With fewer or more digits it can stand in a time
/// or a date.
fn separates_thousands(bytes: &[u8]) -> bool {
    first_digits(bytes).len() == 3
}

/// Returns whether `PT` can go from a text with these bytes: the last one that isn't blank is a
/// letter, as in ISO 8601. Otherwise the last number has no unit there.
fn ends_with_letter(bytes: &[u8]) -> bool {
    let mut end = bytes.len();
    while end > 0 && is_blank(char::from(bytes[end - 1])) {
        end -= 1;
    }
    end > 0 && bytes[end - 1].is_ascii_alphabetic()
}

fn named(start: usize, end: usize, unit: TimeUnit) -> Replacement {
    let suggestion = Suggestion {
        count: None,
        unit: Some(unit),
    };
    Replacement {
        start,
        end,
        suggestion,
    }
}

fn removed_if(condition: bool, start: usize, end: usize) -> Option<Replacement> {
    if !condition {
        return None;
    }
    let suggestion = Suggestion {
        count: None,
        unit: None,
    };
    Some(Replacement {
        start,
        end,
        suggestion,
    })
}
