// Made by tools/erase of crates/duration_str_refusals/src/one_line.rt.
//! A fault in one line: what is wrong, and for a syntax fault at which column, and what stands
//! there. The reason is the line without the column.
//!
//! Most functions that a syntax fault needs are inline. So the line and the reason have a copy
//! each, in which the compiler knows whether the column is written, and the line is not slower than
//! it would be alone.
//!
//! Each private function that writes returns the index where its part ends, or `None` if there is
//! no room. So no contract requires room for a part. One proof, for the whole line, shows that
//! everything fits.

use crate::fault::Fault;
use crate::buffer::{put, put_decimal};
use crate::cause::{Cause, Expected};
use crate::rules::Rules;
use crate::slice::chars_before;
use crate::characters::is_clear;
use crate::fraction::fraction_replacement;
use crate::help::{Found, Help, MOST_SHOWN, found_at, overflow_help, put_help_words};
use crate::suggestion::{Suggestion, put_suggestion};

/// No fault's line or reason has more bytes than this.
///
/// ```
/// use duration_str_core::{MAX_ONE_LINE_LEN, ONE_LINE_BUFFER_SIZE, Options, Rules, parse_by};
///
/// let rules = Rules::of(Options::off());
/// let text = "1".to_string() + &"\u{1f600}".repeat(100);
/// let mut buffer = [0; ONE_LINE_BUFFER_SIZE];
/// let line = parse_by(&text, rules).unwrap_err().write_one_line(rules, &mut buffer);
/// assert!(line.len() <= MAX_ONE_LINE_LEN);
/// ```
pub const MAX_ONE_LINE_LEN: usize = 294;

/// The size of a buffer that has room for every fault's line or reason.
pub const ONE_LINE_BUFFER_SIZE: usize = 384;

impl Fault<'_> {
    /// Writes the fault in one line to the start of a buffer, and returns the line. It says what is
    /// wrong, and for a syntax fault at which column, and what stands there. A quote shows at most
    /// 40 characters. In it, `"`, the backslash, control characters and most characters that can't
    /// be seen are escaped. `rules` must be those with which the text was read: for a fraction they
    /// decide what the line says to write. The buffer's old contents do not matter. The call
    /// allocates nothing and cannot fail.
    ///
    /// ```text
    /// let rules = Rules::of(Options::off());
    /// let mut buffer = [0; ONE_LINE_BUFFER_SIZE];
    /// parse_by("1m 3-5", rules).unwrap_err().write_one_line(rules, &mut buffer)
    /// // expected a unit, '+', '*' or the end at column 5, found "-"
    /// ```
    #[must_use]
    pub fn write_one_line<'b>(
        &self,
        rules: Rules,
        buffer: &'b mut [u8; ONE_LINE_BUFFER_SIZE],
    ) -> &'b str {
        match put_line(buffer, self.text, self.cause, rules) {
            // SAFETY: the line up to `end` is UTF-8.
            Some(end) => unsafe { core::str::from_utf8_unchecked(&buffer[..end]) },
            // The longest line fits.
            None => unreachable!(),
        }
    }

    /// Writes the fault's reason to the start of a buffer, and returns it. The reason is the line
    /// of `write_one_line` by these rules, but without ` at column 3` or the like. It is for
    /// programs that say the place themselves, such as linters, which write `app.conf:7:14: `
    /// before it. If the cause is not `Syntax`, the line has no column, and the reason is the same.
    /// The buffer's old contents do not matter. The call allocates nothing and cannot fail.
    ///
    /// ```text
    /// let rules = Rules::of(Options::off());
    /// let mut buffer = [0; ONE_LINE_BUFFER_SIZE];
    /// parse_by("5 mins", rules).unwrap_err().write_reason(rules, &mut buffer)
    /// // unknown unit "mins" (did you mean "min"?)
    /// ```
    #[must_use]
    pub fn write_reason<'b>(
        &self,
        rules: Rules,
        buffer: &'b mut [u8; ONE_LINE_BUFFER_SIZE],
    ) -> &'b str {
        match put_reason(buffer, self.text, self.cause, rules) {
            // SAFETY: the reason up to `end` is UTF-8.
            Some(end) => unsafe { core::str::from_utf8_unchecked(&buffer[..end]) },
            // The reason is no longer than the line.
            None => unreachable!(),
        }
    }
}

fn put_line(buffer: &mut [u8], text: &str, cause: Cause, rules: Rules) -> Option<usize> {
    match cause {
        Cause::Empty => put(buffer, 0, b"empty text"),
        Cause::Syntax { place, expected } => {
            put_syntax(buffer, text, place, expected, rules, true)
        }
        Cause::NumberTooLarge { .. } => put_text_problem(buffer, "number of 2^64 or more", text),
        Cause::Overflow { .. } => put_overflow(buffer, text),
        Cause::Mixed { .. } => put_text_problem(buffer, "sum and product mixed", text),
        Cause::OutOfRange | Cause::NotText { .. } => put_text(buffer, 0, cause.line()),
    }
}

fn put_reason(buffer: &mut [u8], text: &str, cause: Cause, rules: Rules) -> Option<usize> {
    match cause {
        Cause::Syntax { place, expected } => {
            put_syntax(buffer, text, place, expected, rules, false)
        }
        _ => put_line(buffer, text, cause, rules),
    }
}

#[inline(always)]
fn put_syntax(
    buffer: &mut [u8],
    text: &str,
    place: usize,
    expected: Expected,
    rules: Rules,
    with_column: bool,
) -> Option<usize> {
    let found = found_at(text, place, expected);
    let column = column_at(text, place, with_column);
    let end = put_syntax_problem(buffer, column, expected, &found)?;
    if found.help != Some(Help::Fraction) {
        return put_help(buffer, end, found.help);
    }
    match fraction_replacement(text, place, expected, rules) {
        Some(replacement) => put_fraction_words(buffer, end, replacement.suggestion),
        None => put_help(buffer, end, found.help),
    }
}

#[inline(always)]
fn put_fraction_words(buffer: &mut [u8], at: usize, suggestion: Suggestion) -> Option<usize> {
    let term = put(buffer, at, b" (fractions are not read: write ")?;
    let end = put_suggestion(buffer, term, suggestion)?;
    put(buffer, end, b")")
}

#[inline(always)]
fn put_syntax_problem(
    buffer: &mut [u8],
    column: Option<usize>,
    expected: Expected,
    found: &Found<'_>,
) -> Option<usize> {
    if found.is_unknown_unit {
        put_unknown(buffer, column, found.piece)
    } else {
        put_found(buffer, expected_words(expected), column, found.piece)
    }
}

#[inline(always)]
fn put_unknown(buffer: &mut [u8], column: Option<usize>, word: &str) -> Option<usize> {
    let start = put(buffer, 0, b"unknown unit ")?;
    let end = put_quoted(buffer, start, word)?;
    put_column(buffer, end, column)
}

#[inline(always)]
fn put_found(buffer: &mut [u8], words: &str, column: Option<usize>, piece: &str) -> Option<usize> {
    let start = put_text(buffer, 0, words)?;
    let number = put_column(buffer, start, column)?;
    put_words(buffer, number, piece)
}

#[inline(always)]
fn column_at(text: &str, place: usize, with_column: bool) -> Option<usize> {
    if with_column {
        Some(chars_before(text, place) + 1)
    } else {
        None
    }
}

#[inline(always)]
fn put_words(buffer: &mut [u8], at: usize, piece: &str) -> Option<usize> {
    if piece.is_empty() {
        return put(buffer, at, b", found the end");
    }
    let found = put(buffer, at, b", found ")?;
    put_quoted(buffer, found, piece)
}

#[inline(always)]
fn put_overflow(buffer: &mut [u8], text: &str) -> Option<usize> {
    let end = put_overflow_problem(buffer, text)?;
    put_help(buffer, end, overflow_help(text.as_bytes()))
}

#[inline(always)]
fn put_overflow_problem(buffer: &mut [u8], text: &str) -> Option<usize> {
    if has_star(text.as_bytes()) {
        put_text_problem(buffer, "step of over 584 years", text)
    } else {
        put_text_problem(buffer, "duration of over 584 years", text)
    }
}

fn has_star(bytes: &[u8]) -> bool {
    bytes.iter().any(|b| *b == b'*')
}

fn put_text_problem(buffer: &mut [u8], problem: &str, text: &str) -> Option<usize> {
    let start = put_text(buffer, 0, problem)?;
    let before = put(buffer, start, b" in ")?;
    put_quoted(buffer, before, text)
}

#[inline(always)]
fn put_help(buffer: &mut [u8], at: usize, help: Option<Help>) -> Option<usize> {
    match help {
        Some(help) => put_help_words(buffer, at, help),
        None => Some(at),
    }
}

#[inline(always)]
fn put_column(buffer: &mut [u8], at: usize, column: Option<usize>) -> Option<usize> {
    let Some(column) = column else {
        return Some(at);
    };
    let number = put(buffer, at, b" at column ")?;
    put_decimal(buffer, number, column as u64)
}

fn put_text(buffer: &mut [u8], at: usize, text: &str) -> Option<usize> {
    put(buffer, at, text.as_bytes())
}

/// Writes a text in quotes. A short ASCII text that needs no escapes is copied whole.
#[inline(never)]
fn put_quoted(buffer: &mut [u8], at: usize, text: &str) -> Option<usize> {
    let mut end = put(buffer, at, b"\"")?;
    if text.len() <= MOST_SHOWN && are_clear(text.as_bytes()) {
        end = put_text(buffer, end, text)?;
        return put(buffer, end, b"\"");
    }
    let mut room = MOST_SHOWN;
    let mut chars = text.chars();
    while let Some(c) = chars.next() {
        let width = shown_len(c);
        if width > room {
            return put(buffer, end, b"\"...");
        }
        end = put_shown(buffer, end, c)?;
        room -= width;
    }
    put(buffer, end, b"\"")
}

fn are_clear(bytes: &[u8]) -> bool {
    bytes
        .iter()
        .all(|b| matches!(b, b' '..=b'~') && *b != b'"' && *b != b'\\')
}

fn shown_len(c: char) -> usize {
    if is_clear(c) {
        1
    } else if escape_letter(c) != 0 {
        2
    } else {
        4 + hex_len(c as u32)
    }
}

fn put_shown(buffer: &mut [u8], at: usize, c: char) -> Option<usize> {
    if is_clear(c) {
        return put_text(buffer, at, c.encode_utf8(&mut [0; 4]));
    }
    let letter = escape_letter(c);
    if letter != 0 {
        return put(buffer, at, &[b'\\', letter]);
    }
    put_code(buffer, at, c)
}

/// Returns the letter after the backslash in a character's escape, as in `\n`. If the escape is the
/// character's code, as in `\u{1b}`, it returns 0.
fn escape_letter(c: char) -> u8 {
    match c {
        '\t' => b't',
        '\r' => b'r',
        '\n' => b'n',
        '\'' => b'\'',
        '"' => b'"',
        '\\' => b'\\',
        _ => 0,
    }
}

/// Writes the escape that is the character's code, as in `\u{1b}`.
fn put_code(buffer: &mut [u8], at: usize, c: char) -> Option<usize> {
    let start = put(buffer, at, b"\\u{")?;
    let end = put_hex(buffer, start, c as u32)?;
    put(buffer, end, b"}")
}

/// Writes a number in hexadecimal.
fn put_hex(buffer: &mut [u8], at: usize, n: u32) -> Option<usize> {
    let end = if n < 16 {
        at
    } else {
        put_hex(buffer, at, n / 16)?
    };
    put(buffer, end, &[hex_digit(n % 16)])
}

fn hex_digit(digit: u32) -> u8 {
    if digit < 10 {
        b'0' + digit as u8
    } else {
        b'a' - 10 + digit as u8
    }
}

/// Returns how many hexadecimal digits a number below 2^20 has.
fn hex_len(n: u32) -> usize {
    if n < 0x10 {
        1
    } else if n < 0x100 {
        2
    } else if n < 0x1000 {
        3
    } else if n < 0x1_0000 {
        4
    } else {
        5
    }
}

fn expected_words(expected: Expected) -> &'static str {
    if expected.unit_word {
        if expected.operator {
            "expected a unit, '+', '*' or the end"
        } else if expected.text_end {
            "expected a unit or the end"
        } else {
            "expected a unit"
        }
    } else if expected.operator {
        "expected a number, '+', '*' or the end"
    } else if expected.text_end {
        "expected a number or the end"
    } else {
        "expected a number"
    }
}
