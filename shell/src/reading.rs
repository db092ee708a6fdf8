//! Reads a text, and says why it is refused.
use crate::lists::HELPS;
use crate::options::{Choices, Round};
use duration_str::{Cause, DurationError, Expected, Fault, Mend, Rules, TimeUnit, parse_by};
use serde_json::json;

/// A text that needs more suggestions than this has no mended text.
const MOST_SUGGESTIONS: usize = 32;

/// `error` is the library's, if it has read the text. If the text was mended in part, the error is
/// that of the text that this made.
pub struct Refusal {
    pub message: String,
    cause: &'static str,
    error: Option<DurationError>,
    /// The place of the error in the text as it was written
    place: Option<usize>,
    is_mended_in_part: bool,
}

impl Refusal {
    pub fn new(cause: &'static str, message: &str) -> Refusal {
        Refusal {
            message: message.to_string(),
            cause,
            error: None,
            place: None,
            is_mended_in_part: false,
        }
    }

    /// Some faults of the text that was written are mended, and this is the next one. It isn't
    /// before the last suggestion, so what follows its place is as it was written.
    fn in_part_mended(fault: Fault<'_>, written: &str) -> Refusal {
        let column = |text: &str, place| format!(" at column {}", length(&text[..place]) + 1);
        let mut refusal = Refusal::from(fault);
        refusal.is_mended_in_part = true;
        refusal.place = None;
        if let (Some(place), Some(_)) = (fault.place(), fault.expected()) {
            let written_place = written.len() - (fault.text().len() - place);
            let (there, here) = (column(fault.text(), place), column(written, written_place));
            refusal.message = refusal.message.replacen(&there, &here, 1);
            refusal.place = Some(written_place);
        }
        refusal
    }

    /// If the text was mended in part, the report is the line alone.
    pub fn report(&self) -> String {
        let error = self.error.as_ref().filter(|_| !self.is_mended_in_part);
        error.map_or_else(|| self.message.clone(), DurationError::report)
    }

    /// The token's first character, if the syntax fault is at the start of the text.
    pub fn first(&self) -> Option<char> {
        let error = self.error.as_ref()?;
        let found = error.found().filter(|_| self.place == Some(0))?;
        found.chars().next()
    }

    /// Whether the text begins with a letter, and the message gives no advice.
    pub fn is_word(&self) -> bool {
        let help = self.error.as_ref().and_then(DurationError::help);
        let first = self.first().filter(char::is_ascii_alphabetic);
        first.is_some() && help.is_none()
    }

    pub fn json(&self, text: &[u8], what: &str, number: u64) -> String {
        let error = self.error.as_ref();
        let text = String::from_utf8_lossy(text);
        let expected = error.and_then(DurationError::expected);
        let place = expected.and(self.place);
        let help = error.and_then(DurationError::help);
        let mend = error.and_then(DurationError::mend);
        let fields = [
            ("text", json!(text)),
            (what, json!(number)),
            ("cause", json!(self.cause)),
            (
                "column",
                json!(place.map(|place| length(&text[..place]) + 1)),
            ),
            ("expected", json!(expected.map_or(vec![], kinds_of))),
            ("found", json!(error.and_then(DurationError::found))),
            (
                "help",
                json!(help.map(|help| HELPS[help.number() as usize - 1])),
            ),
            (
                "suggestion",
                json!(mend.map(|mend| mend.suggestion.to_string())),
            ),
            ("span", json!(mend.map(span_of))),
            ("mended", json!(error.and_then(DurationError::mended))),
            ("message", json!(self.message)),
        ];
        let fields = fields.map(|(name, value)| format!("{name:?}:{value}"));
        format!("{{{}}}", fields.join(","))
    }
}

fn length(text: &str) -> usize {
    text.chars().count()
}

/// Where the part to replace begins and ends, in characters.
fn span_of(mend: Mend<'_>) -> [usize; 2] {
    let start = length(mend.front);
    [start, start + length(mend.replaced)]
}

impl From<Fault<'_>> for Refusal {
    fn from(fault: Fault<'_>) -> Refusal {
        Refusal {
            message: fault.to_string(),
            cause: name_of(fault.cause()),
            place: fault.place(),
            error: Some(fault.into_owned()),
            is_mended_in_part: false,
        }
    }
}

fn name_of(cause: Cause) -> &'static str {
    match cause {
        Cause::Empty => "EMPTY",
        Cause::Syntax { .. } => "SYNTAX",
        Cause::NumberTooLarge { .. } => "NUMBER_TOO_LARGE",
        Cause::Overflow { .. } => "OVERFLOW",
        Cause::Mixed { .. } => "MIXED",
        _ => unreachable!("the other causes are those of dates"),
    }
}

fn kinds_of(expected: Expected) -> Vec<&'static str> {
    let kinds = [
        (expected.number, "number"),
        (expected.unit_word, "unit"),
        (expected.operator, "operator"),
        (expected.text_end, "end"),
    ];
    let could_stand = kinds.into_iter().filter(|(could, _)| *could);
    could_stand.map(|(_, name)| name).collect()
}

/// A text that was read, and its nanoseconds. If it was mended, `mended` is the text that was read
/// in its place.
pub struct Value<'a> {
    pub text: &'a str,
    pub mended: Option<String>,
    pub nanos: u64,
}

impl<'a> Value<'a> {
    fn of(text: &'a str, nanos: u64) -> Value<'a> {
        Value {
            text,
            mended: None,
            nanos,
        }
    }
}

pub fn read<'a>(bytes: &'a [u8], choices: &Choices) -> Result<Value<'a>, Refusal> {
    let text = std::str::from_utf8(bytes).map_err(|_| Refusal::new("NOT_TEXT", "not UTF-8"))?;
    if let Some((number, nanos)) = choices
        .from
        .and_then(|unit| bare_number(text, unit, choices.round()))
    {
        let dots = if number.len() > 40 { "..." } else { "" };
        let too_large = |_| {
            let message = format!("duration of over 584 years in \"{number:.40}\"{dots}");
            Refusal::new("OVERFLOW", &message)
        };
        return Ok(Value::of(text, u64::try_from(nanos).map_err(too_large)?));
    }
    let unit = choices.from.unwrap_or(TimeUnit::Second);
    let default_unit = (!choices.require_unit).then_some(unit);
    let own = Rules::of(choices.reading()).default_unit(default_unit);
    let rules = if choices.more_names {
        own.more_names()
    } else {
        own
    };
    match parse_by(text, rules) {
        Ok(duration) => Ok(Value::of(text, duration.as_nanos() as u64)),
        Err(fault) if choices.mend => read_mended(fault, rules),
        Err(fault) => Err(fault.into()),
    }
}

/// Reads the mended text in place of the refused one. If there is none, since a fault has no
/// suggestion, that fault is the refusal.
fn read_mended<'a>(fault: Fault<'a>, rules: Rules) -> Result<Value<'a>, Refusal> {
    let mut mended = with_suggestion(fault.mend().ok_or(fault)?);
    for _ in 0..MOST_SUGGESTIONS {
        let later = match parse_by(&mended, rules) {
            Ok(duration) => {
                return Ok(Value {
                    mended: Some(mended),
                    ..Value::of(fault.text(), duration.as_nanos() as u64)
                });
            }
            Err(later) => later,
        };
        let Some(mend) = later.mend() else {
            return Err(Refusal::in_part_mended(later, fault.text()));
        };
        mended = with_suggestion(mend);
    }
    Err(fault.into())
}

fn with_suggestion(mend: Mend<'_>) -> String {
    format!("{}{}{}", mend.front, mend.suggestion, mend.rest)
}

/// If a text is only a number with a fraction or an exponent, such as `12.5`, `.5` or `1.2e-05`,
/// returns it without the blanks around it, and its value in nanoseconds. The library reads a number
/// that has neither.
fn bare_number(text: &str, unit: TimeUnit, round: Round) -> Option<(&str, u128)> {
    let number = text.trim_matches([' ', '\t', '\r', '\n']);
    let decimal = Decimal::of(number)?;
    Some((number, decimal.times(unit.nanos().into(), round)))
}

/// The digits of a number, and the place of its point among them, which can be before or after all
/// digits.
struct Decimal {
    digits: Vec<u8>,
    point: isize,
}

impl Decimal {
    fn of(number: &str) -> Option<Decimal> {
        if !number.contains(['.', 'e', 'E']) {
            return None;
        }
        let (digits, exponent) = number.split_once(['e', 'E']).unwrap_or((number, "0"));
        // Floats of Rust are written like this. They can also have a sign or a point at the end, or
        // be a word such as `inf`. `parse` accepts a number that is too large for a float.
        let starts = number.starts_with(|first: char| first.is_ascii_digit() || first == '.');
        if !starts || digits.ends_with('.') || number.parse::<f64>().is_err() {
            return None;
        }
        let (whole, decimals) = digits.split_once('.').unwrap_or((digits, ""));
        let most = if exponent.starts_with('-') {
            isize::MIN
        } else {
            isize::MAX
        };
        let exponent = exponent.parse().unwrap_or(most);
        // A larger exponent makes every number but 0 too large, and a smaller one leaves less than
        // a nanosecond.
        let exponent = exponent.clamp(-(digits.len() as isize) - 99, digits.len() as isize + 99);
        Some(Decimal {
            digits: [whole, decimals].concat().into_bytes(),
            point: whole.len() as isize + exponent,
        })
    }

    fn digit(&self, place: isize) -> u128 {
        let digit = usize::try_from(place)
            .ok()
            .and_then(|place| self.digits.get(place));
        digit.map_or(0, |digit| u128::from(digit - b'0'))
    }

    fn times(&self, length: u128, round: Round) -> u128 {
        // The part of a unit that the decimals are, from the last one to the first. Each division
        // is rounded in the same way, and so the result is, too.
        let more = if let Round::Up = round { 9 } else { 0 };
        let part = (self.point..self.digits.len() as isize)
            .rev()
            .fold(0, |part, place| {
                (self.digit(place) * length + part + more) / 10
            });
        // If the whole part doesn't fit, the result is more than any duration.
        let whole = (0..self.point).fold(0, |number: u128, place| {
            number.saturating_mul(10).saturating_add(self.digit(place))
        });
        whole.saturating_mul(length).saturating_add(part)
    }
}
