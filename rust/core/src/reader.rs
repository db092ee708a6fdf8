// Made by tools/erase of crates/duration_str_reading/src/reader.rt.
//! The one pass over the tokens of a text.

use crate::token::{TokenStart, Tokens};
use crate::cause::{Cause, Expected};
use crate::operator::CondUnit;
use crate::rules::{Rules, unit_table};
use crate::unit::TimeUnit;

/// The operator and the total of the later terms so far, or `None` if there are none, or their
/// first fault. Under `no_calc` the first term is counted among them.
type Later = Result<Option<(CondUnit, u64)>, Cause>;

/// Reads the tokens. Returns their value in nanoseconds, or the cause of their refusal.
///
/// The later terms are combined first, by the operator before the second term, and the first term
/// is combined with their total at the end. Under `no_calc` the total starts with the first term
/// instead, and the first fault of a later term is returned at once. Otherwise that fault is kept
/// in place of the total while the rest is read, since a syntax fault in the rest comes first.
#[inline(always)]
pub(crate) fn read(tokens: &mut Tokens<'_>, rules: Rules) -> Result<u64, Cause> {
    expect_number(tokens)?;
    let number = tokens.take_number();
    let value = unit_table(rules).times(read_unit(tokens, rules)?, number, Some(0))?;
    let (first, mut later) = if rules.options.no_calc {
        (0, Ok(Some((CondUnit::Plus, value))))
    } else {
        (value, Ok(None))
    };
    while let Some(next) = read_operator(tokens, rules)? {
        let number = tokens.take_number();
        let unit = read_unit(tokens, rules)?;
        later = with_term(later, next, number, rules, unit);
        if rules.options.no_calc {
            later?;
        }
    }
    match later? {
        None => Ok(first),
        Some((operator, total)) => within(combination(operator, first, total)),
    }
}

#[inline(always)]
fn expect_number(tokens: &mut Tokens<'_>) -> Result<(), Cause> {
    if tokens.is_number_ahead() {
        return Ok(());
    }
    Err(syntax(tokens.place(), at_start()))
}

#[inline(always)]
fn read_unit(tokens: &mut Tokens<'_>, rules: Rules) -> Result<TimeUnit, Cause> {
    let Some(sort) = tokens.sort_after_number() else {
        return unit_left_out(tokens.place(), rules);
    };
    let place = tokens.place();
    match sort {
        TokenStart::Word => match tokens.take_word(rules) {
            Some(unit) => Ok(unit),
            None => Err(no_unit(place, rules)),
        },
        TokenStart::Operator(_) if !rules.options.no_calc => unit_left_out(place, rules),
        // Operators have an arm of their own, so that the prover knows that one stands here.
        TokenStart::Operator(_) => Err(no_unit(place, rules)),
        TokenStart::Number | TokenStart::Other => Err(no_unit(place, rules)),
    }
}

#[inline(always)]
fn unit_left_out(place: usize, rules: Rules) -> Result<TimeUnit, Cause> {
    match rules.default_unit {
        Some(unit) => Ok(unit),
        None => Err(no_unit(place, rules)),
    }
}

#[inline(always)]
fn no_unit(place: usize, rules: Rules) -> Cause {
    syntax(place, after_number(rules))
}

#[inline(always)]
fn read_operator(tokens: &mut Tokens<'_>, rules: Rules) -> Result<Option<CondUnit>, Cause> {
    let Some(sort) = tokens.sort_ahead() else {
        return Ok(None);
    };
    let place = tokens.place();
    match sort {
        TokenStart::Number => Ok(Some(CondUnit::Plus)),
        TokenStart::Operator(operator) if !rules.options.no_calc => {
            tokens.advance();
            expect_number(tokens)?;
            Ok(Some(operator))
        }
        // Operators have an arm of their own, as in `read_unit`.
        TokenStart::Operator(_) => Err(no_operator(place, rules)),
        TokenStart::Word | TokenStart::Other => Err(no_operator(place, rules)),
    }
}

#[inline(always)]
fn no_operator(place: usize, rules: Rules) -> Cause {
    syntax(place, after_unit(rules))
}

/// Combines the later terms so far with a new term. `next` is the operator before it.
#[inline(always)]
fn with_term(
    later: Later,
    next: CondUnit,
    number: Option<u64>,
    rules: Rules,
    unit: TimeUnit,
) -> Later {
    let Some((operator, total)) = later? else {
        return Ok(Some((next, unit_table(rules).times(unit, number, None)?)));
    };
    if next != operator {
        return Err(Cause::Mixed {
            first: operator,
            later: next,
        });
    }
    let value = unit_table(rules).times(unit, number, None)?;
    Ok(Some((next, within(combination(next, total, value))?)))
}

#[inline]
fn within(value: Option<u64>) -> Result<u64, Cause> {
    value.ok_or(Cause::Overflow { place: None })
}

#[inline]
fn combination(operator: CondUnit, left: u64, right: u64) -> Option<u64> {
    match operator {
        CondUnit::Plus => left.checked_add(right),
        CondUnit::Star => scaled(left, right),
    }
}

/// Divides the product by the nanoseconds of a second in two steps: first all but its last 32 bits,
/// and then these with the remainder. So no step divides a number of 128 bits, for which
/// WebAssembly would need a further function.
#[cold]
#[inline(never)]
fn scaled(left: u64, right: u64) -> Option<u64> {
    const SECOND: u64 = 1_000_000_000;
    const STEP: u64 = 1 << 32;
    let product = left as u128 * right as u128;
    let upper = product / STEP as u128;
    if upper >= SECOND as u128 * STEP as u128 {
        return None;
    }
    let first = upper as u64;
    let second = first % SECOND * STEP + (product % STEP as u128) as u64;
    Some(first / SECOND * STEP + second / SECOND)
}

#[inline(always)]
fn syntax(place: usize, expected: Expected) -> Cause {
    Cause::Syntax { place, expected }
}

#[inline(always)]
fn at_start() -> Expected {
    Expected {
        number: true,
        unit_word: false,
        operator: false,
        text_end: false,
    }
}

#[inline(always)]
fn after_number(rules: Rules) -> Expected {
    Expected {
        number: false,
        unit_word: true,
        operator: rules.default_unit.is_some() && !rules.options.no_calc,
        text_end: rules.default_unit.is_some(),
    }
}

#[inline(always)]
fn after_unit(rules: Rules) -> Expected {
    Expected {
        number: true,
        unit_word: false,
        operator: !rules.options.no_calc,
        text_end: true,
    }
}
