// Made by tools/erase of crates/duration_str_reading/src/token.rt.
//! The tokens of a text: numbers, words, operators, and other single characters except blanks.

use crate::eye::Eye;
use crate::blank::is_blank;
use crate::operator::CondUnit;
use crate::options::Options;
use crate::packed::{
    MODULUS, MOST_BYTES, first_number, is_unit_letter, letter_number, with_letter,
};
use crate::rules::{Rules, unit_table};
use crate::unit::TimeUnit;

/// What a token is: a number, a word with the unit that it names, if any, an operator, or another
/// character.
///
/// ```
/// use duration_str_core::{Options, TimeUnit, Tokens, What};
///
/// let mut tokens = Tokens::new("3 hours", Options::off());
/// assert_eq!(tokens.next().unwrap().what, What::Number);
/// assert_eq!(tokens.next().unwrap().what, What::Word(Some(TimeUnit::Hour)));
/// ```
#[derive(Clone, Copy, Debug, PartialEq, Eq, Hash)]
pub enum What {
    /// Digits.
    Number,
    /// Unit letters, with the unit that they name, if any.
    Word(Option<TimeUnit>),
    /// `+` or `*`.
    Operator(CondUnit),
    /// Any other character that is not a blank.
    Other,
}

/// A token of a text.
///
/// ```
/// use duration_str_core::{CondUnit, Options, Token, Tokens, What};
///
/// let plus = Token { start: 2, text: "+", what: What::Operator(CondUnit::Plus) };
/// assert_eq!(Tokens::new("1s+2m", Options::off()).nth(2), Some(plus));
/// ```
#[derive(Clone, Copy, Debug, PartialEq, Eq, Hash)]
pub struct Token<'a> {
    /// The byte of the text at which the token starts.
    pub start: usize,
    /// The token's slice of the text.
    pub text: &'a str,
    /// What the token is.
    pub what: What,
}

/// The sort of a token, which its first character decides.
#[derive(Clone, Copy)]
pub(crate) enum TokenStart {
    Number,
    Word,
    Operator(CondUnit),
    Other,
}

impl TokenStart {
    #[inline(always)]
    fn at(first: char, o: Options) -> TokenStart {
        if first.is_ascii_digit() {
            return TokenStart::Number;
        }
        if is_unit_letter(first, o) {
            return TokenStart::Word;
        }
        match CondUnit::from_char(first) {
            Some(operator) => TokenStart::Operator(operator),
            None => TokenStart::Other,
        }
    }
}

/// An iterator over the tokens of a text, in order. `looked` counts each character once, when it is
/// reached.
///
/// ```
/// use duration_str_core::{Options, Tokens};
///
/// let tokens = Tokens::new("13s + 29ms", Options::off());
/// let texts: Vec<&str> = tokens.map(|token| token.text).collect();
/// assert_eq!(texts, ["13", "s", "+", "29", "ms"]);
/// ```
pub struct Tokens<'a> {
    eye: Eye<'a>,
    /// The character at the place, which has already been looked at, or `None` at the end.
    head: Option<char>,
    options: Options,
}

impl<'a> Tokens<'a> {
    /// Returns an iterator over the tokens of a text, which is cut under these options.
    ///
    /// ```
    /// use duration_str_core::{Options, Tokens};
    ///
    /// assert_eq!(Tokens::new("13s", Options::off()).count(), 2);
    /// ```
    #[inline(always)]
    #[must_use]
    pub fn new(text: &'a str, o: Options) -> Tokens<'a> {
        let mut eye = Eye::new(text);
        let head = eye.look();
        Tokens {
            eye,
            head,
            options: o,
        }
    }

    /// Returns how many times a character of the text has been looked at so far.
    ///
    /// ```
    /// use duration_str_core::{Options, Tokens};
    ///
    /// let mut tokens = Tokens::new("13s", Options::off());
    /// assert_eq!(tokens.by_ref().count(), 2);
    /// assert_eq!(tokens.looked(), 3);
    /// ```
    #[inline(always)]
    #[must_use]
    pub fn looked(&self) -> u64 {
        self.eye.looks()
    }

    #[inline(always)]
    pub(crate) fn place(&self) -> usize {
        self.eye.place()
    }

    #[inline(always)]
    pub(crate) fn advance(&mut self) {
        if let Some(c) = self.head {
            self.eye.step(c);
            self.head = self.eye.look();
        }
    }

    #[inline(always)]
    fn skip_blanks(&mut self) {
        while let Some(c) = self.head {
            if is_blank(c) {
                self.advance();
            } else {
                break;
            }
        }
    }

    #[inline(always)]
    fn take_digits(&mut self) -> u64 {
        let mut number = 0u64;
        while let Some(c) = self.head {
            if c.is_ascii_digit() {
                let digit = c as u32 - b'0' as u32;
                number = ((number as u128 * 10 + digit as u128) % MODULUS) as u64;
                self.advance();
            } else {
                break;
            }
        }
        number
    }

    #[inline(always)]
    pub(crate) fn take_number(&mut self) -> Option<u64> {
        let start = self.eye.place();
        let low = self.take_digits();
        if self.eye.place() - start <= MOST_DIGITS {
            return Some(low);
        }
        fits(self.eye.bytes_since(start), low).then_some(low)
    }

    /// Takes a word's letters, and returns them packed. The first character is known to be a unit
    /// letter, and is handled before the loop, since that takes fewer instructions.
    #[inline(always)]
    fn take_letters(&mut self) -> u64 {
        let Some(first) = self.head else {
            unreachable!();
        };
        let mut packed = first_number(first, self.options);
        self.advance();
        while let Some(c) = self.head {
            let Some(number) = letter_number(c, self.options) else {
                break;
            };
            packed = with_letter(packed, number);
            self.advance();
        }
        packed
    }

    #[inline(always)]
    pub(crate) fn take_word(&mut self, rules: Rules) -> Option<TimeUnit> {
        let start = self.eye.place();
        let packed = self.take_letters();
        if self.eye.place() - start > MOST_BYTES {
            return None;
        }
        unit_table(rules).unit_of_packed(packed)
    }

    #[inline(always)]
    fn take_token(&mut self, sort: TokenStart) -> What {
        match sort {
            TokenStart::Number => {
                let _ = self.take_digits();
                What::Number
            }
            TokenStart::Word => What::Word(self.take_word(Rules::of(self.options))),
            TokenStart::Operator(operator) => {
                self.advance();
                What::Operator(operator)
            }
            TokenStart::Other => {
                self.advance();
                What::Other
            }
        }
    }

    #[inline(always)]
    pub(crate) fn sort_ahead(&mut self) -> Option<TokenStart> {
        self.skip_blanks();
        let first = self.head?;
        Some(TokenStart::at(first, self.options))
    }

    #[inline(always)]
    pub(crate) fn is_number_ahead(&mut self) -> bool {
        self.skip_blanks();
        match self.head {
            Some(c) => c.is_ascii_digit(),
            None => false,
        }
    }

    /// Returns the sort of the next token, if there is one. After a number a word is most likely,
    /// so letters are tested first.
    #[inline(always)]
    pub(crate) fn sort_after_number(&mut self) -> Option<TokenStart> {
        if let Some(c) = self.head {
            if c.is_ascii_alphabetic() {
                return Some(TokenStart::Word);
            }
        }
        self.sort_ahead()
    }
}

impl<'a> Iterator for Tokens<'a> {
    type Item = Token<'a>;

    #[inline]
    fn next(&mut self) -> Option<Token<'a>> {
        let sort = self.sort_ahead()?;
        let start = self.eye.place();
        let what = self.take_token(sort);
        let text = self.eye.since(start);
        Some(Token { start, text, what })
    }
}

/// Each number of up to 19 digits is below 2^64.
const MOST_DIGITS: usize = 19;

/// Whether the number that the digits write is below 2^64. `low` is the number modulo 2^64. Before
/// its last 19 digits, a number below 2^64 has only zeros, or zeros and then a `1`. With the `1`
/// the number is from 10^19 to below 2 * 10^19, so it is below 2^64 exactly if `low` is 10^19 or
/// more.
#[cold]
#[inline(never)]
fn fits(digits: &[u8], low: u64) -> bool {
    let at = digits.len() - MOST_DIGITS - 1;
    let first = digits[at];
    are_zeros(&digits[..at])
        && (first == b'0' || first == b'1' && low >= 10_000_000_000_000_000_000)
}

fn are_zeros(digits: &[u8]) -> bool {
    digits.iter().all(|digit| *digit == b'0')
}
