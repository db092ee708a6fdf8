// Made by tools/erase of crates/duration_str_reading/src/eye.rt.
//! A text that is taken one character after another, with a count of the looks.

use crate::slice::range_from;

pub(crate) struct Eye<'a> {
    text: &'a str,
    place: usize,
    looks: u64,
}

impl<'a> Eye<'a> {
    #[inline(always)]
    pub(crate) fn new(text: &'a str) -> Eye<'a> {
        Eye {
            text,
            place: 0,
            looks: 0,
        }
    }

    #[inline(always)]
    pub(crate) fn place(&self) -> usize {
        self.place
    }

    #[inline(always)]
    pub(crate) fn looks(&self) -> u64 {
        self.looks
    }

    #[inline(always)]
    pub(crate) fn look(&mut self) -> Option<char> {
        let c = character_at(self.text, self.place)?;
        self.looks += 1;
        Some(c)
    }

    #[inline(always)]
    pub(crate) fn step(&mut self, looked_at: char) {
        self.place += looked_at.len_utf8();
    }

    #[inline(always)]
    pub(crate) fn since(&self, start: usize) -> &'a str {
        // SAFETY: the bytes are UTF-8, by the clause `utf8`.
        unsafe { core::str::from_utf8_unchecked(self.bytes_since(start)) }
    }

    /// Returns the bytes of what `since` returns, without checking character boundaries.
    #[inline(always)]
    pub(crate) fn bytes_since(&self, start: usize) -> &'a [u8] {
        &self.text.as_bytes()[start..self.place]
    }
}

#[inline]
fn character_at(text: &str, place: usize) -> Option<char> {
    let byte = *text.as_bytes().get(place)?;
    if byte < 128 {
        Some(char::from(byte))
    } else {
        Some(decoded_at(text, place))
    }
}

#[cold]
#[inline(never)]
fn decoded_at(text: &str, place: usize) -> char {
    match range_from(text, place).chars().next() {
        Some(c) => c,
        None => unreachable!(),
    }
}
