// Made by tools/erase of crates/duration_str_base/src/slice.rt.
//! Slices of a text at a place that is known to be a character boundary. `&text[place..]` would
//! test that again, and would contain the code that reports a place inside a character.

/// Returns `&text[..to]`.
#[inline(always)]
pub(crate) fn range_to(text: &str, to: usize) -> &str {
    // SAFETY: what stands before a character boundary of a text is UTF-8.
    unsafe { core::str::from_utf8_unchecked(&text.as_bytes()[..to]) }
}

/// Returns `&text[from..]`.
#[inline(always)]
pub(crate) fn range_from(text: &str, from: usize) -> &str {
    // SAFETY: what follows a character boundary of a text is UTF-8.
    unsafe { core::str::from_utf8_unchecked(&text.as_bytes()[from..]) }
}

/// Returns how many characters the text has before this byte.
#[inline(never)]
pub(crate) fn chars_before(text: &str, place: usize) -> usize {
    range_to(text, place).chars().count()
}
