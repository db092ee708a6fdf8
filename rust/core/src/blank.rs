// Made by tools/erase of crates/duration_str_base/src/blank.rt.
//! The blanks between tokens.

/// For each character up to the space, whether it is a blank. A table takes fewer instructions than
/// comparisons.
static BLANKS: [bool; 33] = [
    false, false, false, false, false, false, false, false, false, true, true, false, false, true,
    false, false, false, false, false, false, false, false, false, false, false, false, false,
    false, false, false, false, false, true,
];

#[inline]
pub(crate) fn is_blank(c: char) -> bool {
    c <= ' ' && BLANKS[c as usize]
}
