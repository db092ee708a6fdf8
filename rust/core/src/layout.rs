// Made by tools/erase of crates/duration_str_refusals/src/layout.rt.
//! How a text and a line stand together: the line alone, after a place, or below a caret.

use crate::buffer::{put, put_decimal};

#[derive(Clone, Copy)]
pub(crate) enum Layout {
    Line,
    /// The place, such as `byte 5: `, and the line.
    Byte { place: usize },
    /// The text, below it a caret after this many spaces, and below that the line.
    Caret { spaces: usize },
}

impl Layout {
    pub(crate) fn message<'b>(self, buffer: &'b mut [u8], text: &str, line: &str) -> Option<&'b str> {
        match self.put(buffer, text, line) {
            // SAFETY: `put` writes UTF-8 up to `end`, by its clause `utf8`.
            Some(end) => Some(unsafe { core::str::from_utf8_unchecked(&buffer[..end]) }),
            None => None,
        }
    }

    fn put(self, buffer: &mut [u8], text: &str, line: &str) -> Option<usize> {
        match self {
            Layout::Line => put(buffer, 0, line.as_bytes()),
            Layout::Byte { place } => put_byte(buffer, place, line),
            Layout::Caret { spaces } => put_caret(buffer, text, spaces, line),
        }
    }
}

fn put_byte(buffer: &mut [u8], place: usize, line: &str) -> Option<usize> {
    let word = put(buffer, 0, b"byte ")?;
    let number = put_decimal(buffer, word, place as u64)?;
    let colon = put(buffer, number, b": ")?;
    put(buffer, colon, line.as_bytes())
}

fn put_caret(buffer: &mut [u8], text: &str, spaces: usize, line: &str) -> Option<usize> {
    let above = put(buffer, 0, text.as_bytes())?;
    let below = put(buffer, above, b"\n")?;
    let caret = put_spaces(buffer, below, spaces)?;
    let line_start = put(buffer, caret, b"^\n")?;
    put(buffer, line_start, line.as_bytes())
}

fn put_spaces(buffer: &mut [u8], at: usize, count: usize) -> Option<usize> {
    if count > buffer.len() - at {
        return None;
    }
    let end = at + count;
    buffer[at..end].fill(b' ');
    Some(end)
}
