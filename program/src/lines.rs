// Made by tools/erase of crates/durstr_run/src/lines.rt.
//! Cutting bytes into lines.

fn line_end(bytes: &[u8]) -> Option<usize> {
    bytes.iter().position(|b| *b == b'\n')
}

pub(crate) fn first_line(bytes: &[u8]) -> (&[u8], &[u8]) {
    match line_end(bytes) {
        Some(end) => (&bytes[..end], &bytes[end + 1..]),
        None => (bytes, b""),
    }
}
