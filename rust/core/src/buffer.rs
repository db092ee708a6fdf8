// Made by tools/erase of crates/duration_str_base/src/buffer.rt.
//! Bytes and numbers written to a buffer.

/// Writes a part after the first `at` bytes of the buffer. Returns where the part ends, or `None`
/// if there is no room for it.
pub(crate) fn put(buffer: &mut [u8], at: usize, part: &[u8]) -> Option<usize> {
    if part.len() > buffer.len() - at {
        return None;
    }
    let end = at + part.len();
    buffer[at..end].copy_from_slice(part);
    Some(end)
}

pub(crate) fn put_decimal(buffer: &mut [u8], at: usize, number: u64) -> Option<usize> {
    if number < 10 {
        return put(buffer, at, &[b'0' + number as u8]);
    }
    let end = put_decimal(buffer, at, number / 10)?;
    put_decimal(buffer, end, number % 10)
}
