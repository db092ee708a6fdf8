// Made by tools/erase of crates/durstr_run/src/output.rt.
//! Makes the output for the lines, and writes it.

use crate::fault::RunFault;
use crate::lines::first_line;
use duration_str_core::{HUMAN_BUFFER_SIZE, Options, parse_with, write_human};
use crate::outside::{AllocError, Allocator, String};
use std::io::Write;
use std::time::Duration;

/// Returns the bytes as a text, or `None` if they are not UTF-8. It first tests for ASCII, since
/// most texts are ASCII.
fn text_of(bytes: &[u8]) -> Option<&str> {
    if bytes.is_ascii() {
        // SAFETY: ASCII is UTF-8.
        return Some(unsafe { core::str::from_utf8_unchecked(bytes) });
    }
    core::str::from_utf8(bytes).ok()
}

fn push_value<A: Allocator>(out: &mut String<A>, duration: Duration) -> Result<(), AllocError> {
    let nanos = duration.as_nanos() as u64;
    let mut buffer = [0; HUMAN_BUFFER_SIZE];
    let human = write_human(&duration, &mut buffer);
    writeln!(out, "{nanos} {human}")?;
    Ok(())
}

fn push_line<A: Allocator>(
    out: &mut String<A>,
    line: &[u8],
    options: Options,
) -> Result<bool, AllocError> {
    let Some(text) = text_of(line) else {
        out.push_str("not UTF-8\n")?;
        return Ok(false);
    };
    match parse_with(text, options) {
        Ok(duration) => {
            push_value(out, duration)?;
            Ok(true)
        }
        Err(fault) => {
            writeln!(out, "{fault}")?;
            Ok(false)
        }
    }
}

/// Returns the output for the whole input, and whether every line was accepted.
pub fn output_of<A: Allocator>(
    alloc: A,
    input: &[u8],
    options: Options,
) -> Result<(String<A>, bool), AllocError> {
    let mut out = String::new(alloc);
    let mut all_accepted = true;
    let mut rest = input;
    while !rest.is_empty() {
        let (line, after) = first_line(rest);
        let accepted = push_line(&mut out, line, options)?;
        all_accepted &= accepted;
        rest = after;
    }
    Ok((out, all_accepted))
}

/// Writes all the bytes, and flushes the writer.
pub fn write_all<W: Write>(writer: &mut W, bytes: &[u8]) -> Result<(), RunFault> {
    let mut written = 0;
    while written < bytes.len() {
        match writer.write(&bytes[written..]) {
            Ok(0) | Err(_) => return Err(RunFault::Write),
            Ok(count) => written += count,
        }
    }
    match writer.flush() {
        Ok(()) => Ok(()),
        Err(_) => Err(RunFault::Write),
    }
}
