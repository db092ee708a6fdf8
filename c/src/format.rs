// Made by tools/erase of crates/duration_str_c/src/format.rt.
//! Durations printed in a format.

use crate::put;
use crate::rounding::given;
use duration_str_core::{FORMAT_BUFFER_SIZE, Format, Style, Units, write_rounded};

/// Rounds a duration of `secs` seconds and `nanos` nanoseconds, and prints it in the units of a
/// set, in at most `parts` parts and in a style, to the start of the buffer, with a zero byte after
/// it. Returns the length of the text in bytes, without the zero. The rest of the buffer is
/// unchanged.
///
/// In the set the bit 2^n stands for the unit at index n of `UNITS`: 1 is the year, 1,024 is the
/// nanosecond, and 2,047 is all units. The ways of rounding are 0 for none, 1 for down, 2 for the
/// nearest and 3 for up. The styles are 0 for short, 1 for compact and 2 for long. If the duration
/// is 2^64 seconds or more, `units` is 0 or above 2,047, `rounding` is above 3, `style` is above 2,
/// or there is nothing to round up to, the call returns 0, and the text is empty.
pub fn duration_str_format_with(
    secs: u64,
    nanos: u64,
    units: u32,
    parts: u32,
    rounding: u32,
    style: u32,
    buffer: &mut [u8; FORMAT_BUFFER_SIZE],
) -> usize {
    let Some(format) = format_of(units, parts, style) else {
        return put("", buffer);
    };
    let Some((duration, rounding)) = given(secs, nanos, rounding) else {
        return put("", buffer);
    };
    let mut printed = [0; FORMAT_BUFFER_SIZE];
    match write_rounded(&duration, format, rounding, &mut printed) {
        Some(text) => put(text, buffer),
        None => put("", buffer),
    }
}

fn format_of(units: u32, parts: u32, style: u32) -> Option<Format> {
    let style = style_numbered(style)?;
    Some(short_format_of(units, parts)?.style(style))
}

pub(crate) fn short_format_of(units: u32, parts: u32) -> Option<Format> {
    let mut format = Format::whole().parts(parts as usize);
    format.units = units_of(units)?;
    Some(format)
}

fn units_of(bits: u32) -> Option<Units> {
    if bits == 0 {
        return None;
    }
    match u16::try_from(bits) {
        Ok(bits) => Units::from_bits(bits),
        Err(_) => None,
    }
}

fn style_numbered(number: u32) -> Option<Style> {
    match number {
        0 => Some(Style::Short),
        1 => Some(Style::Compact),
        2 => Some(Style::Long),
        _ => None,
    }
}
