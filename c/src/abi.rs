//! Makes slices of C's pointers, and calls the proved functions of the same names. A pointer to
//! write to is an `Option` if the header lets it be null.
#![deny(clippy::no_mangle_with_rust_abi)]
use crate::{answer::Answer, breakdown, format, help, message, unit};
use core::mem::{MaybeUninit, offset_of, zeroed};
use core::slice::from_raw_parts;

// The field has this offset in the header's structure too.
const _: () = assert!(offset_of!(Answer, has_place) == 16 + 2 * size_of::<usize>());

/// The pointer may be null if the text is empty.
unsafe fn bytes<'a>(start: *const u8, len: usize) -> &'a [u8] {
    if len == 0 {
        &[]
    } else {
        unsafe { from_raw_parts(start, len) }
    }
}

/// C's buffer can be uninitialised. Rust must not make a `&mut [u8; SIZE]` of such memory, since a
/// reference must point to a valid value (the Rust Reference, "Behavior considered undefined"). So
/// the text is copied.
#[cfg(not(target_family = "wasm"))]
fn written<const SIZE: usize>(
    out: &mut MaybeUninit<[u8; SIZE]>,
    write: impl FnOnce(&mut [u8; SIZE]) -> usize,
) -> usize {
    let mut buffer = [0; SIZE];
    let length = write(&mut buffer);
    let text = &buffer[..=length.min(SIZE - 1)];
    unsafe {
        core::ptr::copy_nonoverlapping(text.as_ptr(), out.as_mut_ptr().cast(), text.len());
    }
    length
}

/// All memory of WebAssembly is initialised.
#[cfg(target_family = "wasm")]
fn written<const SIZE: usize>(
    out: &mut MaybeUninit<[u8; SIZE]>,
    write: impl FnOnce(&mut [u8; SIZE]) -> usize,
) -> usize {
    write(unsafe { out.assume_init_mut() })
}

#[unsafe(no_mangle)]
unsafe extern "C" fn duration_str_parse(
    text: *const u8,
    len: usize,
    nanos: &mut MaybeUninit<u64>,
) -> bool {
    let mut value = 0;
    let is_read = crate::duration_str_parse(unsafe { bytes(text, len) }, &mut value);
    if is_read {
        nanos.write(value);
    }
    is_read
}

#[unsafe(no_mangle)]
extern "C" fn duration_str_format(nanos: u64, out: &mut MaybeUninit<[u8; 64]>) -> usize {
    written(out, |buffer| crate::duration_str_format(nanos, buffer))
}

#[unsafe(no_mangle)]
extern "C" fn duration_str_format_with(
    secs: u64,
    nanos: u64,
    units: u32,
    parts: u32,
    rounding: u32,
    style: u32,
    out: &mut MaybeUninit<[u8; 144]>,
) -> usize {
    written(out, |buffer| {
        format::duration_str_format_with(secs, nanos, units, parts, rounding, style, buffer)
    })
}

#[unsafe(no_mangle)]
extern "C" fn duration_str_breakdown(
    secs: u64,
    nanos: u64,
    units: u32,
    parts: u32,
    rounding: u32,
    counts: &mut MaybeUninit<[u64; breakdown::UNIT_COUNT]>,
    rest: Option<&mut MaybeUninit<u64>>,
) -> bool {
    let (mut each, mut left) = ([0; breakdown::UNIT_COUNT], 0);
    let is_written = breakdown::duration_str_breakdown(
        secs, nanos, units, parts, rounding, &mut each, &mut left,
    );
    if is_written {
        counts.write(each);
        if let Some(rest) = rest {
            rest.write(left);
        }
    }
    is_written
}

#[unsafe(no_mangle)]
unsafe extern "C" fn duration_str_parse_with(
    text: *const u8,
    len: usize,
    bits: u32,
    answer: &mut MaybeUninit<Answer>,
) -> bool {
    unsafe { crate::duration_str_parse_with(bytes(text, len), bits, answer.write(zeroed())) }
}

#[unsafe(no_mangle)]
unsafe extern "C" fn duration_str_one_line(
    text: *const u8,
    len: usize,
    bits: u32,
    answer: Option<&mut MaybeUninit<Answer>>,
    out: &mut MaybeUninit<[u8; 384]>,
) -> usize {
    let mut unwanted = MaybeUninit::uninit();
    let answer = answer.unwrap_or(&mut unwanted);
    let (text, answer) = unsafe { (bytes(text, len), answer.write(zeroed())) };
    written(out, |buffer| {
        message::duration_str_one_line(text, bits, answer, buffer)
    })
}

#[unsafe(no_mangle)]
unsafe extern "C" fn duration_str_reason(
    text: *const u8,
    len: usize,
    bits: u32,
    answer: Option<&mut MaybeUninit<Answer>>,
    out: &mut MaybeUninit<[u8; 384]>,
) -> usize {
    let mut unwanted = MaybeUninit::uninit();
    let answer = answer.unwrap_or(&mut unwanted);
    let (text, answer) = unsafe { (bytes(text, len), answer.write(zeroed())) };
    written(out, |buffer| {
        message::duration_str_reason(text, bits, answer, buffer)
    })
}

#[unsafe(no_mangle)]
unsafe extern "C" fn duration_str_report(
    text: *const u8,
    len: usize,
    bits: u32,
    answer: Option<&mut MaybeUninit<Answer>>,
    out: &mut MaybeUninit<[u8; 867]>,
) -> usize {
    let mut unwanted = MaybeUninit::uninit();
    let answer = answer.unwrap_or(&mut unwanted);
    let (text, answer) = unsafe { (bytes(text, len), answer.write(zeroed())) };
    written(out, |buffer| {
        message::duration_str_report(text, bits, answer, buffer)
    })
}

#[unsafe(no_mangle)]
unsafe extern "C" fn duration_str_help(
    text: *const u8,
    len: usize,
    bits: u32,
    out: Option<&mut MaybeUninit<[u8; 24]>>,
    start: Option<&mut MaybeUninit<usize>>,
    replaced_length: Option<&mut MaybeUninit<usize>>,
) -> u32 {
    let (text, mut number) = (unsafe { bytes(text, len) }, 0);
    let mut unwanted_start = MaybeUninit::uninit();
    let mut unwanted_length = MaybeUninit::uninit();
    let start = start.unwrap_or(&mut unwanted_start).write(0);
    let replaced_length = replaced_length.unwrap_or(&mut unwanted_length).write(0);
    written(out.unwrap_or(&mut MaybeUninit::zeroed()), |buffer| {
        number = help::duration_str_help(text, bits, buffer, start, replaced_length);
        buffer.iter().take_while(|byte| **byte != 0).count()
    });
    number
}

#[unsafe(no_mangle)]
unsafe extern "C" fn duration_str_unit(name: *const u8, len: usize) -> i32 {
    unit::duration_str_unit(unsafe { bytes(name, len) })
}

#[unsafe(no_mangle)]
extern "C" fn duration_str_version() -> u32 {
    crate::duration_str_version()
}
