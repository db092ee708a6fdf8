//! Makes slices and references of addresses, and nanoseconds of milliseconds, and calls the proved
//! functions of the same names. There are two modules, so that a bundle that only reads does not
//! contain what prints, and the other way round. The files in `js/src` know the offsets of the
//! structures.
use core::panic::PanicInfo;

#[panic_handler]
fn panic(_: &PanicInfo<'_>) -> ! {
    core::arch::wasm32::unreachable()
}

/// The number of nanoseconds in a millisecond.
const MILLISECOND: u64 = 1_000_000;

#[cfg(feature = "read")]
mod reading {
    use super::{MILLISECOND, check_start};
    use crate::reading::{self, Refusal};
    use core::slice::from_raw_parts;
    use core::str::from_utf8_unchecked;
    use duration_str_core::REPORT_BUFFER_SIZE;

    /// The text to read follows.
    #[repr(C)]
    struct Answer {
        /// The value in nanoseconds, if the text is read.
        nanos: u64,
        refusal: Refusal,
        report: [u8; REPORT_BUFFER_SIZE],
    }

    /// Reads the text of this length that follows the answer. It must be UTF-8. Returns the value
    /// in milliseconds, rounded to the nearest number, or minus the length of the report.
    #[unsafe(no_mangle)]
    unsafe extern "C" fn read(answer: *mut Answer, length: usize, bits: u32) -> f64 {
        let text = answer.wrapping_add(1).cast();
        let text = unsafe { from_utf8_unchecked(from_raw_parts(text, length)) };
        let answer = unsafe { &mut *answer };
        let start = answer.report.as_ptr();
        match reading::read(text, bits, &mut answer.refusal, &mut answer.report) {
            Ok(nanos) => {
                answer.nanos = nanos;
                milliseconds(nanos)
            }
            Err(report) => {
                check_start(report, start);
                -(report.len() as i32 as f64)
            }
        }
    }

    /// From 2^53 ns on the sum is a multiple of 2^-19. The fraction is rounded before. That changes
    /// nothing: a multiple of 1/64 is exact, and any other fraction is too far from the middle
    /// between two sums for its rounding to cross it.
    fn milliseconds(nanos: u64) -> f64 {
        let length = MILLISECOND as f64;
        if nanos < 1 << 53 {
            return nanos as i64 as f64 / length;
        }
        (nanos / MILLISECOND) as i64 as f64 + (nanos % MILLISECOND) as i64 as f64 / length
    }
}

#[cfg(feature = "print")]
mod printing {
    use super::{MILLISECOND, check_start};
    use crate::printing::{self, UNIT_COUNT};
    use duration_str_core::FORMAT_BUFFER_SIZE;

    #[repr(C)]
    struct Page {
        /// A duration in nanoseconds. Afterwards, `count` has written here what no part has.
        nanos: u64,
        counts: [u64; UNIT_COUNT],
        text: [u8; FORMAT_BUFFER_SIZE],
    }

    /// Prints this many milliseconds, or `page.nanos` if the number is negative. Returns the length
    /// of the text, or 0 if there is none.
    #[unsafe(no_mangle)]
    extern "C" fn print(
        page: &mut Page,
        millis: f64,
        units: u16,
        parts: usize,
        rounding: u32,
        style: u32,
    ) -> usize {
        let nanos = given(page, millis);
        let start = page.text.as_ptr();
        let text = printing::print(nanos, units, parts, rounding, style, &mut page.text);
        text.map_or(0, |text| {
            check_start(text, start);
            text.len()
        })
    }

    /// Counts the parts of a duration, which is given as to `print`. Returns the set of the units
    /// that have a part. The other counts are not written.
    #[unsafe(no_mangle)]
    extern "C" fn count(
        page: &mut Page,
        millis: f64,
        units: u16,
        parts: usize,
        rounding: u32,
    ) -> u32 {
        let nanos = given(page, millis);
        let (counts, rest) = (&mut page.counts, &mut page.nanos);
        printing::count(nanos, units, parts, rounding, counts, rest)
            .map_or(0, |counted| counted.bits().into())
    }

    fn given(page: &Page, millis: f64) -> u64 {
        if millis < 0.0 {
            page.nanos
        } else {
            nanos_of(millis)
        }
    }

    /// The nearest number of nanoseconds, and of two that are equally near the greater one. Less
    /// than 2^-34 ns below the middle between two it can be the greater one, too, since the product
    /// is rounded.
    fn nanos_of(millis: f64) -> u64 {
        let whole = unsafe { millis.to_int_unchecked::<i64>() };
        let fraction = (millis - whole as f64) * MILLISECOND as f64;
        let nanos = unsafe { fraction.to_int_unchecked::<i64>() };
        let is_up = fraction - nanos as f64 >= 0.5;
        whole as u64 * MILLISECOND + nanos as u64 + u64::from(is_up)
    }
}

/// JavaScript looks for a text at the start of its buffer.
fn check_start(text: &str, start: *const u8) {
    if text.as_ptr() != start {
        core::arch::wasm32::unreachable();
    }
}

/// Divides, for the compiler, a number of 128 bits, by a divisor below 2^63. All divisors here are:
/// the longest one is a year in nanoseconds. Only what prints contains such a division. The
/// function of Rust's library that this replaces is seven times as large.
#[cfg(feature = "print")]
#[unsafe(no_mangle)]
#[allow(improper_ctypes_definitions)] // Rust 1.85 warns of 128-bit numbers.
extern "C" fn __udivti3(dividend: u128, divisor: u128) -> u128 {
    let (high, divisor) = ((dividend >> 64) as u64, divisor as u64);
    let (mut left, mut rest) = (dividend as u64, high % divisor);
    for _ in 0..64 {
        rest = rest << 1 | left >> 63;
        left <<= 1;
        if rest >= divisor {
            rest -= divisor;
            left += 1;
        }
    }
    u128::from(high / divisor) << 64 | u128::from(left)
}
