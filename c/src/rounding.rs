// Made by tools/erase of crates/duration_str_c/src/rounding.rt.
//! Durations that are given by numbers, and how they are rounded.

use duration_str_core::Rounding;
use core::time::Duration;

/// Returns the sum of the seconds and the nanoseconds, and the way of rounding.
///
/// The ways of rounding are 0 for none, 1 for down, 2 for the nearest and 3 for up. If the sum is
/// 2^64 seconds or more, or if `rounding` is above 3, returns `None`.
#[inline(always)]
pub(crate) fn given(secs: u64, nanos: u64, rounding: u32) -> Option<(Duration, Option<Rounding>)> {
    let sum = Duration::from_secs(secs).checked_add(Duration::from_nanos(nanos))?;
    match rounding {
        0 => Some((sum, None)),
        1 => Some((sum, Some(Rounding::Down))),
        2 => Some((sum, Some(Rounding::Nearest))),
        3 => Some((sum, Some(Rounding::Up))),
        _ => None,
    }
}
