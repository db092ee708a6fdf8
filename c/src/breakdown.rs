// Made by tools/erase of crates/duration_str_c/src/breakdown.rt.
//! Durations broken down into units.

use crate::format::short_format_of;
use crate::rounding::given;
use duration_str_core::{Breakdown, TimeUnit, UNITS};

/// How many units there are.
pub const UNIT_COUNT: usize = UNITS.len();

/// Rounds a duration of `secs` seconds and `nanos` nanoseconds, and breaks it down into the units
/// of a set, in at most `parts` parts. Writes to `counts` the count of each unit, the longest unit
/// first, and to `rest` the nanoseconds that no part has. A unit without a part has the count 0.
///
/// The set is given by its bits, and the way of rounding by its number, as for
/// `duration_str_format_with`. A rounded duration has no rest. If the duration is 2^64 seconds or
/// more, if `units` is 0 or above 2,047, if `rounding` is above 3, if there is nothing to round up
/// to, or if a count or the rest needs more than 64 bits, the call returns false, and `counts` and
/// `rest` are unchanged. Otherwise it returns true.
pub fn duration_str_breakdown(
    secs: u64,
    nanos: u64,
    units: u32,
    parts: u32,
    rounding: u32,
    counts: &mut [u64; UNIT_COUNT],
    rest: &mut u64,
) -> bool {
    let Some(format) = short_format_of(units, parts) else {
        return false;
    };
    let Some((duration, rounding)) = given(secs, nanos, rounding) else {
        return false;
    };
    let Some(mut parts) = Breakdown::rounded(&duration, format, rounding) else {
        return false;
    };
    let Some(found) = counts_of(&mut parts) else {
        return false;
    };
    let Ok(left) = u64::try_from(parts.rest()) else {
        return false;
    };
    *counts = found;
    *rest = left;
    true
}

fn counts_of(parts: &mut Breakdown) -> Option<[u64; UNIT_COUNT]> {
    let mut counts = [0; UNIT_COUNT];
    while let Some((unit, count)) = parts.next() {
        counts[rank(unit)] = u64::try_from(count).ok()?;
    }
    Some(counts)
}

fn rank(unit: TimeUnit) -> usize {
    unit as usize
}
