// Made by tools/erase of crates/duration_str_base/src/humantime.rt.
//! The names and lengths of the units of the crate humantime, with the names that the library reads
//! added.

use crate::more_names;
use crate::packed::CAPITAL_M;
use crate::unit::TimeUnit;

#[inline(always)]
pub(crate) fn nanos(unit: TimeUnit) -> u64 {
    match unit {
        TimeUnit::Year => 31_557_600_000_000_000,
        TimeUnit::Month => 2_630_016_000_000_000,
        _ => unit.nanos(),
    }
}

#[inline]
pub(crate) fn unit_of_packed(packed: u64) -> Option<TimeUnit> {
    if packed == CAPITAL_M {
        return Some(TimeUnit::Month);
    }
    more_names::unit_of_packed(packed)
}
