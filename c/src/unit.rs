// Made by tools/erase of crates/duration_str_c/src/unit.rt.
//! A unit by its name.

use crate::text_of;
use duration_str_core::{Options, TimeUnit};

/// Returns the number of the unit with this name: its index in `UNITS`, from 0 for the year to 10
/// for the nanosecond. The name is read with all options off, so its ASCII letters may be capitals,
/// and the names that options add are not known, such as the Chinese ones and `mins`. If no unit
/// has this name, or if the bytes are not UTF-8, returns -1.
pub fn duration_str_unit(name: &[u8]) -> i32 {
    let Some(name) = text_of(name) else {
        return -1;
    };
    match TimeUnit::from_word(name, Options::off()) {
        Some(unit) => unit as i32,
        None => -1,
    }
}
