// Made by tools/erase of crates/durstr_run/src/fault.rt.
//! Why a run fails.

use crate::outside::AllocError;

/// Why a run failed.
#[derive(Clone, Copy, Debug, PartialEq, Eq)]
pub enum RunFault {
    /// A read failed.
    Read,
    /// A write or the flush failed, or a write of a nonempty part took nothing.
    Write,
    /// The reader gave more than 1,048,576 bytes.
    TooLong,
    /// Memory was refused.
    Memory,
}

impl From<AllocError> for RunFault {
    fn from(_error: AllocError) -> RunFault {
        RunFault::Memory
    }
}
