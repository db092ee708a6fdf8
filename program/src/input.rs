// Made by tools/erase of crates/durstr_run/src/input.rt.
//! Reading the whole input.

use crate::fault::RunFault;
use crate::outside::{Allocator, Vec};
use std::io::Read;

const LIMIT: usize = 1_048_576;

/// The most bytes that one read requests.
const CHUNK: usize = 65_536;

/// Reads until the reader's end, and returns all bytes. Fails if there are more than 1,048,576.
pub fn read_all<A: Allocator, R: Read>(alloc: A, reader: &mut R) -> Result<Vec<u8, A>, RunFault> {
    let mut input = Vec::new(alloc);
    let mut chunk = [0u8; CHUNK];
    loop {
        let Ok(count) = reader.read(&mut chunk) else {
            return Err(RunFault::Read);
        };
        if count == 0 {
            return Ok(input);
        }
        if count > LIMIT - input.len() {
            return Err(RunFault::TooLong);
        }
        input.extend_from_slice(&chunk[..count])?;
    }
}
