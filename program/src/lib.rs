// Made by tools/erase of crates/durstr_run/src/lib.rt.
//! What the program `durstr` does, over any reader and any writer.

#[forbid(unsafe_code)]
mod outside; // Written by hand.

pub use self::outside::Heap;

#[forbid(unsafe_code)]
mod fault;
#[forbid(unsafe_code)]
mod input;
#[forbid(unsafe_code)]
mod lines;
#[allow(unsafe_code)] // Blocks: 1.
mod output;
#[forbid(unsafe_code)]
mod running;
#[forbid(unsafe_code)]
mod words;

pub use self::fault::RunFault;
pub use self::running::run;
pub use self::words::{ending, with_word};
