// Made by tools/erase of crates/duration_str_js/src/lib.rt.
//! The calls of the JavaScript package, with slices and references in place of pointers.
//!
//! They allocate nothing, and refuse no argument. A number that JavaScript never passes has a
//! meaning, too: a style above 2, for example, is the long style.
#![no_std]

mod abi; // Written by hand.

#[forbid(unsafe_code)]
pub mod printing;
#[forbid(unsafe_code)]
pub mod reading;
