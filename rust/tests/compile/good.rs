#![no_std]
// Only `main` needs `std`.
extern crate std;

use duration_str::duration;

const TIMEOUT: core::time::Duration = duration!("1h 30m");

fn main() {
    assert_eq!(TIMEOUT.as_secs(), 5_400);
}
