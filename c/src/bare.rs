//! The items that a library without Rust's `std` has to define.
use core::panic::PanicInfo;

#[panic_handler]
fn panic(_: &PanicInfo<'_>) -> ! {
    abort()
}

#[cfg(target_arch = "wasm32")]
use core::arch::wasm32::unreachable as abort;

#[cfg(not(target_arch = "wasm32"))]
#[cfg_attr(unix, link(name = "c"))]
unsafe extern "C" {
    safe fn abort() -> !;
}

// The code that rustc adds for 128-bit divisions refers to this symbol of `std`. It is hidden, so
// that it is not exported, and weak, so that it gives way in a program that contains the one of
// `std`.
#[cfg(target_os = "linux")]
core::arch::global_asm!(
    ".pushsection .rodata",
    ".weak rust_eh_personality",
    ".hidden rust_eh_personality",
    "rust_eh_personality: .byte 0",
    ".popsection",
);
