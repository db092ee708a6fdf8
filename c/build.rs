//! Gives the shared library its soname on Linux. CONTRIBUTING.md says when the soname's number is
//! raised. The Makefile reads the soname here. In WebAssembly callers need the end of the module's
//! own memory, which Rust exports by itself only up to 1.96.
fn main() {
    println!("cargo:rerun-if-changed=build.rs");
    let set = |name| std::env::var(name).unwrap_or_default();
    if set("CARGO_CFG_TARGET_OS") == "linux" {
        println!("cargo:rustc-cdylib-link-arg=-Wl,-soname,libduration_str.so.1");
    }
    if set("TARGET") == "wasm32-unknown-unknown" {
        println!("cargo:rustc-cdylib-link-arg=--export=__heap_base");
    }
}
