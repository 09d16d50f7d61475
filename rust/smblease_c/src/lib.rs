//! The library for C: the functions that the headers in `include/` declare, over the C library's `malloc`, without Rust's std.
#![no_std]
#![deny(unsafe_op_in_unsafe_fn)]

#[cfg(not(target_pointer_width = "64"))]
compile_error!("what is proved of this code is proved for a usize of 64 bits");

extern crate smblease_std as std;

mod memory;
pub mod proved;

/// What is proved has no panic, and a check that fails all the same ends the process.
#[cfg(not(test))]
#[panic_handler]
fn panicked(_info: &core::panic::PanicInfo<'_>) -> ! {
    memory::end()
}

// Rust's `core` comes built for unwinding and names it. Nothing unwinds here, and the shared library doesn't show it.
#[cfg(target_os = "linux")]
core::arch::global_asm!(".weak rust_eh_personality", ".hidden rust_eh_personality", "rust_eh_personality:", "ret");
