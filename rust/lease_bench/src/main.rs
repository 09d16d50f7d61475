//! The program `lease_bench`.
#![cfg_attr(unix, no_main)]

use lease_bench::run;
use smblease_std::prelude::HostRuntime;

/// Rust's own start would open a standard stream that is closed as `/dev/null`, and an input that is closed would pass for an empty one.
///
/// # Safety
///
/// It is called by C's start alone, with what that passes.
#[cfg(unix)]
#[unsafe(no_mangle)]
pub unsafe extern "C" fn main(_count: i32, words: *const *const core::ffi::c_char) -> i32 {
    // SAFETY: it is what C passes.
    unsafe { smblease_std::env::give(words) };
    smblease_std::process::ignore_broken_pipes();
    run(HostRuntime::host()).status()
}

#[cfg(not(unix))]
fn main() {
    std::process::exit(run(HostRuntime::host()).status());
}
