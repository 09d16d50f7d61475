//! Gives the shared library the name by which programs look for it, and shows its own functions alone.

fn main() {
    println!("cargo:rerun-if-changed=build.rs");
    println!("cargo:rustc-cdylib-link-arg=-Wl,-soname,libsmblease.so.0");
}
