"""The proved crates as plain Rust: contracts are taken off, and the modules of a workspace are written."""
