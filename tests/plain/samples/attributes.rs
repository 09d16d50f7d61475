//! Docs.
#[derive(Clone, Copy)]
#[repr(C)]
struct One;
struct Two;
