//! What the proved code calls `std`: Rust's `core`, and collections of Rust's `alloc` whose calls give an error where memory runs
//! out in place of ending the process. Calls that may take memory are passed an allocator, as the proved code has it; [`alloc::Global`]
//! is the only one.
//!
//! With the feature `host` there are files, the command line and the standard streams too, over Rust's `std`.
#![no_std]

#[cfg(not(target_pointer_width = "64"))]
compile_error!("what is proved of this code is proved for a usize of 64 bits");

extern crate alloc as rust_alloc;
#[cfg(any(feature = "host", test))]
extern crate std as rust_std;

pub use core::{any, array, cell, char, cmp, error, fmt, iter, marker, mem, num, ops, option, ptr, result, slice, str};

pub mod alloc;
mod boxed;
pub mod c;
mod deque;
pub mod hash;
mod macros;
mod map;
pub mod ports;
#[cfg(any(feature = "host", test))]
pub mod refusing;
mod set;
pub mod simd;
mod sorting;
mod string;
pub mod test;
mod vec;

#[cfg(feature = "host")]
mod host;
#[cfg(feature = "host")]
pub use host::{env, fs, io, rt};

/// Conversions, and the traits of what can be seen as a slice or as text.
pub mod convert {
    pub use crate::seen::{AsSlice, AsStr};
    pub use core::convert::*;
}

mod seen;

/// Collections in an order or with two ends.
pub mod collections {
    pub use crate::deque::VecDeque;
    pub use crate::map::BTreeMap;
    pub use crate::set::{BTreeSet, HashSet};
}

/// How a process ends.
pub mod process {
    #[cfg(feature = "host")]
    pub use crate::host::process::*;

    /// What may end the process. A failed assertion does, in tests alone.
    pub trait Abort {}

    impl Abort for crate::test::HostRuntime {}

    impl<A: Abort> Abort for &A {}
}

/// The names that the proved code has without an import.
pub mod prelude {
    pub use crate::boxed::Box;
    #[cfg(feature = "host")]
    pub use crate::host::rt::{AllocGlobal, Eprint, Input, Print};
    pub use crate::string::String;
    pub use crate::test::HostRuntime;
    pub use crate::vec::Vec;
    pub use crate::{format, vec};
    #[cfg(feature = "host")]
    pub use crate::{print, println};
}
