//! What tests of the proved code call.
use crate::alloc::Global;
use core::fmt;
use rust_alloc::string::String;

/// What a program or a test is given: the allocator, and with the feature `host` all that the process has.
#[derive(Clone, Copy, Debug)]
pub struct HostRuntime(());

impl HostRuntime {
    /// The process's.
    pub fn host() -> HostRuntime {
        HostRuntime(())
    }

    /// The allocator.
    pub fn alloc(&self) -> Global {
        Global
    }
}

/// Why a test failed. It has no `Debug`, so that each error that has one becomes one.
pub struct Fail(String);

impl Fail {
    /// A failure with these words.
    pub fn new(told: impl fmt::Display) -> Fail {
        Fail(rust_alloc::format!("{told}"))
    }
}

impl<E: fmt::Debug> From<E> for Fail {
    fn from(error: E) -> Fail {
        #[cfg(feature = "host")]
        crate::refusing::grant();
        Fail(rust_alloc::format!("{error:?}"))
    }
}

impl Fail {
    // Whether the error was want of memory.
    #[cfg(feature = "host")]
    fn is_memory(&self) -> bool {
        ["AllocError", "AllocFailed", "Memory", "OutOfMemory"].contains(&self.0.as_str())
    }
}

/// Runs a test, and panics where it gives an error. With the feature `host`, in a program whose allocator is
/// [`Refusing`](crate::refusing::Refusing), the test runs again for each allocation that it asks for, once with that one refused and
/// once with that one and all later ones; then it may also end with want of memory, or find that in place of what an assertion wants.
pub fn passes<T>(test: impl Fn() -> Result<T, Fail>) {
    #[cfg(feature = "host")]
    refused::passes(test);
    #[cfg(not(feature = "host"))]
    if let Err(Fail(why)) = test() {
        panic!("{why}");
    }
}

#[cfg(feature = "host")]
mod refused {
    use super::Fail;
    use crate::refusing::{counted, grant, without};
    use core::any::Any;
    use core::ops::RangeInclusive;
    use rust_alloc::string::String;
    use rust_std::panic::{AssertUnwindSafe, catch_unwind};

    pub fn passes<T>(test: impl Fn() -> Result<T, Fail>) {
        let (ended, allocations) = counted(&test);
        if let Err(Fail(why)) = ended {
            panic!("{why}");
        }
        for first in 1..=allocations {
            for last in [first, usize::MAX] {
                fits(&test, first..=last);
            }
        }
    }

    fn fits<T>(test: impl Fn() -> Result<T, Fail>, refused: RangeInclusive<usize>) {
        let ended = catch_unwind(AssertUnwindSafe(|| without(refused.clone(), test)));
        grant();
        match ended {
            Ok(Err(fail)) if !fail.is_memory() => panic!("without allocations {refused:?}: {}", fail.0),
            Err(panic) if !compares_memory(&*panic) => panic!("without allocations {refused:?} the test fails otherwise"),
            _ => (),
        }
    }

    // Whether an assertion failed since the call that it looks at gave want of memory.
    fn compares_memory(panic: &(dyn Any + Send)) -> bool {
        let told = panic.downcast_ref::<String>().map_or("", String::as_str);
        ["left: Err(Memory)\n", "left: Some(Memory)\n"].iter().any(|left| told.contains(left))
    }
}
