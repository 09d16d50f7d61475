//! Sets of flags as version 2 of `bitflags` has them by its trait `Flags`. Version 1, which Debian has, makes the type itself, and
//! so can't be asked for the parts that are used here.

/// A named flag.
#[derive(Debug)]
pub struct Flag<B: 'static> {
    name: &'static str,
    value: B,
}

impl<B: 'static> Flag<B> {
    /// A flag of this name.
    pub const fn new(name: &'static str, value: B) -> Flag<B> {
        Flag { name, value }
    }

    /// Its name.
    pub const fn name(&self) -> &'static str {
        self.name
    }

    /// What it is.
    pub const fn value(&self) -> &B {
        &self.value
    }
}

/// A set of flags.
pub trait Flags: Sized + Copy + 'static {
    /// The number that it is kept as.
    type Bits: Copy + Default + PartialEq;

    /// All named flags.
    fn flags<'a>() -> &'a [Flag<Self>];

    /// The number, with all its bits.
    fn bits(&self) -> Self::Bits;

    /// The set of this number, whatever its bits.
    fn from_bits_retain(bits: Self::Bits) -> Self;

    /// Whether no bit is there.
    fn is_empty(&self) -> bool {
        self.bits() == Self::Bits::default()
    }
}

/// The constants of a set of flags, and its calls.
#[macro_export]
macro_rules! bitflag_items {
    (impl $name:ident: $bits:ty { $(const $flag:ident = $value:expr;)* }) => {
        impl $name {
            $(
                #[doc = concat!("The flag `", stringify!($flag), "`.")]
                pub const $flag: $name = $name($value);
            )*

            /// All named flags.
            pub const FLAGS: &'static [$crate::ports::bitflags::Flag<$name>] =
                &[$($crate::ports::bitflags::Flag::new(stringify!($flag), $name::$flag)),*];

            /// Whether all of the other's bits are here.
            pub const fn contains(&self, other: $name) -> bool {
                self.0 & other.0 == other.0
            }
        }
    };
}

pub use crate::bitflag_items;
