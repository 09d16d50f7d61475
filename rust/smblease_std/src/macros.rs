/// A `String` of a format, or an `AllocError`.
#[macro_export]
macro_rules! format {
    (in $alloc:expr; $($told:tt)*) => {{
        let mut text = $crate::prelude::String::new($alloc);
        text.write_fmt(format_args!($($told)*)).map(|()| text)
    }};
}

/// A `Vec` of so many times an item, or of these items, or an `AllocError`.
#[macro_export]
macro_rules! vec {
    (in $alloc:expr; $item:expr; $count:expr) => {
        $crate::prelude::Vec::from_elem($alloc, $item, $count)
    };
    (in $alloc:expr; $($item:expr),* $(,)?) => {
        $crate::prelude::Vec::from_array($alloc, [$($item),*])
    };
}

/// Prints on the runtime's standard output.
#[macro_export]
macro_rules! print {
    ($rt:expr; $($told:tt)*) => {
        $crate::prelude::Print::print(&$rt, format_args!($($told)*))
    };
}

/// Prints a line on the runtime's standard output.
#[macro_export]
macro_rules! println {
    ($rt:expr; $($told:tt)*) => {
        $crate::prelude::Print::println(&$rt, format_args!($($told)*))
    };
}
