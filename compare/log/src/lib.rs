//! The macros of the `log` crate as they behave without a logger: they check the types of their
//! arguments and evaluate nothing.

#[macro_export]
macro_rules! error {
    ($($argument:tt)*) => {
        if false {
            let _ = ::std::format_args!($($argument)*);
        }
    };
}

#[macro_export]
macro_rules! warn {
    ($($argument:tt)*) => { $crate::error!($($argument)*) };
}

#[macro_export]
macro_rules! info {
    ($($argument:tt)*) => { $crate::error!($($argument)*) };
}

#[macro_export]
macro_rules! debug {
    ($($argument:tt)*) => { $crate::error!($($argument)*) };
}

#[macro_export]
macro_rules! trace {
    ($($argument:tt)*) => { $crate::error!($($argument)*) };
}
