//! Stand-in for the crate of this name: its arguments are looked at by the compiler and dropped.

#[macro_export]
macro_rules! error {
    ($($argument:tt)*) => {{
        let _ = format_args!($($argument)*);
    }};
}

#[macro_export]
macro_rules! warn {
    ($($argument:tt)*) => {{
        let _ = format_args!($($argument)*);
    }};
}
