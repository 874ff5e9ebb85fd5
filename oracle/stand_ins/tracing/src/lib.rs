//! Stands in for the crate `tracing`: events whose arguments are checked and never written.

#[macro_export]
macro_rules! event {
    ($field:ident = ?$value:expr, $($message:tt)+) => {
        { let _ = (&$value, ::core::format_args!($($message)+)); }
    };
    ($($message:tt)+) => {
        { let _ = ::core::format_args!($($message)+); }
    };
}

pub use event as debug;
pub use event as trace;
pub use event as warn;
