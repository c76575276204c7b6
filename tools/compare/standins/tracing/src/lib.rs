//! Stand-in for `tracing`: the two macros the session uses, doing nothing.

/// Drops a debug record.
#[macro_export]
macro_rules! debug {
    ($($token:tt)*) => {};
}

/// Drops a warning record.
#[macro_export]
macro_rules! warn {
    ($($token:tt)*) => {};
}
