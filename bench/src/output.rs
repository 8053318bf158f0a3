//! Output that a closed pipe does not end in a panic.

/// A line on standard output; nobody who stopped reading misses it.
#[macro_export]
macro_rules! say {
    ($($x:tt)*) => {{
        use std::io::Write;
        let _ = writeln!(std::io::stdout(), $($x)*);
    }};
}
