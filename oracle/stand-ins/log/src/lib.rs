//! Stand-in for the crate `log`.
#[macro_export]
macro_rules! error {
    ($($text:tt)*) => { eprintln!($($text)*) };
}
