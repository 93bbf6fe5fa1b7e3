// Stand-in for the crate log, of which lib.rs hands on one macro: it prints nothing.
#![no_std]

#[macro_export]
macro_rules! info {
    ($($word:tt)*) => {};
}
