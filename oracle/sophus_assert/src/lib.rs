//! A stand-in for sophus_assert: the macros that the compiled files name.
#[macro_export]
macro_rules! debug_assert_le {
    ($a:expr, $b:expr) => {
        debug_assert!($a <= $b)
    };
}

#[macro_export]
macro_rules! assert_le {
    ($a:expr, $b:expr) => {
        assert!($a <= $b)
    };
}

#[macro_export]
macro_rules! assert_gt {
    ($a:expr, $b:expr) => {
        assert!($a > $b)
    };
}
