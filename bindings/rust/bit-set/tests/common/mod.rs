//! What tests share: pseudorandom numbers, and tests over both block widths.
mod draws;

pub use draws::Draws;

/// Runs a test over blocks of 32 bits and of 64.
macro_rules! over_both_widths {
    ($test:ident, $calls:ident) => {
        #[test]
        fn $test() {
            $calls::<u32>();
            $calls::<u64>();
        }
    };
}
pub(crate) use over_both_widths;
