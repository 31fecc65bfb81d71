//! What numbers of 32 and of 64 bits share, and the numbers of a range by its first and its last.
use std::ops::{Bound, RangeBounds};

// A number that may be a member.
pub trait Number: Copy + Default + Ord {
    const LEAST: Self;
    const GREATEST: Self;

    // The number above this one, and the one below it.
    fn above(self) -> Option<Self>;
    fn below(self) -> Option<Self>;
}

macro_rules! numbers {
    ($($number:ty)*) => {
        $(
            impl Number for $number {
                const LEAST: Self = <$number>::MIN;
                const GREATEST: Self = <$number>::MAX;

                fn above(self) -> Option<Self> {
                    self.checked_add(1)
                }

                fn below(self) -> Option<Self> {
                    self.checked_sub(1)
                }
            }
        )*
    };
}

numbers!(u32 u64);

// The numbers from the first to the last, if there are any.
pub(crate) fn stretch<N: Number>(first: Option<N>, last: Option<N>) -> Option<(N, N)> {
    first.zip(last).filter(|(first, last)| first <= last)
}

// The first and the last number of a range, if it has any.
#[inline]
pub(crate) fn stretch_of<N: Number>(range: impl RangeBounds<N>) -> Option<(N, N)> {
    let first = match range.start_bound() {
        Bound::Included(&first) => Some(first),
        Bound::Excluded(&before) => before.above(),
        Bound::Unbounded => Some(N::LEAST),
    };
    let last = match range.end_bound() {
        Bound::Included(&last) => Some(last),
        Bound::Excluded(&past) => past.below(),
        Bound::Unbounded => Some(N::GREATEST),
    };
    stretch(first, last)
}
