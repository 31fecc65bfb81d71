//! The ranges that calls accept.
use std::ops::{Range, RangeFrom, RangeFull, RangeTo};

/// `..`, `a..`, `..b` or `a..b`.
pub trait IndexRange<T = usize> {
    /// The start of the range, or `None` if it is unbounded.
    #[inline]
    fn start(&self) -> Option<T> {
        None
    }

    /// The end of the range, or `None` if it is unbounded.
    #[inline]
    fn end(&self) -> Option<T> {
        None
    }
}

impl<T> IndexRange<T> for RangeFull {}

impl<T: Copy> IndexRange<T> for RangeFrom<T> {
    #[inline]
    fn start(&self) -> Option<T> {
        Some(self.start)
    }
}

impl<T: Copy> IndexRange<T> for RangeTo<T> {
    #[inline]
    fn end(&self) -> Option<T> {
        Some(self.end)
    }
}

impl<T: Copy> IndexRange<T> for Range<T> {
    #[inline]
    fn start(&self) -> Option<T> {
        Some(self.start)
    }

    #[inline]
    fn end(&self) -> Option<T> {
        Some(self.end)
    }
}
