//! Ranges of numbers. Those of the library lack the greatest number, which is a call of its own.
use crate::numbers::stretch_of;
use crate::{raw, require, RoaringTreemap};
use std::ops::RangeBounds;

// How many numbers there are from the first to the last, as many as `u64` has.
fn saturated(first: u64, last: u64) -> u64 {
    (last - first).saturating_add(1)
}

impl RoaringTreemap {
    /// Creates the set of all numbers. That takes 2^48 containers, for which no memory suffices.
    pub fn full() -> Self {
        let mut set = Self::new();
        set.insert_range(..);
        set
    }

    /// Whether each number is a member.
    pub fn is_full(&self) -> bool {
        self.contains_range(..)
    }

    // Whether a range to this number has the greatest one, and that is a member.
    fn has_greatest(&self, last: u64) -> bool {
        last == u64::MAX && self.contains(last)
    }

    // How many members there are from the first to the last of these numbers, or `u64::MAX` for all 2^64.
    pub(super) fn count_of(&self, first: u64, last: u64) -> u64 {
        // SAFETY: the set is borrowed for the call, as in each of the calls below.
        let counted = unsafe { raw::bit_roaring64_range_cardinality(self.read(), first, last.saturating_add(1)) };
        counted.saturating_add(self.has_greatest(last).into())
    }

    /// Inserts each number of the range, and returns how many are new. It makes a bitmap for each upper half in the
    /// range.
    pub fn insert_range<R: RangeBounds<u64>>(&mut self, range: R) -> u64 {
        let Some((first, last)) = stretch_of(range) else {
            return 0;
        };
        let new = saturated(first, last) - self.count_of(first, last);
        require(unsafe { raw::bit_roaring64_insert_range(self.write(), first, last.saturating_add(1)) });
        if last == u64::MAX {
            self.insert(last);
        }
        new
    }

    /// Removes each number of the range, and returns how many were present.
    pub fn remove_range<R: RangeBounds<u64>>(&mut self, range: R) -> u64 {
        let Some((first, last)) = stretch_of(range) else {
            return 0;
        };
        let present = self.count_of(first, last);
        require(unsafe { raw::bit_roaring64_remove_range(self.write(), first, last.saturating_add(1)) });
        if last == u64::MAX {
            self.remove(last);
        }
        present
    }

    /// Whether each number of the range is a member, which is true of an empty range.
    pub fn contains_range<R: RangeBounds<u64>>(&self, range: R) -> bool {
        stretch_of(range).map_or(true, |(first, last)| {
            (last < u64::MAX || self.contains(last))
                && unsafe { raw::bit_roaring64_contains_range(self.read(), first, last.saturating_add(1)) }
        })
    }

    /// How many numbers of the range are members, or `u64::MAX` if all 2^64 are.
    pub fn range_cardinality<R: RangeBounds<u64>>(&self, range: R) -> u64 {
        stretch_of(range).map_or(0, |(first, last)| self.count_of(first, last))
    }
}
