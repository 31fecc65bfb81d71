//! Sets of 32-bit numbers, and of 64-bit numbers, that stay small if their members are few and far apart: the API of
//! `RoaringBitmap` and `RoaringTreemap` of the crate `roaring` 0.10, over a C library whose every call is proved.
//!
//! Left out are of `RoaringTreemap` `bitmaps`, and the features `serde` and `simd`.
//! `try_push` is that of 0.11. If memory runs out, a call ends the process, like those of `Vec`.
//!
//! ```
//! let mut set = roaring::RoaringBitmap::new();
//! assert!(set.insert(3));
//! set.insert_range(1_000_000..2_000_000);
//! assert!(set.remove(1_500_000));
//! assert_eq!((set.len(), set.min(), set.max()), (1_000_000, Some(3), Some(1_999_999)));
//! ```
#![deny(unsafe_op_in_unsafe_fn)]

use std::fmt;
use std::ops::RangeBounds;
use std::ptr::null_mut;
use std::sync::OnceLock;

use bit_set_sys::roaring as raw;
use handles::handles;
use numbers::stretch_of;

mod bytes;
mod filling;
mod handles;
mod multi;
mod numbers;
mod operators;
mod statistics;
pub mod treemap;
mod walks;

pub use filling::{IntegerTooSmall, NonSortedIntegers};
pub use multi::MultiOps;
pub use statistics::Statistics;
pub use treemap::RoaringTreemap;
pub use walks::{IntoIter, Iter};

/// One above the greatest number that may be a member.
const PAST: u64 = 1 << 32;

/// A set of `u32`.
pub struct RoaringBitmap {
    // Null stands for an empty set, which has not allocated.
    set: *mut raw::Bitmap,
}

// Ends the process if a call ran out of memory.
#[inline]
fn require(done: bool) {
    if !done {
        out_of_memory();
    }
}

// No call reports how much it requested.
#[cold]
#[inline(never)]
fn out_of_memory() -> ! {
    std::alloc::handle_alloc_error(std::alloc::Layout::new::<u64>())
}

// The member that a search found.
#[inline]
fn found(member: u64) -> Option<u32> {
    u32::try_from(member).ok()
}

// The first number of a range, and the one past its last.
#[inline]
fn ends(range: impl RangeBounds<u32>) -> (u64, u64) {
    stretch_of(range).map_or((0, 0), |(first, last)| (first.into(), u64::from(last) + 1))
}

handles!(RoaringBitmap of Bitmap, bit_roaring_new, bit_roaring_clone, bit_roaring_free, bit_roaring_equals);

impl RoaringBitmap {
    /// Creates the set of all numbers, which is one run for each 65,536.
    pub fn full() -> Self {
        let mut set = Self::new();
        set.insert_range(..);
        set
    }

    // The result of a call that returns how many numbers it changed.
    fn counted(answer: i64) -> u64 {
        u64::try_from(answer).unwrap_or_else(|_| out_of_memory())
    }

    /// Inserts `value`, and returns whether it is new.
    #[inline]
    pub fn insert(&mut self, value: u32) -> bool {
        // SAFETY: the set is borrowed for the call, as in each of the calls below.
        Self::changed(unsafe { raw::bit_roaring_insert(self.write(), value) })
    }

    /// Inserts each number of the range, and returns how many are new.
    pub fn insert_range<R: RangeBounds<u32>>(&mut self, range: R) -> u64 {
        let (start, end) = ends(range);
        Self::counted(unsafe { raw::bit_roaring_insert_range(self.write(), start, end) })
    }

    /// Removes `value`, and returns whether it was present.
    #[inline]
    pub fn remove(&mut self, value: u32) -> bool {
        !self.set.is_null() && Self::changed(unsafe { raw::bit_roaring_remove(self.set, value) })
    }

    /// Removes each number of the range, and returns how many were present.
    pub fn remove_range<R: RangeBounds<u32>>(&mut self, range: R) -> u64 {
        let (start, end) = ends(range);
        self.remove_between(start, end)
    }

    fn remove_between(&mut self, start: u64, end: u64) -> u64 {
        if self.set.is_null() {
            return 0;
        }
        Self::counted(unsafe { raw::bit_roaring_remove_range(self.set, start, end) })
    }

    /// Removes the `n` least members, or all if there are no more.
    pub fn remove_smallest(&mut self, n: u64) {
        match u32::try_from(n).ok().and_then(|n| self.select(n)) {
            Some(least) => {
                self.remove_between(0, least.into());
            }
            None => self.clear(),
        }
    }

    /// Removes the `n` greatest members, or all if there are no more.
    pub fn remove_biggest(&mut self, n: u64) {
        let left = self.len().saturating_sub(n);
        // All of 2^32 members stay where no member has as many below it.
        if let Some(least) = u32::try_from(left).ok().and_then(|left| self.select(left)) {
            self.remove_between(least.into(), PAST);
        }
    }

    /// Whether `value` is a member.
    #[inline]
    pub fn contains(&self, value: u32) -> bool {
        !self.set.is_null() && unsafe { raw::bit_roaring_contains(self.set, value) }
    }

    /// Whether each number of the range is a member, which is true of an empty range.
    pub fn contains_range<R: RangeBounds<u32>>(&self, range: R) -> bool {
        let (start, end) = ends(range);
        unsafe { raw::bit_roaring_contains_range(self.read(), start, end) }
    }

    /// How many numbers of the range are members.
    pub fn range_cardinality<R: RangeBounds<u32>>(&self, range: R) -> u64 {
        let (start, end) = ends(range);
        unsafe { raw::bit_roaring_range_cardinality(self.read(), start, end) }
    }

    /// Removes every member, and gives the memory of the containers back.
    pub fn clear(&mut self) {
        if !self.set.is_null() {
            unsafe { raw::bit_roaring_clear(self.set) }
        }
    }

    /// Whether there is no member.
    #[inline]
    pub fn is_empty(&self) -> bool {
        self.set.is_null() || unsafe { raw::bit_roaring_is_empty(self.set) }
    }

    /// Whether each number is a member.
    pub fn is_full(&self) -> bool {
        self.len() == PAST
    }

    /// How many members there are. Adds up the counts of the containers.
    pub fn len(&self) -> u64 {
        unsafe { raw::bit_roaring_len(self.read()) }
    }

    /// The least member.
    pub fn min(&self) -> Option<u32> {
        found(unsafe { raw::bit_roaring_min(self.read()) })
    }

    /// The greatest member.
    pub fn max(&self) -> Option<u32> {
        found(unsafe { raw::bit_roaring_max(self.read()) })
    }

    /// How many members are at most `value`.
    pub fn rank(&self, value: u32) -> u64 {
        unsafe { raw::bit_roaring_rank(self.read(), value) }
    }

    /// The member with exactly `n` others below it.
    pub fn select(&self, n: u32) -> Option<u32> {
        found(unsafe { raw::bit_roaring_select(self.read(), n) })
    }

    /// Whether no member is in `other`.
    pub fn is_disjoint(&self, other: &Self) -> bool {
        unsafe { raw::bit_roaring_is_disjoint(self.read(), other.read()) }
    }

    /// Whether every member is in `other`.
    pub fn is_subset(&self, other: &Self) -> bool {
        unsafe { raw::bit_roaring_is_subset(self.read(), other.read()) }
    }

    /// Whether every member of `other` is in this set.
    pub fn is_superset(&self, other: &Self) -> bool {
        other.is_subset(self)
    }

    /// How many numbers are in either set.
    pub fn union_len(&self, other: &Self) -> u64 {
        unsafe { raw::bit_roaring_union_len(self.read(), other.read()) }
    }

    /// How many numbers are in both sets.
    pub fn intersection_len(&self, other: &Self) -> u64 {
        unsafe { raw::bit_roaring_intersection_len(self.read(), other.read()) }
    }

    /// How many members are not in `other`.
    pub fn difference_len(&self, other: &Self) -> u64 {
        unsafe { raw::bit_roaring_difference_len(self.read(), other.read()) }
    }

    /// How many numbers are in exactly one of the two sets.
    pub fn symmetric_difference_len(&self, other: &Self) -> u64 {
        unsafe { raw::bit_roaring_symmetric_difference_len(self.read(), other.read()) }
    }

    /// Converts each container to the form with the fewest bytes, and returns whether one changed.
    pub fn optimize(&mut self) -> bool {
        !self.set.is_null() && Self::changed(unsafe { raw::bit_roaring_optimize(self.set) })
    }

    /// Converts each container of runs to a list or blocks, and returns whether there was one.
    pub fn remove_run_compression(&mut self) -> bool {
        !self.set.is_null() && Self::changed(unsafe { raw::bit_roaring_remove_runs(self.set) })
    }
}
