//! Sets of 64-bit numbers, and iterators over them.
use std::fmt;
use std::ptr::null_mut;
use std::sync::OnceLock;

use crate::handles::handles;
use crate::{raw, require};

mod bytes;
mod filling;
mod operators;
mod ranges;
mod walks;

pub use walks::{IntoIter, Iter};

/// A set of `u64`.
///
/// ```
/// let mut set = roaring::RoaringTreemap::new();
/// assert!(set.insert(3) && set.insert(1 << 40) && !set.insert(3));
/// assert_eq!((set.len(), set.min(), set.max()), (2, Some(3), Some(1 << 40)));
/// ```
pub struct RoaringTreemap {
    // Null stands for an empty set, which has not allocated.
    set: *mut raw::Treemap,
}

// The member that a call finds and writes.
#[inline]
fn found(call: impl FnOnce(*mut u64) -> bool) -> Option<u64> {
    let mut member = 0;
    call(&mut member).then_some(member)
}

handles!(RoaringTreemap of Treemap, bit_roaring64_new, bit_roaring64_clone, bit_roaring64_free, bit_roaring64_equals);

impl RoaringTreemap {
    /// Inserts `value`, and returns whether it is new.
    #[inline]
    pub fn insert(&mut self, value: u64) -> bool {
        // SAFETY: the set is borrowed for the call, as in each of the calls below.
        Self::changed(unsafe { raw::bit_roaring64_insert(self.write(), value) })
    }

    /// Removes `value`, and returns whether it was present.
    #[inline]
    pub fn remove(&mut self, value: u64) -> bool {
        !self.set.is_null() && Self::changed(unsafe { raw::bit_roaring64_remove(self.set, value) })
    }

    /// Whether `value` is a member.
    #[inline]
    pub fn contains(&self, value: u64) -> bool {
        !self.set.is_null() && unsafe { raw::bit_roaring64_contains(self.set, value) }
    }

    /// Removes every member, and gives the memory of the bitmaps back.
    pub fn clear(&mut self) {
        if !self.set.is_null() {
            unsafe { raw::bit_roaring64_clear(self.set) }
        }
    }

    /// Whether there is no member.
    #[inline]
    pub fn is_empty(&self) -> bool {
        self.set.is_null() || unsafe { raw::bit_roaring64_is_empty(self.set) }
    }

    /// How many members there are, or `u64::MAX` for the set of all 2^64 numbers. Adds up the counts of the containers.
    pub fn len(&self) -> u64 {
        unsafe { raw::bit_roaring64_len(self.read()) }
    }

    /// The least member.
    pub fn min(&self) -> Option<u64> {
        found(|member| unsafe { raw::bit_roaring64_min(self.read(), member) })
    }

    /// The greatest member.
    pub fn max(&self) -> Option<u64> {
        found(|member| unsafe { raw::bit_roaring64_max(self.read(), member) })
    }

    /// How many members are at most `value`, or `u64::MAX` if all 2^64 numbers are.
    pub fn rank(&self, value: u64) -> u64 {
        unsafe { raw::bit_roaring64_rank(self.read(), value) }
    }

    /// The member with exactly `n` others below it.
    pub fn select(&self, n: u64) -> Option<u64> {
        found(|member| unsafe { raw::bit_roaring64_select(self.read(), n, member) })
    }

    /// Whether no member is in `other`.
    pub fn is_disjoint(&self, other: &Self) -> bool {
        unsafe { raw::bit_roaring64_is_disjoint(self.read(), other.read()) }
    }

    /// Whether every member is in `other`.
    pub fn is_subset(&self, other: &Self) -> bool {
        unsafe { raw::bit_roaring64_is_subset(self.read(), other.read()) }
    }

    /// Whether every member of `other` is in this set.
    pub fn is_superset(&self, other: &Self) -> bool {
        other.is_subset(self)
    }

    /// How many numbers are in either set, or `u64::MAX` if all 2^64 are.
    pub fn union_len(&self, other: &Self) -> u64 {
        unsafe { raw::bit_roaring64_union_len(self.read(), other.read()) }
    }

    /// How many numbers are in both sets, or `u64::MAX` if all 2^64 are.
    pub fn intersection_len(&self, other: &Self) -> u64 {
        unsafe { raw::bit_roaring64_intersection_len(self.read(), other.read()) }
    }

    /// How many members are not in `other`, or `u64::MAX` if all 2^64.
    pub fn difference_len(&self, other: &Self) -> u64 {
        unsafe { raw::bit_roaring64_difference_len(self.read(), other.read()) }
    }

    /// How many numbers are in exactly one of the two sets, or `u64::MAX` if all 2^64 are.
    pub fn symmetric_difference_len(&self, other: &Self) -> u64 {
        unsafe { raw::bit_roaring64_symmetric_difference_len(self.read(), other.read()) }
    }
}
