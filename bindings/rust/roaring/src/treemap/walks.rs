//! Iterators over a set, from both ends. They copy some members at a time, as those over a `RoaringBitmap` do.
use crate::numbers::stretch_of;
use crate::walks::{iterators, Members, Walk};
use crate::{raw, RoaringTreemap};
use std::ops::RangeBounds;

iterators!(RoaringTreemap of u64);

impl Members for RoaringTreemap {
    type Number = u64;

    fn copy_up(&self, first: u64, members: *mut u64, room: usize) -> usize {
        // SAFETY: the set and the places are borrowed for the call, as in the next.
        unsafe { raw::bit_roaring64_copy_members(self.read(), first, members, room) }
    }

    fn copy_down(&self, last: u64, members: *mut u64, room: usize) -> usize {
        unsafe { raw::bit_roaring64_copy_members_back(self.read(), last, members, room) }
    }

    fn count_between(&self, first: u64, last: u64) -> u64 {
        self.count_of(first, last)
    }
}
