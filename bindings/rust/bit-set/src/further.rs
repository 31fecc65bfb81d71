//! The calls that the crate `bit-set` lacks.
use crate::{require, BitBlock, BitSet};
use bit_set_sys as raw;
use std::ops::Range;

impl BitSet<u32> {
    /// Creates the set of the bits that are 1, with the bits of each byte counted from the lowest.
    pub fn from_bytes_lsb(bytes: &[u8]) -> Self {
        Self::from_bytes_lsb_general(bytes)
    }
}

// SAFETY: in each call the sets are borrowed for its duration, and a set that it writes is not another of its
// arguments.
impl<B: BitBlock> BitSet<B> {
    /// Removes `value` if it is present, and inserts it if not. Returns whether it is present now.
    ///
    /// # Panics
    ///
    /// If `value` is `usize::MAX`, which is not an element.
    pub fn toggle(&mut self, value: usize) -> bool {
        Self::changed(unsafe { B::toggle(self.write(), value) })
    }

    /// Inserts `value` if `bit` is true, and removes it if not. Returns whether that changed the set.
    ///
    /// # Panics
    ///
    /// If `bit` is true and `value` is `usize::MAX`, which is not an element.
    pub fn set(&mut self, value: usize, bit: bool) -> bool {
        if bit {
            return self.insert(value);
        }
        self.remove(value)
    }

    /// The least element.
    pub fn first(&self) -> Option<usize> {
        Self::found(unsafe { B::first(self.read()) })
    }

    /// The greatest element.
    pub fn last(&self) -> Option<usize> {
        Self::found(unsafe { B::last(self.read()) })
    }

    /// Removes the least element and returns it.
    pub fn pop_first(&mut self) -> Option<usize> {
        if self.set.is_null() {
            return None;
        }
        Self::found(unsafe { B::pop_first(self.set) })
    }

    /// Removes the greatest element and returns it.
    pub fn pop_last(&mut self) -> Option<usize> {
        if self.set.is_null() {
            return None;
        }
        Self::found(unsafe { B::pop_last(self.set) })
    }

    /// The least element at or above `from`.
    pub fn next(&self, from: usize) -> Option<usize> {
        Self::found(unsafe { B::next(self.read(), from) })
    }

    /// The greatest element below `end`.
    pub fn previous(&self, end: usize) -> Option<usize> {
        Self::found(unsafe { B::previous(self.read(), end) })
    }

    /// The least absent number at or above `from`.
    pub fn next_missing(&self, from: usize) -> usize {
        unsafe { B::next_missing(self.read(), from) }
    }

    /// The element that exactly `n` others precede, found by counting blocks.
    pub fn nth(&self, n: usize) -> Option<usize> {
        Self::found(unsafe { B::nth(self.read(), 0, n) })
    }

    /// The first run of elements at or above `from`: the longest range of numbers that are all elements.
    pub fn next_run(&self, from: usize) -> Option<Range<usize>> {
        let (mut start, mut end) = (0, 0);
        unsafe { B::next_run(self.read(), from, &mut start, &mut end) }.then_some(start..end)
    }

    /// The least number at or above `from` at which `count` absent numbers in a row begin.
    pub fn first_gap(&self, from: usize, count: usize) -> Option<usize> {
        let mut gap = 0;
        unsafe { B::first_gap(self.read(), from, count, &mut gap) }.then_some(gap)
    }

    /// A set of the elements of the range.
    pub fn copy_range(&self, range: Range<usize>) -> Self {
        Self::made(|out| unsafe { B::copy_range(out, self.read(), range.start, range.end) })
    }

    /// Moves each element up by `distance`.
    ///
    /// # Panics
    ///
    /// If an element would become `usize::MAX` or more.
    pub fn shift_up(&mut self, distance: usize) {
        Self::changed(unsafe { B::shift_up(self.write(), distance) });
    }

    /// Moves each element down by `distance`, and removes those below it.
    pub fn shift_down(&mut self, distance: usize) {
        if !self.set.is_null() {
            unsafe { B::shift_down(self.set, distance) }
        }
    }

    /// Whether every element is in `other`, which has at least one more.
    pub fn is_proper_subset(&self, other: &Self) -> bool {
        unsafe { B::is_proper_subset(self.read(), other.read()) }
    }

    /// Whether the elements in the range are the same as those of `other`.
    pub fn same_in_range(&self, other: &Self, range: Range<usize>) -> bool {
        unsafe { B::same_in_range(self.read(), other.read(), range.start, range.end) }
    }

    /// Inserts each number of the range, which is empty if its end is not above its start.
    pub fn insert_range(&mut self, range: Range<usize>) {
        require(unsafe { B::insert_range(self.write(), range.start, range.end) });
    }

    /// Removes each number of the range that is present, and inserts the others.
    pub fn toggle_range(&mut self, range: Range<usize>) {
        require(unsafe { B::toggle_range(self.write(), range.start, range.end) });
    }

    /// Removes each number of the range.
    pub fn remove_range(&mut self, range: Range<usize>) {
        if !self.set.is_null() {
            unsafe { B::remove_range(self.set, range.start, range.end) }
        }
    }

    /// Whether every number of the range is an element, which is true of an empty range.
    pub fn contains_all_in_range(&self, range: Range<usize>) -> bool {
        unsafe { B::contains_all_in_range(self.read(), range.start, range.end) }
    }

    /// Whether any number of the range is an element.
    pub fn contains_any_in_range(&self, range: Range<usize>) -> bool {
        unsafe { B::contains_any_in_range(self.read(), range.start, range.end) }
    }

    /// How many numbers of the range are elements.
    pub fn count_in_range(&self, range: Range<usize>) -> usize {
        unsafe { B::count_in_range(self.read(), range.start, range.end) }
    }

    /// Inserts the elements of `other`, and returns whether that changed the set.
    pub fn union_changes(&mut self, other: &Self) -> bool {
        Self::changed(unsafe { B::union_changes(self.write(), other.read()) })
    }

    /// Keeps only the elements that are in `other` too, and returns whether that changed the set.
    pub fn intersection_changes(&mut self, other: &Self) -> bool {
        Self::changed(unsafe { B::intersection_changes(self.write(), other.read()) })
    }

    /// Removes the elements of `other`, and returns whether that changed the set.
    pub fn difference_changes(&mut self, other: &Self) -> bool {
        Self::changed(unsafe { B::difference_changes(self.write(), other.read()) })
    }

    /// Keeps what is in exactly one of the two sets, and returns whether that changed the set.
    pub fn symmetric_difference_changes(&mut self, other: &Self) -> bool {
        Self::changed(unsafe { B::symmetric_difference_changes(self.write(), other.read()) })
    }

    /// Inserts the elements of `other` that are not in `except`, and returns whether that changed the set.
    pub fn union_with_difference(&mut self, other: &Self, except: &Self) -> bool {
        Self::changed(unsafe { B::union_with_difference(self.write(), other.read(), except.read()) })
    }

    /// Inserts what `other` and `also` have in common, and returns whether that changed the set.
    pub fn union_with_intersection(&mut self, other: &Self, also: &Self) -> bool {
        Self::changed(unsafe { B::union_with_intersection(self.write(), other.read(), also.read()) })
    }

    /// Sets the elements to those of `other` that are not in `except`, and returns whether that changed the set.
    pub fn copy_difference(&mut self, other: &Self, except: &Self) -> bool {
        Self::changed(unsafe { B::become_difference(self.write(), other.read(), except.read()) })
    }

    /// How many elements [`union`](Self::union) yields.
    pub fn union_count(&self, other: &Self) -> usize {
        unsafe { B::union_count(self.read(), other.read()) }
    }

    /// How many elements [`intersection`](Self::intersection) yields.
    pub fn intersection_count(&self, other: &Self) -> usize {
        unsafe { B::intersection_count(self.read(), other.read()) }
    }

    /// How many elements [`difference`](Self::difference) yields.
    pub fn difference_count(&self, other: &Self) -> usize {
        unsafe { B::difference_count(self.read(), other.read()) }
    }

    /// How many elements [`symmetric_difference`](Self::symmetric_difference) yields.
    pub fn symmetric_difference_count(&self, other: &Self) -> usize {
        unsafe { B::symmetric_difference_count(self.read(), other.read()) }
    }

    /// Creates the set of the bits that are 1, with the bits of each byte counted from the lowest.
    pub fn from_bytes_lsb_general(bytes: &[u8]) -> Self {
        Self::made(|out| unsafe { B::from_bytes_lsb(out, bytes.as_ptr(), bytes.len()) })
    }

    /// The bits up to the length as bytes, highest bit first, as `from_bytes` reads them.
    pub fn to_bytes(&self) -> Vec<u8> {
        self.bytes(B::copy_bytes)
    }

    /// The bits up to the length as bytes, lowest bit first, as `from_bytes_lsb` reads them.
    pub fn to_bytes_lsb(&self) -> Vec<u8> {
        self.bytes(B::copy_bytes_lsb)
    }

    // All bytes that a call copies.
    fn bytes(&self, call: unsafe fn(*const raw::Set, usize, *mut u8, usize) -> usize) -> Vec<u8> {
        let count = self.bit_length() / 8 + usize::from(self.bit_length() % 8 != 0);
        let mut bytes = vec![0; count];
        unsafe { call(self.read(), 0, bytes.as_mut_ptr(), count) };
        bytes
    }

    // The result of a search.
    fn found(element: usize) -> Option<usize> {
        (element != usize::MAX).then_some(element)
    }
}
