//! The sets of the peers of `sparse`, under one trait.
use crate::croaring::{Calls, Merge, Set};
use crate::peers::Flow;
use fixedbitset::FixedBitSet;
use std::collections::BTreeSet;
use std::ffi::c_void;
use std::sync::OnceLock;

/// A set of numbers. For a call that a peer lacks, its method is what its user would write.
pub trait Peer: Clone + PartialEq {
    /// The set of ascending numbers below `len`.
    fn of(len: usize, numbers: &[usize]) -> Self;
    fn merge(&mut self, merge: Merge, other: &Self);
    fn count_merged(&self, merge: Merge, other: &Self) -> usize;
    fn clear(&mut self);
    fn count(&self) -> usize;
    /// The sum of the members, by iteration.
    fn sum(&self) -> usize;
}

/// The size of a merge, from the sizes of both sets and of their intersection.
fn of_counts(merge: Merge, one: usize, two: usize, both: usize) -> usize {
    match merge {
        Merge::Union => one + two - both,
        Merge::Intersection => both,
        Merge::Difference => one - both,
        Merge::Symmetric => one + two - 2 * both,
    }
}

static CROARING: OnceLock<Calls> = OnceLock::new();

/// Opens CRoaring at the path in the environment. Returns whether it is there.
pub fn open_croaring() -> bool {
    let found = std::env::var("CROARING").ok().and_then(|path| Calls::open(&path));
    found.is_some_and(|calls| CROARING.set(calls).is_ok())
}

#[derive(Clone, PartialEq)]
pub struct Roaring(Set<'static>);

impl Peer for Roaring {
    fn of(_len: usize, numbers: &[usize]) -> Self {
        let mut set = Set::new(CROARING.get().expect("CRoaring is opened first"));
        for number in numbers {
            set.insert(*number as u32);
        }
        set.optimize();
        Roaring(set)
    }

    fn merge(&mut self, merge: Merge, other: &Self) {
        self.0.merge(merge, &other.0);
    }

    fn count_merged(&self, merge: Merge, other: &Self) -> usize {
        self.0.merged_len(merge, &other.0) as usize
    }

    fn clear(&mut self) {
        self.0.clear();
    }

    fn count(&self) -> usize {
        self.0.len() as usize
    }

    fn sum(&self) -> usize {
        self.0.sum()
    }
}

unsafe extern "C" {
    fn sparse_bits_new() -> *mut c_void;
    fn sparse_bits_copy(set: *const c_void) -> *mut c_void;
    fn sparse_bits_free(set: *mut c_void);
    fn sparse_bits_insert(set: *mut c_void, number: u32);
    fn sparse_bits_union(set: *mut c_void, other: *const c_void);
    fn sparse_bits_intersection(set: *mut c_void, other: *const c_void);
    fn sparse_bits_difference(set: *mut c_void, other: *const c_void);
    fn sparse_bits_equal(set: *const c_void, other: *const c_void) -> bool;
    fn sparse_bits_clear(set: *mut c_void);
    fn sparse_bits_count(set: *const c_void) -> usize;
    fn sparse_bits_sum(set: *const c_void) -> usize;
    fn sparse_bits_count_of_both(set: *const c_void, other: *const c_void) -> usize;
    fn sparse_bits_count_of_rest(set: *const c_void, other: *const c_void) -> usize;
}

/// LLVM's `SparseBitVector`.
pub struct SparseBits(*mut c_void);

impl Drop for SparseBits {
    fn drop(&mut self) {
        unsafe { sparse_bits_free(self.0) };
    }
}

impl Clone for SparseBits {
    fn clone(&self) -> Self {
        SparseBits(unsafe { sparse_bits_copy(self.0) })
    }
}

impl PartialEq for SparseBits {
    fn eq(&self, other: &Self) -> bool {
        unsafe { sparse_bits_equal(self.0, other.0) }
    }
}

impl Peer for SparseBits {
    fn of(_len: usize, numbers: &[usize]) -> Self {
        let set = unsafe { sparse_bits_new() };
        numbers.iter().for_each(|number| unsafe { sparse_bits_insert(set, *number as u32) });
        SparseBits(set)
    }

    fn merge(&mut self, merge: Merge, other: &Self) {
        match merge {
            Merge::Union => unsafe { sparse_bits_union(self.0, other.0) },
            Merge::Intersection => unsafe { sparse_bits_intersection(self.0, other.0) },
            Merge::Difference => unsafe { sparse_bits_difference(self.0, other.0) },
            Merge::Symmetric => unreachable!("no row merges sets so"),
        }
    }

    fn count_merged(&self, merge: Merge, other: &Self) -> usize {
        match merge {
            Merge::Difference => unsafe { sparse_bits_count_of_rest(self.0, other.0) },
            _ => {
                let both = unsafe { sparse_bits_count_of_both(self.0, other.0) };
                let counts = if merge == Merge::Intersection { (0, 0) } else { (Peer::count(self), Peer::count(other)) };
                of_counts(merge, counts.0, counts.1, both)
            }
        }
    }

    fn clear(&mut self) {
        unsafe { sparse_bits_clear(self.0) };
    }

    fn count(&self) -> usize {
        unsafe { sparse_bits_count(self.0) }
    }

    fn sum(&self) -> usize {
        unsafe { sparse_bits_sum(self.0) }
    }
}

impl Flow for SparseBits {
    fn of(len: usize, numbers: &[usize]) -> Self {
        let mut ascending = numbers.to_vec();
        ascending.sort_unstable();
        <Self as Peer>::of(len, &ascending)
    }

    fn clear(&mut self) {
        Peer::clear(self);
    }

    fn count(&self) -> usize {
        Peer::count(self)
    }

    fn union_with(&mut self, other: &Self) {
        self.merge(Merge::Union, other);
    }

    fn difference_with(&mut self, other: &Self) {
        self.merge(Merge::Difference, other);
    }
}

impl Peer for FixedBitSet {
    fn of(len: usize, numbers: &[usize]) -> Self {
        let mut set = FixedBitSet::with_capacity(len);
        numbers.iter().for_each(|number| set.insert(*number));
        set
    }

    fn merge(&mut self, merge: Merge, other: &Self) {
        match merge {
            Merge::Union => self.union_with(other),
            Merge::Intersection => self.intersect_with(other),
            Merge::Difference => self.difference_with(other),
            Merge::Symmetric => self.symmetric_difference_with(other),
        }
    }

    /// Block by block: both sets have the same length.
    fn count_merged(&self, merge: Merge, other: &Self) -> usize {
        let blocks = self.as_slice().iter().zip(other.as_slice());
        let ones = |block: u32| block.count_ones() as usize;
        match merge {
            Merge::Union => blocks.map(|(one, two)| ones(one | two)).sum(),
            Merge::Intersection => blocks.map(|(one, two)| ones(one & two)).sum(),
            Merge::Difference => blocks.map(|(one, two)| ones(one & !two)).sum(),
            Merge::Symmetric => blocks.map(|(one, two)| ones(one ^ two)).sum(),
        }
    }

    fn clear(&mut self) {
        FixedBitSet::clear(self);
    }

    fn count(&self) -> usize {
        self.count_ones(..)
    }

    fn sum(&self) -> usize {
        crate::peers::sum(self.ones())
    }
}

impl Peer for BTreeSet<usize> {
    fn of(_len: usize, numbers: &[usize]) -> Self {
        numbers.iter().copied().collect()
    }

    fn merge(&mut self, merge: Merge, other: &Self) {
        match merge {
            Merge::Union => self.extend(other),
            Merge::Intersection => self.retain(|number| other.contains(number)),
            Merge::Difference => other.iter().for_each(|number| {
                self.remove(number);
            }),
            Merge::Symmetric => *self = &*self ^ other,
        }
    }

    fn count_merged(&self, merge: Merge, other: &Self) -> usize {
        of_counts(merge, self.len(), other.len(), self.intersection(other).count())
    }

    fn clear(&mut self) {
        BTreeSet::clear(self);
    }

    fn count(&self) -> usize {
        self.len()
    }

    fn sum(&self) -> usize {
        crate::peers::sum(self.iter().copied())
    }
}
