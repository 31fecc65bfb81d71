//! The sets of both peers under one trait, so that each row's loop is written once.
use bit_set::BitSet;
use bit_vec::BitBlock;
use fixedbitset::FixedBitSet;

/// A set of numbers. Each method is the peer's own call of that name, unless its comment says otherwise.
pub trait Set: Clone + Ord {
    /// An empty set of length `len`, with capacity for the numbers below that.
    fn for_numbers_below(len: usize) -> Self;
    /// Whether the number is new.
    fn insert(&mut self, number: usize) -> bool;
    /// Whether the number was present. `FixedBitSet` reads and writes it by two calls.
    fn remove(&mut self, number: usize) -> bool;
    /// Removes the number, without testing whether it was present.
    fn drop_number(&mut self, number: usize);
    fn contains(&self, number: usize) -> bool;
    fn clear(&mut self);
    fn count(&self) -> usize;
    fn walk(&self) -> impl Iterator<Item = usize>;
    fn union_with(&mut self, other: &Self);
    fn intersect_with(&mut self, other: &Self);
    fn difference_with(&mut self, other: &Self);
    fn symmetric_difference_with(&mut self, other: &Self);
    fn is_disjoint(&self, other: &Self) -> bool;
    fn is_subset(&self, other: &Self) -> bool;

    /// The union in place, and whether it changed the set. Neither peer has such a call: it tests first. The three
    /// below are like it.
    #[inline]
    fn union_changes(&mut self, other: &Self) -> bool {
        let changes = !other.is_subset(self);
        if changes {
            self.union_with(other);
        }
        changes
    }

    #[inline]
    fn intersection_changes(&mut self, other: &Self) -> bool {
        let changes = !self.is_subset(other);
        if changes {
            self.intersect_with(other);
        }
        changes
    }

    #[inline]
    fn difference_changes(&mut self, other: &Self) -> bool {
        let changes = !self.is_disjoint(other);
        if changes {
            self.difference_with(other);
        }
        changes
    }

    #[inline]
    fn symmetric_difference_changes(&mut self, other: &Self) -> bool {
        let changes = other.walk().next().is_some();
        if changes {
            self.symmetric_difference_with(other);
        }
        changes
    }

    /// The set of the numbers, of length `len`, which is above each of them.
    fn of(len: usize, numbers: &[usize]) -> Self {
        let mut set = Self::for_numbers_below(len);
        for number in numbers {
            set.insert(*number);
        }
        set
    }
}

/// What the solution of data-flow equations needs of a set.
pub trait Flow: Clone + PartialEq {
    fn of(len: usize, numbers: &[usize]) -> Self;
    fn clear(&mut self);
    fn count(&self) -> usize;
    fn union_with(&mut self, other: &Self);
    fn difference_with(&mut self, other: &Self);
}

impl<S: Set> Flow for S {
    fn of(len: usize, numbers: &[usize]) -> Self {
        <S as Set>::of(len, numbers)
    }

    fn clear(&mut self) {
        <S as Set>::clear(self);
    }

    fn count(&self) -> usize {
        <S as Set>::count(self)
    }

    fn union_with(&mut self, other: &Self) {
        <S as Set>::union_with(self, other);
    }

    fn difference_with(&mut self, other: &Self) {
        <S as Set>::difference_with(self, other);
    }
}

/// Writes the methods that both peers have under the same name.
macro_rules! methods_of_both {
    ($set:ty) => {
        #[inline]
        fn contains(&self, number: usize) -> bool {
            <$set>::contains(self, number)
        }

        #[inline]
        fn clear(&mut self) {
            <$set>::clear(self);
        }

        #[inline]
        fn union_with(&mut self, other: &Self) {
            <$set>::union_with(self, other);
        }

        #[inline]
        fn intersect_with(&mut self, other: &Self) {
            <$set>::intersect_with(self, other);
        }

        #[inline]
        fn difference_with(&mut self, other: &Self) {
            <$set>::difference_with(self, other);
        }

        #[inline]
        fn symmetric_difference_with(&mut self, other: &Self) {
            <$set>::symmetric_difference_with(self, other);
        }

        #[inline]
        fn is_disjoint(&self, other: &Self) -> bool {
            <$set>::is_disjoint(self, other)
        }

        #[inline]
        fn is_subset(&self, other: &Self) -> bool {
            <$set>::is_subset(self, other)
        }
    };
}

impl<B: BitBlock> Set for BitSet<B> {
    methods_of_both!(BitSet<B>);

    // Its `with_capacity` makes only sets over blocks of 32 bits.
    #[inline]
    fn for_numbers_below(len: usize) -> Self {
        let mut set = BitSet::default();
        if len > 0 {
            set.insert(len - 1);
            set.remove(len - 1);
        }
        set
    }

    #[inline]
    fn insert(&mut self, number: usize) -> bool {
        BitSet::insert(self, number)
    }

    #[inline]
    fn remove(&mut self, number: usize) -> bool {
        BitSet::remove(self, number)
    }

    #[inline]
    fn drop_number(&mut self, number: usize) {
        BitSet::remove(self, number);
    }

    #[inline]
    fn count(&self) -> usize {
        self.len()
    }

    #[inline]
    fn walk(&self) -> impl Iterator<Item = usize> {
        self.iter()
    }
}

impl Set for FixedBitSet {
    methods_of_both!(FixedBitSet);

    #[inline]
    fn for_numbers_below(len: usize) -> Self {
        FixedBitSet::with_capacity(len)
    }

    #[inline]
    fn insert(&mut self, number: usize) -> bool {
        !self.put(number)
    }

    #[inline]
    fn remove(&mut self, number: usize) -> bool {
        let was = FixedBitSet::contains(self, number);
        self.set(number, false);
        was
    }

    #[inline]
    fn drop_number(&mut self, number: usize) {
        self.set(number, false);
    }

    #[inline]
    fn count(&self) -> usize {
        self.count_ones(..)
    }

    #[inline]
    fn walk(&self) -> impl Iterator<Item = usize> {
        self.ones()
    }
}

/// Adds up the result of each turn, in a plain loop.
#[inline(always)]
pub fn total(turns: usize, mut turn_of: impl FnMut(usize) -> usize) -> usize {
    let mut total = 0usize;
    for turn in 0..turns {
        total = total.wrapping_add(turn_of(turn));
    }
    total
}

#[inline(always)]
pub fn sum(items: impl Iterator<Item = usize>) -> usize {
    let mut sum = 0usize;
    for item in items {
        sum = sum.wrapping_add(item);
    }
    sum
}
