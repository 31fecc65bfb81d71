//! Iterators over a set, from both ends. They copy some members at a time: a call for each costs more than the whole
//! iteration.
use crate::numbers::{stretch, stretch_of, Number};
use crate::{raw, RoaringBitmap};
use std::ops::RangeBounds;

/// How many members are copied at first, and how many at most at a time: each copy has room for twice as many as the last,
/// since it begins with a search.
const FEWEST: usize = 64;
const MOST: usize = 4096;

// Members that were copied, of which those from `next` to `end` are left.
#[derive(Clone)]
struct Copied<N> {
    members: Vec<N>,
    next: usize,
    end: usize,
}

impl<N: Number> Copied<N> {
    const NONE: Self = Copied { members: Vec::new(), next: 0, end: 0 };

    // Has the members that `copy` writes, and returns the last if there may be more.
    fn refill(&mut self, copy: impl FnOnce(*mut N, usize) -> usize) -> Option<N> {
        let room = (2 * self.members.len()).clamp(FEWEST, MOST);
        self.members.resize(room, N::default());
        (self.next, self.end) = (0, copy(self.members.as_mut_ptr(), room));
        self.members.get(room - 1).copied().filter(|_| self.end == room)
    }

    fn left(&self) -> &[N] {
        &self.members[self.next..self.end]
    }

    #[inline]
    fn is_empty(&self) -> bool {
        self.next == self.end
    }

    #[inline]
    fn take_first(&mut self) -> Option<N> {
        let &first = self.left().first()?;
        self.next += 1;
        Some(first)
    }

    fn take_last(&mut self) -> Option<N> {
        let &last = self.left().last()?;
        self.end -= 1;
        Some(last)
    }

    // Takes those at the front that are to go.
    fn skip(&mut self, goes: impl Fn(N) -> bool) {
        self.next += self.left().iter().take_while(|&&member| goes(member)).count();
    }

    // Takes those at the back that are to go.
    fn skip_back(&mut self, goes: impl Fn(N) -> bool) {
        self.end -= self.left().iter().rev().take_while(|&&member| goes(member)).count();
    }
}

// A set whose members a walk copies: those at or above a number, in ascending order, or at or below one, in descending
// order, at most `room` of them. Each returns how many.
pub(crate) trait Members {
    type Number: Number;

    fn copy_up(&self, first: Self::Number, members: *mut Self::Number, room: usize) -> usize;
    fn copy_down(&self, last: Self::Number, members: *mut Self::Number, room: usize) -> usize;

    // How many members there are from the first to the last of these numbers.
    fn count_between(&self, first: Self::Number, last: Self::Number) -> u64;

    // The set itself, of an iterator that borrows it and of one that owns it.
    #[inline]
    fn as_members(&self) -> &Self {
        self
    }
}

// What is left of a walk over a set: what was copied from the front, in ascending order, the members from the first to the
// last number between, if there are such numbers, and what was copied from the back, in descending order.
#[derive(Clone)]
pub(crate) struct Walk<N> {
    front: Copied<N>,
    back: Copied<N>,
    between: Option<(N, N)>,
}

impl<N: Number> Walk<N> {
    pub(crate) const WHOLE: Self = Self::over(Some((N::LEAST, N::GREATEST)));

    pub(crate) const fn over(between: Option<(N, N)>) -> Self {
        Walk { front: Copied::NONE, back: Copied::NONE, between }
    }

    #[inline]
    pub(crate) fn next(&mut self, set: &impl Members<Number = N>) -> Option<N> {
        if self.front.is_empty() {
            return self.copy_and_take(set);
        }
        self.front.take_first()
    }

    #[inline(never)]
    fn copy_and_take(&mut self, set: &impl Members<Number = N>) -> Option<N> {
        if let Some((first, last)) = self.between {
            let copied = self.front.refill(|members, room| set.copy_up(first, members, room));
            self.front.skip_back(|member| member > last);
            self.between = copied.and_then(|copied| stretch(copied.above(), Some(last)));
        }
        self.front.take_first().or_else(|| self.back.take_last())
    }

    pub(crate) fn next_back(&mut self, set: &impl Members<Number = N>) -> Option<N> {
        if let Some((first, last)) = self.between.filter(|_| self.back.is_empty()) {
            let copied = self.back.refill(|members, room| set.copy_down(last, members, room));
            self.back.skip_back(|member| member < first);
            self.between = copied.and_then(|copied| stretch(Some(first), copied.below()));
        }
        self.back.take_first().or_else(|| self.front.take_last())
    }

    // How many members are left.
    pub(crate) fn left(&self, set: &impl Members<Number = N>) -> usize {
        let between = self.between.map_or(0, |(first, last)| set.count_between(first, last));
        self.front.left().len() + between as usize + self.back.left().len()
    }

    pub(crate) fn advance_to(&mut self, n: N) {
        self.front.skip(|member| member < n);
        self.back.skip_back(|member| member < n);
        self.between = self.between.and_then(|(first, last)| stretch(Some(first.max(n)), Some(last)));
    }

    pub(crate) fn advance_back_to(&mut self, n: N) {
        self.back.skip(|member| member > n);
        self.front.skip_back(|member| member > n);
        self.between = self.between.and_then(|(first, last)| stretch(Some(first), Some(last.min(n))));
    }
}

// The iterators over a type of sets, one that borrows the set and one that owns it, and the calls that make them.
macro_rules! iterators {
    ($Set:ident of $number:ident) => {
        /// An iterator over members, which yields them in ascending order from the front and in descending order from the
        /// back.
        #[derive(Clone)]
        pub struct Iter<'a> {
            set: &'a $Set,
            walk: Walk<$number>,
        }

        /// An iterator that owns the set over whose members it goes, from both ends.
        #[derive(Clone)]
        pub struct IntoIter {
            set: $Set,
            walk: Walk<$number>,
        }

        $crate::walks::iterator!(Iter<'_>: $number);
        $crate::walks::iterator!(IntoIter: $number);

        impl $Set {
            /// An iterator over the members, which yields them in ascending order from the front and in descending order
            /// from the back.
            pub fn iter(&self) -> Iter<'_> {
                Iter { set: self, walk: Walk::WHOLE }
            }

            /// An iterator over the members in a range. There is none in a range whose end is at its start or below.
            pub fn range<R: RangeBounds<$number>>(&self, range: R) -> Iter<'_> {
                Iter { set: self, walk: Walk::over(stretch_of(range)) }
            }

            /// An iterator over the members in a range, which owns the set.
            pub fn into_range<R: RangeBounds<$number>>(self, range: R) -> IntoIter {
                IntoIter { set: self, walk: Walk::over(stretch_of(range)) }
            }
        }

        impl<'a> IntoIterator for &'a $Set {
            type Item = $number;
            type IntoIter = Iter<'a>;

            fn into_iter(self) -> Iter<'a> {
                self.iter()
            }
        }

        impl IntoIterator for $Set {
            type Item = $number;
            type IntoIter = IntoIter;

            fn into_iter(self) -> IntoIter {
                self.into_range(..)
            }
        }
    };
}

macro_rules! iterator {
    ($Iter:ty: $number:ident) => {
        impl $Iter {
            /// Passes over the members below `n`, from the front.
            pub fn advance_to(&mut self, n: $number) {
                self.walk.advance_to(n);
            }

            /// Passes over the members above `n`, from the back.
            pub fn advance_back_to(&mut self, n: $number) {
                self.walk.advance_back_to(n);
            }
        }

        impl Iterator for $Iter {
            type Item = $number;

            #[inline]
            fn next(&mut self) -> Option<$number> {
                self.walk.next(self.set.as_members())
            }

            /// Counts the members that are left, by the counts of the containers.
            fn size_hint(&self) -> (usize, Option<usize>) {
                let left = self.walk.left(self.set.as_members());
                (left, Some(left))
            }

            fn count(self) -> usize {
                self.len()
            }
        }

        impl DoubleEndedIterator for $Iter {
            fn next_back(&mut self) -> Option<$number> {
                self.walk.next_back(self.set.as_members())
            }
        }

        impl ExactSizeIterator for $Iter {}

        impl std::iter::FusedIterator for $Iter {}
    };
}

pub(crate) use {iterator, iterators};

iterators!(RoaringBitmap of u32);

impl Members for RoaringBitmap {
    type Number = u32;

    fn copy_up(&self, first: u32, members: *mut u32, room: usize) -> usize {
        // SAFETY: the set is borrowed for the call, as in each of the calls below, and the places are.
        unsafe { raw::bit_roaring_copy_members(self.read(), first.into(), members, room) }
    }

    fn copy_down(&self, last: u32, members: *mut u32, room: usize) -> usize {
        unsafe { raw::bit_roaring_copy_members_back(self.read(), u64::from(last) + 1, members, room) }
    }

    fn count_between(&self, first: u32, last: u32) -> u64 {
        unsafe { raw::bit_roaring_range_cardinality(self.read(), first.into(), u64::from(last) + 1) }
    }
}
