//! Iterators over a set, and over merges of two sets. They read the blocks in place: a call for each element costs more
//! than the whole iteration.
use crate::{BitBlock, BitSet};
use std::mem::size_of;

/// How many words a walk reads before it searches past zeros by the summary: `FEW` if the last search passed over many,
/// else more.
const FEW: usize = 8;
const MANY: usize = 128;
const WIDTH: usize = u64::BITS as usize;

// The words of 64 bits that a walk reads, with a bit for each number.
trait Source: Copy {
    /// The next word.
    fn next_word(&mut self) -> Option<u64>;

    /// A number with no element between `from` and it, or `None` if no element is at or above `from`.
    fn search(&self, from: usize) -> Option<usize>;

    /// The same source with this word as the next one.
    fn at_word(self, word: usize) -> Self;
}

#[derive(Clone, Copy)]
struct Walk<S> {
    source: S,
    // The rest of the current word, and its first number.
    word: u64,
    base: usize,
    // The base from which a search passes over zeros, and after how many words the next search begins.
    search_from: usize,
    stride: usize,
}

impl<S: Source> Walk<S> {
    #[inline]
    fn over(mut source: S) -> Self {
        let word = source.next_word().unwrap_or(0);
        Walk { source, word, base: 0, search_from: FEW * WIDTH, stride: FEW }
    }

    // Every element below this number was returned.
    fn passed(&self) -> usize {
        match self.word {
            0 => self.base.saturating_add(WIDTH),
            word => self.base + word.trailing_zeros() as usize,
        }
    }

    // Moves to the next nonzero word, and returns whether there is one. No call takes a reference to the walk, so that
    // its fields stay in registers of the caller's loop.
    #[inline(always)]
    fn advance(&mut self) -> bool {
        if !self.scan() {
            *self = self.past_zeros();
        }
        self.word != 0
    }

    // Reads words up to the first nonzero one, and returns whether it reached that or the end: it stops where a search
    // is due.
    #[inline(always)]
    fn scan(&mut self) -> bool {
        while let Some(word) = self.source.next_word() {
            self.base += WIDTH;
            self.word = word;
            if word != 0 {
                return true;
            }
            if self.base >= self.search_from {
                return false;
            }
        }
        true
    }

    #[cold]
    #[inline(never)]
    fn past_zeros(mut self) -> Self {
        loop {
            let past = self.base / WIDTH + 1;
            let next = self.source.search(self.base.saturating_add(WIDTH)).unwrap_or(usize::MAX) / WIDTH;
            self.stride = if next - past < FEW { MANY.min(2 * self.stride) } else { FEW };
            self.search_from = (next + self.stride).saturating_mul(WIDTH);
            self.source = self.source.at_word(next);
            self.base = (next - 1) * WIDTH;
            if self.scan() {
                return self;
            }
        }
    }

    #[inline]
    fn next(&mut self) -> Option<usize> {
        if self.word == 0 && !self.advance() {
            return None;
        }
        Some(self.take_lowest())
    }

    // Takes the lowest 1 out of the current word, which is not zero.
    #[inline]
    fn take_lowest(&mut self) -> usize {
        let lowest = self.word.trailing_zeros() as usize;
        self.word &= self.word - 1;
        self.base + lowest
    }
}

// A set, and its blocks from the next word on.
struct One<'a, B: BitBlock> {
    set: &'a BitSet<B>,
    rest: &'a [B],
}

impl<'a, B: BitBlock> One<'a, B> {
    #[inline]
    fn of(set: &'a BitSet<B>) -> Self {
        One { set, rest: set.as_slice() }
    }
}

impl<B: BitBlock> Clone for One<'_, B> {
    fn clone(&self) -> Self {
        *self
    }
}

impl<B: BitBlock> Copy for One<'_, B> {}

impl<B: BitBlock> Source for One<'_, B> {
    #[inline(always)]
    fn next_word(&mut self) -> Option<u64> {
        if let ([low, high, rest @ ..], true) = (self.rest, size_of::<B>() < size_of::<u64>()) {
            self.rest = rest;
            return Some((*low).into() | (*high).into() << 32);
        }
        let (&block, rest) = self.rest.split_first()?;
        self.rest = rest;
        Some(block.into())
    }

    fn search(&self, from: usize) -> Option<usize> {
        self.set.next(from)
    }

    fn at_word(self, word: usize) -> Self {
        let block = word * (size_of::<u64>() / size_of::<B>());
        One { rest: self.set.as_slice().get(block..).unwrap_or(&[]), ..self }
    }
}

const UNION: u8 = 0;
const INTERSECTION: u8 = 1;
const DIFFERENCE: u8 = 2;
const SYMMETRIC: u8 = 3;

// The merge of two sets.
struct Two<'a, B: BitBlock, const MERGE: u8>(One<'a, B>, One<'a, B>);

impl<B: BitBlock, const MERGE: u8> Clone for Two<'_, B, MERGE> {
    fn clone(&self) -> Self {
        *self
    }
}

impl<B: BitBlock, const MERGE: u8> Copy for Two<'_, B, MERGE> {}

impl<B: BitBlock, const MERGE: u8> Source for Two<'_, B, MERGE> {
    // Past the end of a set its words are zero.
    #[inline(always)]
    fn next_word(&mut self) -> Option<u64> {
        let (a, b) = (self.0.next_word(), self.1.next_word());
        match MERGE {
            INTERSECTION => Some(a? & b?),
            DIFFERENCE => Some(a? & !b.unwrap_or(0)),
            _ if a.is_none() && b.is_none() => None,
            UNION => Some(a.unwrap_or(0) | b.unwrap_or(0)),
            _ => Some(a.unwrap_or(0) ^ b.unwrap_or(0)),
        }
    }

    fn search(&self, from: usize) -> Option<usize> {
        let Two(a, b) = self;
        match MERGE {
            DIFFERENCE => a.search(from),
            INTERSECTION => Some(a.search(from)?.max(b.search(from)?)),
            _ => a.search(from).into_iter().chain(b.search(from)).min(),
        }
    }

    fn at_word(self, word: usize) -> Self {
        Two(self.0.at_word(word), self.1.at_word(word))
    }
}

macro_rules! walks {
    ($($(#[$doc:meta])* $Name:ident over $Source:ty, $name:ident of $other:ident;)*) => {
        $(
            $(#[$doc])*
            #[derive(Clone)]
            pub struct $Name<'a, B: BitBlock = u32>(Walk<$Source>);

            impl<B: BitBlock> Iterator for $Name<'_, B> {
                type Item = usize;

                #[inline]
                fn next(&mut self) -> Option<usize> {
                    self.0.next()
                }
            }

            impl<B: BitBlock> BitSet<B> {
                $(#[$doc])*
                #[inline]
                pub fn $name<'a>(&'a self, $other: &'a BitSet<B>) -> $Name<'a, B> {
                    $Name(Walk::over(Two(One::of(self), One::of($other))))
                }
            }
        )*
    };
}

walks! {
    /// An iterator over the union, in ascending order.
    Union over Two<'a, B, { UNION }>, union of other;
    /// An iterator over the intersection, in ascending order.
    Intersection over Two<'a, B, { INTERSECTION }>, intersection of other;
    /// An iterator over the difference, in ascending order.
    Difference over Two<'a, B, { DIFFERENCE }>, difference of other;
    /// An iterator over the symmetric difference, in ascending order.
    SymmetricDifference over Two<'a, B, { SYMMETRIC }>, symmetric_difference of other;
}

/// An iterator over the elements, which yields them in ascending order from the front and in descending order from the
/// back.
#[derive(Clone)]
pub struct Iter<'a, B: BitBlock = u32> {
    walk: Walk<One<'a, B>>,
    // The elements at or above this number were returned from the back.
    end: usize,
}

impl<B: BitBlock> BitSet<B> {
    /// An iterator over the elements, which yields them in ascending order from the front and in descending order from
    /// the back.
    #[inline]
    pub fn iter(&self) -> Iter<'_, B> {
        Iter { walk: Walk::over(One::of(self)), end: usize::MAX }
    }
}

impl<B: BitBlock> Iter<'_, B> {
    // Clears the bits of the current word that were returned from the back, and returns whether any are left.
    #[inline]
    fn cut(&mut self) -> bool {
        let left = self.end.saturating_sub(self.walk.base);
        if left < WIDTH {
            self.walk.word &= !(u64::MAX << left);
        }
        self.walk.word != 0
    }
}

impl<B: BitBlock> Iterator for Iter<'_, B> {
    type Item = usize;

    #[inline]
    fn next(&mut self) -> Option<usize> {
        if self.walk.word == 0 && !(self.walk.advance() && self.cut()) {
            return None;
        }
        Some(self.walk.take_lowest())
    }
}

impl<B: BitBlock> DoubleEndedIterator for Iter<'_, B> {
    fn next_back(&mut self) -> Option<usize> {
        let element = self.walk.source.set.previous(self.end).filter(|&element| element >= self.walk.passed());
        self.end = element.unwrap_or(0);
        self.cut();
        element
    }
}

impl<'a, B: BitBlock> IntoIterator for &'a BitSet<B> {
    type Item = usize;
    type IntoIter = Iter<'a, B>;

    fn into_iter(self) -> Iter<'a, B> {
        self.iter()
    }
}
