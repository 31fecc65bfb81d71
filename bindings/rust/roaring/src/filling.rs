//! Calls that put in many numbers, a chunk of them in each call of the library.
use crate::{raw, require, RoaringBitmap, PAST};
use std::error::Error;
use std::fmt;

/// How many numbers a chunk has.
const ROOM: usize = 256;

/// Numbers do not ascend.
#[derive(Clone, Copy, Debug, PartialEq, Eq)]
pub struct NonSortedIntegers {
    pub(crate) valid_until: u64,
}

impl NonSortedIntegers {
    /// How many of the numbers ascend, from the first on. These were put in.
    pub fn valid_until(&self) -> u64 {
        self.valid_until
    }
}

impl fmt::Display for NonSortedIntegers {
    fn fmt(&self, fmt: &mut fmt::Formatter<'_>) -> fmt::Result {
        write!(fmt, "integers are ordered up to the {}th element", self.valid_until)
    }
}

impl Error for NonSortedIntegers {}

/// A number is not above each member.
#[derive(Clone, Copy, Debug, PartialEq, Eq)]
pub struct IntegerTooSmall;

impl fmt::Display for IntegerTooSmall {
    fn fmt(&self, fmt: &mut fmt::Formatter<'_>) -> fmt::Result {
        fmt.write_str("inserted integer is smaller than the largest integer")
    }
}

impl Error for IntegerTooSmall {}

// Calls `take` with each chunk of the numbers, up to the first that it refuses.
pub(crate) fn by_chunks<N: Copy + Default, E>(
    numbers: impl IntoIterator<Item = N>,
    mut take: impl FnMut(&[N]) -> Result<(), E>,
) -> Result<(), E> {
    let mut numbers = numbers.into_iter();
    let mut chunk = [N::default(); ROOM];
    loop {
        let mut count = 0;
        for (place, number) in chunk.iter_mut().zip(&mut numbers) {
            *place = number;
            count += 1;
        }
        if count == 0 {
            return Ok(());
        }
        take(&chunk[..count])?;
    }
}

impl RoaringBitmap {
    /// Creates the set of numbers that ascend.
    ///
    /// # Errors
    ///
    /// If a number is not above the one before it.
    pub fn from_sorted_iter<I: IntoIterator<Item = u32>>(iterator: I) -> Result<Self, NonSortedIntegers> {
        let mut set = Self::new();
        set.append(iterator)?;
        Ok(set)
    }

    /// Creates the set of the bits that are 1, with the bits of each byte counted from the lowest. The first has the number
    /// `offset`.
    ///
    /// # Panics
    ///
    /// If a bit has a number of 2^32 or above.
    pub fn from_lsb0_bytes(offset: u32, bytes: &[u8]) -> Self {
        let past = bytes.len().checked_mul(8).and_then(|bits| u64::from(offset).checked_add(bits as u64));
        assert!(past.is_some_and(|past| past <= PAST), "a bit has a number that no member has");
        let numbers_of = |(at, &byte): (usize, &u8)| {
            let ones = (0..8).filter(move |bit| byte >> bit & 1 == 1);
            ones.map(move |bit| offset + (8 * at + bit) as u32)
        };
        bytes.iter().enumerate().flat_map(numbers_of).collect()
    }

    /// The earlier name of [`from_lsb0_bytes`](Self::from_lsb0_bytes).
    pub fn from_bitmap_bytes(offset: u32, bytes: &[u8]) -> Self {
        Self::from_lsb0_bytes(offset, bytes)
    }

    /// Inserts `value` if it is above each member, and returns whether it is.
    pub fn push(&mut self, value: u32) -> bool {
        // SAFETY: the set is borrowed for the call.
        Self::changed(unsafe { raw::bit_roaring_push(self.write(), value) })
    }

    /// Inserts `value` if it is above each member.
    ///
    /// # Errors
    ///
    /// If it is not.
    pub fn try_push(&mut self, value: u32) -> Result<(), IntegerTooSmall> {
        if self.push(value) {
            Ok(())
        } else {
            Err(IntegerTooSmall)
        }
    }

    /// Inserts numbers that ascend from above each member, and returns how many.
    ///
    /// # Errors
    ///
    /// If a number is not above each member before it. Those before it stay in the set; up to 256 were read from the
    /// iterator.
    pub fn append<I: IntoIterator<Item = u32>>(&mut self, iterator: I) -> Result<u64, NonSortedIntegers> {
        let mut appended = 0;
        by_chunks(iterator, |chunk| {
            let (count, ascend) = self.append_chunk(chunk);
            appended += count as u64;
            if ascend {
                Ok(())
            } else {
                Err(NonSortedIntegers { valid_until: appended })
            }
        })?;
        Ok(appended)
    }

    // Appends numbers up to the first that is not above each member. Returns how many, and whether those are all.
    fn append_chunk(&mut self, chunk: &[u32]) -> (usize, bool) {
        let mut appended = 0;
        // SAFETY: the set, the numbers and the count are borrowed for the call.
        let answer =
            unsafe { raw::bit_roaring_append_members(self.write(), chunk.as_ptr(), chunk.len(), &mut appended) };
        require(answer != raw::NO_MEMORY);
        (appended, answer == raw::YES)
    }

    // Inserts numbers in any order. Appending, which the first that does not ascend ends, is the faster way.
    fn insert_chunk(&mut self, chunk: &[u32]) {
        let rest = &chunk[self.append_chunk(chunk).0..];
        // SAFETY: the set and the numbers are borrowed for the call.
        let inserted = unsafe { raw::bit_roaring_insert_members(self.write(), rest.as_ptr(), rest.len()) };
        require(inserted == rest.len());
    }
}

// The sets that are made of numbers in any order, by `insert_chunk` and a call for an array.
macro_rules! fillings {
    ($Set:ident of $number:ident, $from_members:ident) => {
        impl Extend<$number> for $Set {
            fn extend<I: IntoIterator<Item = $number>>(&mut self, iterator: I) {
                let inserted: Result<(), std::convert::Infallible> = by_chunks(iterator, |chunk| {
                    self.insert_chunk(chunk);
                    Ok(())
                });
                inserted.unwrap_or_else(|never| match never {});
            }
        }

        impl<'a> Extend<&'a $number> for $Set {
            fn extend<I: IntoIterator<Item = &'a $number>>(&mut self, iterator: I) {
                self.extend(iterator.into_iter().copied());
            }
        }

        impl FromIterator<$number> for $Set {
            fn from_iter<I: IntoIterator<Item = $number>>(iterator: I) -> Self {
                let mut set = Self::new();
                set.extend(iterator);
                set
            }
        }

        impl<'a> FromIterator<&'a $number> for $Set {
            fn from_iter<I: IntoIterator<Item = &'a $number>>(iterator: I) -> Self {
                iterator.into_iter().copied().collect()
            }
        }

        impl<const N: usize> From<[$number; N]> for $Set {
            fn from(numbers: [$number; N]) -> Self {
                // SAFETY: `out` is null, and the numbers are borrowed for the call.
                Self::made(|out| unsafe { raw::$from_members(out, numbers.as_ptr(), N) })
            }
        }
    };
}

pub(crate) use fillings;

fillings!(RoaringBitmap of u32, bit_roaring_from_members);
