//! Calls that put in many numbers, a chunk of them in each call of the library.
use crate::filling::{by_chunks, fillings};
use crate::{raw, require, NonSortedIntegers, RoaringTreemap};

impl RoaringTreemap {
    /// Creates the set of numbers that ascend.
    ///
    /// # Errors
    ///
    /// If a number is not above the one before it.
    pub fn from_sorted_iter<I: IntoIterator<Item = u64>>(iterator: I) -> Result<Self, NonSortedIntegers> {
        let mut set = Self::new();
        set.append(iterator)?;
        Ok(set)
    }

    /// Inserts `value` if it is above each member, and returns whether it is.
    pub fn push(&mut self, value: u64) -> bool {
        // SAFETY: the set is borrowed for the call.
        Self::changed(unsafe { raw::bit_roaring64_push(self.write(), value) })
    }

    /// Inserts numbers that ascend from above each member, and returns how many.
    ///
    /// # Errors
    ///
    /// If a number is not above each member before it. Those before it stay in the set; up to 256 were read from the
    /// iterator.
    pub fn append<I: IntoIterator<Item = u64>>(&mut self, iterator: I) -> Result<u64, NonSortedIntegers> {
        let (mut appended, mut max) = (0, self.max());
        by_chunks(iterator, |chunk| {
            let ascend = chunk.iter().take_while(|&&value| {
                let is_above = max.map_or(true, |max| value > max);
                max = max.max(Some(value));
                is_above
            });
            let count = ascend.count();
            self.insert_chunk(&chunk[..count]);
            appended += count as u64;
            if count == chunk.len() {
                Ok(())
            } else {
                Err(NonSortedIntegers { valid_until: appended })
            }
        })?;
        Ok(appended)
    }

    // Inserts numbers in any order.
    fn insert_chunk(&mut self, chunk: &[u64]) {
        // SAFETY: the set and the numbers are borrowed for the call.
        let inserted = unsafe { raw::bit_roaring64_insert_members(self.write(), chunk.as_ptr(), chunk.len()) };
        require(inserted == chunk.len());
    }
}

fillings!(RoaringTreemap of u64, bit_roaring64_from_members);
