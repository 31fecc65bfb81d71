//! Walks from both ends, over the members that CRoaring returns. Its own iterators only move forward.
use crate::calls::Line;
use crate::croaring::Set;
use crate::sides::{digest_of, next_state, of_item};

/// The rest of a walk, with the number that each end returned last, or was advanced to.
struct Walk<'a> {
    set: &'a Set<'a>,
    left: &'a [u32],
    front: u32,
    back: u32,
}

impl Walk<'_> {
    /// Makes the step that a word encodes, as `crates/roaring_calls` does, and returns its result.
    fn step(&mut self, word: u64) -> Option<u32> {
        let offset = ((word >> 10) & ((1 << ((word >> 4) % 20)) - 1)) as u32;
        match word % 5 {
            0 => self.next(0),
            1 => self.next_back(),
            2 => self.next(offset as usize),
            3 => {
                self.front = self.front.saturating_add(offset).saturating_sub(2);
                self.advance();
                None
            }
            _ => {
                self.back = self.back.saturating_sub(offset).saturating_add(2);
                self.left = &self.left[..self.left.partition_point(|number| *number <= self.back)];
                None
            }
        }
    }

    /// Skips this many members, and returns the next one.
    fn next(&mut self, passed: usize) -> Option<u32> {
        self.left = self.left.get(passed..).unwrap_or_default();
        let first = *self.left.split_off_first()?;
        self.front = first;
        Some(first)
    }

    fn next_back(&mut self) -> Option<u32> {
        let last = *self.left.split_off_last()?;
        self.back = last;
        Some(last)
    }

    /// Skips the members before the one to which CRoaring's iterator is moved.
    fn advance(&mut self) {
        let first = self.set.first_from(self.front);
        let passed = first.map_or(self.left.len(), |first| self.left.partition_point(|number| *number < first));
        self.left = &self.left[passed..];
    }
}

/// A digest of the results of a line's steps, in a walk over some members.
pub fn digest_of_steps(set: &Set, members: &[u32], line: &Line) -> usize {
    let mut walk = Walk { set, left: members, front: 0, back: u32::MAX };
    let mut state = line.first.wrapping_add(line.second) as u64;
    let steps = (0..line.count).map(|_| {
        state = next_state(state);
        of_item(walk.step(state >> 16))
    });
    digest_of(0, steps)
}

/// The members from one number on and below another.
pub fn numbers_between(set: &Set, start: usize, end: usize) -> Vec<u32> {
    set.numbers().into_iter().filter(|number| (start..end).contains(&(*number as usize))).collect()
}
