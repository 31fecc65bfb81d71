//! The results of calls on a bit vector, its blocks and the walks over these.
use crate::calls::{Call, Line};
use crate::model::width;
use crate::sides::{Answers, BlockWalk, Set, is_front, take_of};

pub fn look<S: Set>(set: &S, other: &S, line: &Line, answers: &mut Answers) {
    match line.call {
        Call::BitsLen => answers.number(set.bits_len()),
        Call::BitsGet => answers.bit(set.bits_get(line.first)),
        Call::BitsNone => answers.truth(set.bits_none()),
        Call::BitsCountOnes => answers.number(set.bits_count_ones()),
        Call::BitsCapacity => answers.truth(set.bits_len() <= set.bits_capacity()),
        Call::BitsStorage => answers.storage(&set.bits_storage()),
        Call::BitsBlocks => blocks(set, line, answers),
        Call::BitsNextIf => next_if(set, line.first, answers),
        Call::BitsNonzero => nonzero(set, None, line.first, answers),
        Call::BitsNonzeroPastFirst => nonzero(set, Some(0), line.first, answers),
        Call::BitsNonzeroPast => nonzero(set, Some(line.first), line.second, answers),
        Call::BitsNonzeroEnds => nonzero_ends(set, line, answers),
        Call::BitsRefill => refill(set, line.first, line.second, answers),
        Call::BitsRefillEnds => refill_ends(set, line, answers),
        Call::BitsMismatch => mismatch(&set.bits_storage(), &other.bits_storage(), answers),
        Call::BitsBlock => single(&set.bits_storage(), &other.bits_storage(), line, answers),
        Call::BitsIsSubsetOf => answers.truth(set.bits_is_subset_of(other)),
        Call::BitsIsDisjointFrom => answers.truth(set.bits_is_disjoint_from(other)),
        Call::BitsCountOnesInRange | Call::BitsAllInRange | Call::BitsAnyInRange => {
            answers.number(set.read_range(line.call, line.first, line.second))
        }
        Call::BitsFirstOneFrom | Call::BitsLastOneBefore => answers.item(set.found(line.call, line.first)),
        Call::BitsFirstZeroFrom => answers.number(set.next_missing(line.first)),
        Call::BitsZerosInBlock => answers.block(zeros(set, line.first, line.second)),
        Call::BitsToBytes => answers.bytes(&set.to_bytes()),
        _ => answers.text(&set.bits_debug()),
    }
}

/// The bits of a block without a true value, below the end; none if the block begins past the end.
fn zeros<S: Set>(set: &S, k: usize, end: usize) -> u128 {
    let first = k.checked_mul(width()).filter(|first| *first <= end);
    first.map_or(0, |first| {
        let is_zero = |bit: &usize| *bit < end - first && set.bits_get(first + bit) != Some(true);
        (0..width()).filter(is_zero).map(|bit| 1 << bit).sum()
    })
}

fn step_blocks(walk: &mut dyn BlockWalk, steps: usize, answers: &mut Answers) {
    for _ in 0..steps {
        answers.bounds(walk.bounds());
        answers.next_block(walk.next());
    }
}

fn blocks<S: Set>(set: &S, line: &Line, answers: &mut Answers) {
    let mut walk = set.bits_blocks();
    step_blocks(&mut *walk, line.first, answers);
    let (mut on, mut copy) = (walk.copy(), walk.copy());
    step_blocks(&mut *on, line.second, answers);
    step_blocks(&mut *copy, line.second, answers);
    // The blocks left in the slice, and those that each walk counts.
    for left in [on.bounds().0, on.bounds().0, copy.bounds().0] {
        answers.number(left);
    }
}

/// A block that the test rejects is 0, whether there is one or not.
fn next_if<S: Set>(set: &S, steps: usize, answers: &mut Answers) {
    let mut walk = set.bits_blocks();
    for turn in 0..steps {
        answers.next_block(if turn % 2 == 0 { walk.next() } else { Some(0) });
    }
    answers.number(walk.bounds().0);
}

/// The first block and the nonzero ones after it, or only the nonzero ones past a given one. The walk takes these
/// steps, then three more; its copy takes as many again.
fn nonzero<S: Set>(set: &S, past: Option<usize>, steps: usize, answers: &mut Answers) {
    let storage = set.bits_storage();
    let last = storage.len().saturating_sub(1);
    let entries = storage.iter().enumerate().filter(|(place, block)| match past {
        None => *place == 0 || **block != 0,
        Some(first) => *place > first.min(last) && **block != 0,
    });
    if past.is_some() {
        answers.number(storage.len());
    }
    let after = entries.clone().skip(steps);
    for next in chained(entries, steps).chain(chained(after.clone(), 3)).chain(chained(after, steps)) {
        answers.item(next.map(|entry| entry.0));
        answers.next_block(next.map(|entry| *entry.1));
    }
}

/// The nonzero blocks past the first, from both ends.
fn nonzero_ends<S: Set>(set: &S, line: &Line, answers: &mut Answers) {
    let storage = set.bits_storage();
    let entries = storage.iter().enumerate().skip(1).filter(|entry| *entry.1 != 0);
    let mut left: std::collections::VecDeque<(usize, &u128)> = entries.collect();
    for step in 0..line.first {
        let entry = take_of(&mut left, is_front(line.second, step));
        answers.item(entry.map(|entry| entry.0));
        answers.next_block(entry.map(|entry| *entry.1));
    }
}

/// The elements from both ends, without bounds.
fn refill_ends<S: Set>(set: &S, line: &Line, answers: &mut Answers) {
    let mut left = std::collections::VecDeque::from(set.elements());
    for step in 0..line.first {
        answers.item(take_of(&mut left, is_front(line.second, step)));
    }
}

/// The first `count` items, with `None` for each that is missing.
fn chained<I: Iterator>(items: I, count: usize) -> impl Iterator<Item = Option<I::Item>> {
    items.map(Some).chain(std::iter::repeat_with(|| None)).take(count)
}

/// The elements at or above the start of a block.
fn refill<S: Set>(set: &S, block: usize, steps: usize, answers: &mut Answers) {
    let from = block.saturating_mul(width());
    let elements = set.elements();
    for next in chained(elements.iter().filter(|element| **element >= from), steps) {
        answers.item(next.copied());
    }
}

/// Where two lists of blocks differ, with the shorter one padded by zero blocks.
fn mismatch(blocks: &[u128], others: &[u128], answers: &mut Answers) {
    let block = |blocks: &[u128], k: usize| blocks.get(k).copied().unwrap_or(0);
    let both = blocks.len().min(others.len());
    let found = (0..blocks.len().max(others.len())).find(|k| block(blocks, *k) != block(others, *k));
    answers.truth(found.is_none());
    answers.item(found.filter(|k| *k < both));
    answers.item(found);
    if let Some(k) = found {
        let bit = (0..128).find(|bit| (block(blocks, k) >> bit & 1) != (block(others, k) >> bit & 1));
        answers.number(bit.unwrap_or(0));
    }
}

/// One block, the results of searches in it from a place on, and its merges with a block of the other list.
fn single(blocks: &[u128], others: &[u128], line: &Line, answers: &mut Answers) {
    let (k, place) = (line.first, line.second);
    let block = |blocks: &[u128]| blocks.get(k).copied().unwrap_or(0);
    let (one, two) = (block(blocks), block(others));
    let bits = |digit: &dyn Fn(usize) -> bool| (0..width()).fold(0, |all, j| all | u128::from(digit(j)) << j);
    let digit = |block: u128, j: usize| j < width() && block >> j & 1 == 1;
    let within = place % width();
    answers.item((k..blocks.len()).find(|k| blocks[*k] != 0));
    answers.number((0..width()).filter(|j| digit(one, *j)).count());
    answers.truth((within..width()).any(|j| digit(one, j)));
    answers.block(bits(&|j| j >= place && digit(one, j)));
    answers.block(bits(&|j| j == within || digit(one, j)));
    answers.block(bits(&|j| j != within && digit(one, j)));
    answers.block(bits(&|j| j >= within && digit(one, j - within)));
    answers.block(bits(&|j| digit(one, j + within)));
    answers.block(bits(&|j| digit(one, j) || digit(two, j)));
    answers.block(bits(&|j| digit(one, j) && digit(two, j)));
    answers.block(bits(&|j| digit(one, j) && !digit(two, j)));
    answers.block(bits(&|j| digit(one, j) != digit(two, j)));
}
