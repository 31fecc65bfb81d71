//! Calls on sets of a few blocks, for counts of their instructions.
//!
//! Turns alternate between two equal sets, so that no turn can reuse the result of another.
use crate::calls::*;
use crate::inputs::Random;
use crate::peers::{Set, sum, total};
use bit_set::BitSet;
use fixedbitset::FixedBitSet;
use std::hint::black_box;

/// A pointer to numbers; their count is the next argument.
type Numbers = *const usize;

type OnSmall = unsafe extern "C" fn(len: usize, Numbers, usize, Numbers, usize, turns: usize) -> usize;

unsafe extern "C" {
    fn bench_small_union_rows(len: usize, a: Numbers, m: usize, b: Numbers, n: usize, turns: usize) -> usize;
}

/// Numbers below `len`: twice an eighth of it at random, and each time also the last.
pub struct Input {
    len: usize,
    first: Vec<usize>,
    second: Vec<usize>,
}

impl Input {
    pub fn of(len: usize) -> Input {
        let mut random = Random::start();
        let mut numbers = || {
            let mut numbers = random.numbers_below(len, len / 8);
            numbers.push(len - 1);
            numbers
        };
        Input { len, first: numbers(), second: numbers() }
    }

    fn two_firsts<S: Set>(&self) -> Vec<S> {
        vec![self.one_first(), self.one_first()]
    }

    fn one_first<S: Set>(&self) -> S {
        S::of(self.len, &self.first)
    }

    fn one_second<S: Set>(&self) -> S {
        S::of(self.len, &self.second)
    }

    /// The first numbers without the second.
    fn rest<S: Set>(&self) -> S {
        let mut set: S = self.one_first();
        for number in &self.second {
            set.drop_number(*number);
        }
        set
    }
}

/// One of eight numbers, a different one at each turn.
#[inline]
fn number_at(numbers: &[usize], turn: usize) -> usize {
    numbers.get(turn % 8).copied().unwrap_or(0)
}

#[inline(always)]
fn change<S: Set>(input: &Input, turns: usize, call: impl Fn(&mut S, &S)) -> usize {
    let mut sets = input.two_firsts();
    let other = input.one_second();
    for turn in 0..turns {
        if let Some(set) = sets.get_mut(turn % 2) {
            call(set, &other);
        }
    }
    sets.iter().map(S::count).sum()
}

#[inline(always)]
fn read<S: Set>(sets: Vec<S>, turns: usize, call: impl Fn(&S) -> usize) -> usize {
    total(turns, |turn| sets.get(turn % 2).map_or(0, &call))
}

fn union_with<S: Set>(input: &Input, turns: usize) -> usize {
    change(input, turns, S::union_with)
}

fn intersect_with<S: Set>(input: &Input, turns: usize) -> usize {
    change(input, turns, S::intersect_with)
}

fn difference_with<S: Set>(input: &Input, turns: usize) -> usize {
    change(input, turns, S::difference_with)
}

fn symmetric_difference_with<S: Set>(input: &Input, turns: usize) -> usize {
    change(input, turns, S::symmetric_difference_with)
}

/// The same for a call that returns whether it changed the set. Counts how often it did.
#[inline(always)]
fn tell<S: Set>(input: &Input, turns: usize, mut call: impl FnMut(&mut S, &S) -> bool) -> usize {
    let mut sets = input.two_firsts();
    let other = input.one_second();
    let changes = total(turns, |turn| sets.get_mut(turn % 2).map_or(0, |set| usize::from(call(set, &other))));
    changes + sets.iter().map(S::count).sum::<usize>()
}

fn union_changes<S: Set>(input: &Input, turns: usize) -> usize {
    tell(input, turns, S::union_changes)
}

fn intersection_changes<S: Set>(input: &Input, turns: usize) -> usize {
    tell(input, turns, S::intersection_changes)
}

fn difference_changes<S: Set>(input: &Input, turns: usize) -> usize {
    tell(input, turns, S::difference_changes)
}

fn symmetric_difference_changes<S: Set>(input: &Input, turns: usize) -> usize {
    tell(input, turns, S::symmetric_difference_changes)
}

/// Inserts the second numbers that are not among the first, and returns whether that changed the set.
fn union_with_difference<S: Set>(input: &Input, turns: usize) -> usize {
    let except: S = input.rest();
    let mut copy = except.clone();
    tell(input, turns, |set: &mut S, other| {
        copy.clone_from(other);
        copy.difference_with(&except);
        set.union_changes(&copy)
    })
}

/// The same by two merges over a copy, which do not return that.
fn difference_of_a_copy<S: Set>(input: &Input, turns: usize) -> usize {
    let except: S = input.rest();
    let mut copy = except.clone();
    let mut sets: Vec<S> = input.two_firsts();
    let other: S = input.one_second();
    for turn in 0..turns {
        if let Some(set) = sets.get_mut(turn % 2) {
            copy.clone_from(&other);
            copy.difference_with(&except);
            set.union_with(&copy);
        }
    }
    sets.iter().map(S::count).sum()
}

fn clone<S: Set>(input: &Input, turns: usize) -> usize {
    let sets: Vec<S> = input.two_firsts();
    total(turns, |turn| match sets.get(turn % 2) {
        Some(set) => usize::from(black_box(&set.clone()).contains(number_at(&input.first, turn))),
        None => 0,
    })
}

fn clone_from<S: Set>(input: &Input, turns: usize) -> usize {
    change(input, turns, S::clone_from)
}

#[inline(always)]
fn with_capacity<S: Set>(input: &Input, turns: usize, make: impl Fn(usize) -> S) -> usize {
    total(turns, |turn| {
        let mut set = make(input.len);
        let new = set.insert(number_at(&input.second, turn));
        black_box(&set);
        usize::from(new)
    })
}

fn make_empty<S: Set>(input: &Input, turns: usize) -> usize {
    change(input, turns, |set: &mut S, _| set.clear())
}

fn eq<S: Set>(input: &Input, turns: usize) -> usize {
    let other: S = input.one_first();
    read(input.two_firsts(), turns, |set: &S| usize::from(*set == other))
}

fn cmp<S: Set>(input: &Input, turns: usize) -> usize {
    let other: S = input.one_first();
    read(input.two_firsts(), turns, |set: &S| usize::from(set.cmp(&other).is_eq()))
}

fn is_subset<S: Set>(input: &Input, turns: usize) -> usize {
    let mut other: S = input.one_first();
    for number in &input.second {
        other.insert(*number);
    }
    read(input.two_firsts(), turns, |set: &S| usize::from(set.is_subset(&other)))
}

fn is_disjoint<S: Set>(input: &Input, turns: usize) -> usize {
    let other: S = input.rest();
    read(vec![input.one_second(), input.one_second()], turns, |set: &S| usize::from(set.is_disjoint(&other)))
}

fn count<S: Set>(input: &Input, turns: usize) -> usize {
    read(input.two_firsts::<S>(), turns, S::count)
}

fn walk<S: Set>(input: &Input, turns: usize) -> usize {
    read(input.two_firsts::<S>(), turns, |set| sum(set.walk()))
}

fn insert<S: Set>(input: &Input, turns: usize) -> usize {
    let mut set: S = input.one_second();
    total(turns, |turn| usize::from(set.insert(number_at(&input.second, turn))))
}

fn insert_and_remove<S: Set>(input: &Input, turns: usize) -> usize {
    let mut set: S = input.rest();
    total(turns, |turn| {
        let number = number_at(&input.second, turn);
        usize::from(set.insert(number)) + usize::from(set.remove(number))
    })
}

fn remove<S: Set>(input: &Input, turns: usize) -> usize {
    let mut set: S = input.rest();
    total(turns, |turn| usize::from(set.remove(number_at(&input.second, turn))))
}

fn contains<S: Set>(input: &Input, turns: usize) -> usize {
    let set: S = input.one_first();
    total(turns, |turn| usize::from(set.contains(number_at(&input.second, turn))))
}

type OnInput = fn(&Input, usize) -> usize;

/// A call, as each side makes it.
pub struct Call {
    pub name: &'static str,
    here: OnSmall,
    bit_set: OnInput,
    fixedbitset: OnInput,
}

impl Call {
    /// The result of this many turns of one side. `None` if there is no such side.
    pub fn result(&self, side: &str, input: &Input, turns: usize) -> Option<usize> {
        let Input { len, first, second } = input;
        match side {
            "here" => {
                Some(unsafe { (self.here)(*len, first.as_ptr(), first.len(), second.as_ptr(), second.len(), turns) })
            }
            "bit-set" => Some((self.bit_set)(input, turns)),
            "fixedbitset" => Some((self.fixedbitset)(input, turns)),
            _ => None,
        }
    }
}

macro_rules! call {
    ($name:literal, $here:ident, $peer:ident) => {
        Call { name: $name, here: $here, bit_set: $peer::<BitSet>, fixedbitset: $peer::<FixedBitSet> }
    };
}

#[rustfmt::skip]
pub const CALLS: [Call; 25] = [
    call!("`union_with`", bench_small_union_with, union_with),
    call!("`intersect_with`", bench_small_intersect_with, intersect_with),
    call!("`difference_with`", bench_small_difference_with, difference_with),
    call!("`symmetric_difference_with`", bench_small_symmetric_difference_with, symmetric_difference_with),
    call!("`union_changes`", bench_small_union_changes, union_changes),
    call!("`union_rows` of a matrix, beside `union_with`", bench_small_union_rows, union_with),
    call!("`intersection_changes`", bench_small_intersection_changes, intersection_changes),
    call!("`difference_changes`", bench_small_difference_changes, difference_changes),
    call!("`symmetric_difference_changes`", bench_small_symmetric_difference_changes, symmetric_difference_changes),
    call!("`union_with_difference`", bench_small_union_with_difference, union_with_difference),
    call!("`difference_with` of a copy, and `union_with`", bench_small_difference_of_a_copy, difference_of_a_copy),
    call!("`clone`", bench_small_clone, clone),
    call!("`clone_from`", bench_small_clone_from, clone_from),
    Call {
        name: "`with_capacity` and one `insert`",
        here: bench_small_with_capacity,
        bit_set: |input, turns| with_capacity(input, turns, BitSet::with_capacity),
        fixedbitset: |input, turns| with_capacity(input, turns, FixedBitSet::with_capacity),
    },
    call!("`make_empty`", bench_small_make_empty, make_empty),
    call!("`==` of equal sets", bench_small_eq, eq),
    call!("`cmp` of equal sets", bench_small_cmp, cmp),
    call!("`is_subset` of more", bench_small_is_subset, is_subset),
    call!("`is_disjoint` of disjoint sets", bench_small_is_disjoint, is_disjoint),
    call!("`count`", bench_small_count, count),
    call!("walk", bench_small_walk, walk),
    call!("`insert` of what is in", bench_small_insert, insert),
    call!("`insert` and `remove` of what is not in", bench_small_insert_and_remove, insert_and_remove),
    call!("`remove` of what is not in", bench_small_remove, remove),
    call!("`contains`", bench_small_contains, contains),
];
