//! Random calls, from a fixed seed, compared with a list of truth values.
mod common;

use common::Draws;
use fixedbitset::FixedBitSet;
use std::ops::Range;

/// Bits, some of them set, and the same as a list.
fn draw(draws: &mut Draws) -> (FixedBitSet, Vec<bool>) {
    let length = draws.below(400);
    let list: Vec<bool> = (0..length).map(|_| draws.below(3) == 0).collect();
    let mut bits = FixedBitSet::with_capacity(length);
    list.iter().enumerate().for_each(|(at, &bit)| bits.set(at, bit));
    (bits, list)
}

fn ones(list: &[bool]) -> impl DoubleEndedIterator<Item = usize> + '_ {
    (0..list.len()).filter(|&at| list[at])
}

fn at(list: &[bool], bit: usize) -> bool {
    list.get(bit) == Some(&true)
}

#[track_caller]
fn same(bits: &FixedBitSet, list: &[bool]) {
    assert_eq!(bits.len(), list.len());
    assert!(bits.ones().eq(ones(list)));
    assert_eq!(bits.count_ones(..), ones(list).count());
    assert_eq!(bits.is_clear(), ones(list).next().is_none());
}

/// Makes the call of this number, here and on the list.
fn change(bits: &mut FixedBitSet, list: &mut [bool], call: usize, (bit, from): (usize, usize), range: Range<usize>) {
    match call {
        0 => assert_eq!(bits.put(bit), std::mem::replace(&mut list[bit], true)),
        1 => {
            bits.toggle(bit);
            list[bit] = !list[bit];
        }
        2 => {
            bits.copy_bit(from, bit);
            list[bit] = list[from];
        }
        3 => {
            bits.insert_range(range.clone());
            list[range].fill(true);
        }
        4 => {
            bits.toggle_range(..range.end);
            list[..range.end].iter_mut().for_each(|bit| *bit = !*bit);
        }
        5 => {
            bits.set_range(range.start.., false);
            list[range.start..].fill(false);
        }
        _ => {
            bits.set(bit, false);
            list[bit] = false;
        }
    }
}

#[test]
fn calls_on_bits() {
    let mut draws = Draws(1);
    for _ in 0..500 {
        let (mut bits, mut list) = draw(&mut draws);
        for _ in 0..20 {
            let length = list.len() + draws.below(9);
            bits.grow(length);
            list.resize(list.len().max(length), false);
            if list.is_empty() {
                continue;
            }
            let (bit, from) = (draws.below(list.len()), draws.below(list.len()));
            let (start, end) = (bit.min(from), bit.max(from));
            change(&mut bits, &mut list, draws.below(7), (bit, from), start..end);
            assert_eq!(bits.count_ones(start..end), ones(&list[start..end]).count());
            same(&bits, &list);
        }
    }
}

#[test]
fn two_sets() {
    let mut draws = Draws(2);
    for _ in 0..2000 {
        let ((bits, list), (other, beside)) = (draw(&mut draws), draw(&mut draws));
        let merged = |length: usize, holds: fn(bool, bool) -> bool| -> Vec<bool> {
            (0..length).map(|bit| holds(at(&list, bit), at(&beside, bit))).collect()
        };
        let (lesser, greater) = (list.len().min(beside.len()), list.len().max(beside.len()));
        same(&(&bits | &other), &merged(greater, |a, b| a | b));
        same(&(&bits ^ &other), &merged(greater, |a, b| a ^ b));
        same(&(&bits & &other), &merged(lesser, |a, b| a & b));
        let mut left = bits.clone();
        left.difference_with(&other);
        same(&left, &merged(list.len(), |a, b| a & !b));
        assert!(bits.difference(&other).eq(left.ones()));
        assert_eq!(bits.is_subset(&other), left.is_clear());
        assert_eq!(other.is_superset(&bits), left.is_clear());
        assert_eq!(bits.is_disjoint(&other), bits.intersection(&other).next().is_none());
        assert_eq!(bits == other, list == beside);
    }
}

#[test]
#[should_panic(expected = "insert at index 10 exceeds fixbitset size 10")]
fn past_the_length() {
    FixedBitSet::with_capacity(10).insert(10);
}
