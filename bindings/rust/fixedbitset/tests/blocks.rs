//! The blocks after each call that changes the length, compared with a list of bits.
mod common;

use common::Draws;
use fixedbitset::FixedBitSet;

// The blocks of these bits.
fn blocks_of(bits: &[bool]) -> Vec<u32> {
    bits.chunks(32).map(|part| part.iter().rev().fold(0, |block, &bit| block << 1 | u32::from(bit))).collect()
}

fn same(set: &FixedBitSet, bits: &[bool]) {
    assert_eq!(set.len(), bits.len());
    assert_eq!(set.as_slice(), blocks_of(bits));
}

fn drawn(draws: &mut Draws) -> (FixedBitSet, Vec<bool>) {
    let bits: Vec<bool> = (0..draws.below(150)).map(|_| draws.below(3) == 0).collect();
    let short = draws.below(6);
    let few: Vec<u32> = blocks_of(&bits).into_iter().take(short).collect();
    let set = FixedBitSet::with_capacity_and_blocks(bits.len(), few.iter().copied());
    let bits: Vec<bool> = bits.iter().enumerate().map(|(n, &bit)| bit && n / 32 < short).collect();
    same(&set, &bits);
    (set, bits)
}

#[test]
fn blocks_after_each_call() {
    let mut draws = Draws(1);
    for _ in 0..3000 {
        let ((mut set, mut bits), (other, others)) = (drawn(&mut draws), drawn(&mut draws));
        let (least, most) = (bits.len().min(others.len()), bits.len().max(others.len()));
        let at = |bits: &[bool], n: usize| bits.get(n).copied().unwrap_or(false);
        let merged = |end: usize, merge: fn(bool, bool) -> bool| -> Vec<bool> {
            (0..end).map(|n| merge(at(&bits, n), at(&others, n))).collect()
        };
        same(&(&set & &other), &merged(least, |a, b| a & b));
        same(&(&set | &other), &merged(most, |a, b| a | b));
        same(&(&set ^ &other), &merged(most, |a, b| a ^ b));
        assert_eq!(set.cmp(&other), (blocks_of(&bits), bits.len()).cmp(&(blocks_of(&others), others.len())));
        let (united, met) = (merged(most, |a, b| a | b), merged(bits.len(), |a, b| a & b));
        match draws.below(4) {
            0 => {
                set.union_with(&other);
                bits = united;
            }
            1 => {
                set.intersect_with(&other);
                bits = met;
            }
            2 => {
                set.clone_from(&other);
                bits = others;
            }
            _ => {
                let length = draws.below(300);
                set.grow(length);
                bits.resize(bits.len().max(length), false);
                set.set_range(bits.len() / 2.., true);
                bits[set.len() / 2..].fill(true);
            }
        }
        same(&set, &bits);
        same(&set.clone(), &bits);
    }
    same(&[70, 3].into_iter().collect(), &(0..71).map(|n| n == 3 || n == 70).collect::<Vec<_>>());
    same(&FixedBitSet::new(), &[]);
    same(&FixedBitSet::with_capacity(33), &[false; 33]);
}
