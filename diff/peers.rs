//! The Rust crates' side: `bit-set` 0.5.2 over `bit-vec` 0.6.3. Calls that they lack are lines of the table in
//! `departures.rs`, and do not reach this file.
use crate::calls::{Call, Line};
use crate::model::Model;
use crate::sides::{BlockWalk, Refused, Set, Walk};
use bit_set::BitSet;
use bit_vec::{BitBlock, BitVec};
use std::mem::take;

/// A block type of the peers.
pub trait Block: BitBlock + 'static {
    fn number(self) -> u128;

    /// What exists only for `u32`; `None` for others.
    fn made(_line: &Line) -> Option<BitSet<Self>> {
        None
    }

    /// The set of a bit vector: a call for `u32`, and element by element for others.
    fn joined(bits: BitVec<Self>) -> BitSet<Self> {
        let mut set = BitSet::default();
        if let Some(last) = bits.len().checked_sub(1) {
            set.insert(last);
            set.remove(last);
        }
        for (place, block) in bits.blocks().enumerate() {
            let mut ones = block.number();
            while ones != 0 {
                set.insert(place * Self::bits() + ones.trailing_zeros() as usize);
                ones &= ones - 1;
            }
        }
        set
    }
}

macro_rules! blocks {
    ($($block:ident)*) => {
        $(impl Block for $block {
            fn number(self) -> u128 {
                self as u128
            }
        })*
    };
}

blocks! { u8 u16 u64 usize }

impl Block for u32 {
    fn number(self) -> u128 {
        u128::from(self)
    }

    fn made(line: &Line) -> Option<BitSet> {
        let bits = match line.call {
            Call::New => return Some(BitSet::new()),
            Call::WithCapacity | Call::WithCapacityGeneral => return Some(BitSet::with_capacity(line.first)),
            Call::FromBytes | Call::FromBytesGeneral => return Some(BitSet::from_bytes(&line.bytes())),
            Call::FromBytesLsb | Call::FromBytesLsbGeneral => return Some(BitSet::from_bytes(&line.reversed_bytes())),
            Call::BitsNew => BitVec::new(),
            Call::BitsFromElem | Call::BitsFromElemGeneral => BitVec::from_elem(line.first, line.bit()),
            Call::BitsFromBytes | Call::BitsFromBytesGeneral => BitVec::from_bytes(&line.bytes()),
            _ => return None,
        };
        Some(BitSet::from_bit_vec(bits))
    }

    fn joined(bits: BitVec) -> BitSet {
        BitSet::from_bit_vec(bits)
    }
}

#[derive(PartialEq, Eq, PartialOrd, Ord, Hash)]
pub struct Peer<B: Block>(BitSet<B>);

impl<B: Block> Clone for Peer<B> {
    fn clone(&self) -> Self {
        Peer(self.0.clone())
    }

    fn clone_from(&mut self, other: &Self) {
        self.0.clone_from(&other.0);
    }
}

impl<B: Block> Peer<B> {
    /// The set of the model.
    pub fn of(model: &Model) -> Self {
        let mut bits = BitVec::<B>::default();
        bits.grow(model.len, false);
        for element in &model.elements {
            bits.set(*element, true);
        }
        Peer(B::joined(bits))
    }

    fn bits(&self) -> &BitVec<B> {
        self.0.get_ref()
    }

    /// What later releases lend by `get_mut`: this one has only `into_bit_vec`.
    fn edit(&mut self, change: impl FnOnce(&mut BitVec<B>)) {
        let mut bits = take(&mut self.0).into_bit_vec();
        change(&mut bits);
        self.0 = B::joined(bits);
    }
}

impl<B: Block> Set for Peer<B> {
    fn made(line: &Line) -> Result<Self, Refused> {
        Ok(Peer(match B::made(line) {
            Some(set) => set,
            None if line.call == Call::FromIter => line.numbers.iter().copied().collect(),
            None => BitSet::default(),
        }))
    }

    fn gathered(_call: Call, _sets: &[Self; 4]) -> Self {
        unreachable!("by the model")
    }

    fn changed(&mut self, line: &Line) -> Result<bool, Refused> {
        let set = &mut self.0;
        match line.call {
            Call::Insert => return Ok(set.insert(line.first)),
            Call::Remove => return Ok(set.remove(line.first)),
            Call::Extend => set.extend(line.numbers.iter().copied()),
            Call::Truncate => self.edit(|bits| bits.truncate(line.first)),
            Call::MakeEmpty | Call::Clear => set.clear(),
            Call::Reset => *set = BitSet::default(),
            Call::ReserveLen => set.reserve_len(line.first),
            Call::ReserveLenExact => set.reserve_len_exact(line.first),
            Call::ShrinkToFit => set.shrink_to_fit(),
            _ => self.edit(|_| {}),
        }
        Ok(true)
    }

    fn merged(&mut self, call: Call, other: &Self) {
        match call {
            Call::UnionWith => self.0.union_with(&other.0),
            Call::IntersectWith => self.0.intersect_with(&other.0),
            Call::DifferenceWith => self.0.difference_with(&other.0),
            _ => self.0.symmetric_difference_with(&other.0),
        }
    }

    fn append(&mut self, _other: &mut Self) {
        unreachable!("by the model")
    }

    fn split_off(&mut self, _at: usize) -> Self {
        unreachable!("by the model")
    }

    fn copy_range(&self, _from: usize, _to: usize) -> Self {
        unreachable!("by the model")
    }

    fn bits_clone(&self) -> Self {
        Peer(B::joined(self.bits().clone()))
    }

    fn bits_clone_tail(&self, _at: usize) -> Self {
        unreachable!("by the model")
    }

    fn contains(&self, number: usize) -> bool {
        self.0.contains(number)
    }

    fn count(&self) -> usize {
        self.0.len()
    }

    fn is_empty(&self) -> bool {
        self.0.is_empty()
    }

    fn capacity(&self) -> usize {
        self.0.capacity()
    }

    fn is_subset(&self, other: &Self) -> bool {
        self.0.is_subset(&other.0)
    }

    fn is_superset(&self, other: &Self) -> bool {
        self.0.is_superset(&other.0)
    }

    fn is_disjoint(&self, other: &Self) -> bool {
        self.0.is_disjoint(&other.0)
    }

    fn display(&self) -> String {
        unreachable!("by the model")
    }

    fn debug(&self) -> String {
        format!("{:?}", self.0)
    }

    fn json(&self) -> Option<String> {
        unreachable!("by the model")
    }

    fn walk<'a>(&'a self, line: &Line, other: &'a Self) -> Box<dyn Walk + 'a> {
        let (one, two) = (&self.0, &other.0);
        match line.call {
            Call::Iter => Box::new(Items(one.iter())),
            Call::Union => Box::new(Items(one.union(two))),
            Call::Intersection => Box::new(Items(one.intersection(two))),
            Call::Difference => Box::new(Items(one.difference(two))),
            _ => Box::new(Items(one.symmetric_difference(two))),
        }
    }

    fn elements(&self) -> Vec<usize> {
        let mut elements = Vec::new();
        for element in &self.0 {
            elements.push(element);
        }
        elements
    }

    fn fused(&mut self, _call: Call, _one: &Self, _two: Option<&Self>) -> bool {
        unreachable!("by the model")
    }

    fn popped(&mut self, _call: Call) -> Option<usize> {
        unreachable!("by the model")
    }

    fn read_range(&self, _call: Call, _from: usize, _to: usize) -> usize {
        unreachable!("by the model")
    }

    fn found(&self, _call: Call, _number: usize) -> Option<usize> {
        unreachable!("by the model")
    }

    fn next_missing(&self, _number: usize) -> usize {
        unreachable!("by the model")
    }

    fn first_gap(&self, _from: usize, _count: usize) -> Option<usize> {
        unreachable!("by the model")
    }

    fn to_bytes(&self) -> Vec<u8> {
        unreachable!("by the model")
    }

    fn bits_written(&mut self, line: &Line, other: &Self) -> Option<bool> {
        self.edit(|bits| match line.call {
            Call::BitsSet => bits.set(line.first, line.bit()),
            Call::BitsFill if line.bit() => bits.set_all(),
            Call::BitsFill => bits.clear(),
            Call::BitsTruncate => bits.truncate(line.first),
            Call::BitsGrow => bits.grow(line.first, line.bit()),
            Call::BitsReserve => bits.reserve(line.first),
            Call::BitsReserveExact => bits.reserve_exact(line.first),
            Call::BitsShrinkToFit => bits.shrink_to_fit(),
            Call::BitsCloneFrom => bits.clone_from(other.bits()),
            _ => unreachable!("by the model"),
        });
        None
    }

    fn bits_len(&self) -> usize {
        self.bits().len()
    }

    fn bits_get(&self, place: usize) -> Option<bool> {
        self.bits().get(place)
    }

    fn bits_none(&self) -> bool {
        self.bits().none()
    }

    fn bits_count_ones(&self) -> usize {
        unreachable!("by the model")
    }

    fn bits_capacity(&self) -> usize {
        self.bits().capacity()
    }

    fn bits_storage(&self) -> Vec<u128> {
        self.bits().storage().iter().map(|block| block.number()).collect()
    }

    fn bits_blocks(&self) -> Box<dyn BlockWalk + '_> {
        Box::new(Blocks(self.bits().blocks()))
    }

    fn bits_is_subset_of(&self, _other: &Self) -> bool {
        unreachable!("by the model")
    }

    fn bits_is_disjoint_from(&self, _other: &Self) -> bool {
        unreachable!("by the model")
    }

    fn bits_debug(&self) -> String {
        format!("{:?}", self.bits())
    }
}

struct Items<I>(I);

impl<I: Iterator<Item = usize> + Clone> Walk for Items<I> {
    fn bounds(&self) -> (usize, Option<usize>) {
        self.0.size_hint()
    }

    fn next(&mut self) -> Option<usize> {
        self.0.next()
    }

    fn copy(&self) -> Box<dyn Walk + '_> {
        Box::new(Items(self.0.clone()))
    }

    fn count_left(&self) -> usize {
        self.0.clone().count()
    }
}

struct Blocks<I>(I);

impl<B: Block, I: Iterator<Item = B> + Clone> BlockWalk for Blocks<I> {
    fn bounds(&self) -> (usize, Option<usize>) {
        self.0.size_hint()
    }

    fn next(&mut self) -> Option<u128> {
        self.0.next().map(Block::number)
    }

    fn copy(&self) -> Box<dyn BlockWalk + '_> {
        Box::new(Blocks(self.0.clone()))
    }
}
