//! The plain slow model: a `BTreeSet` and a length. It has each call, as this library documents it.
use crate::calls::{Call, Line};
use crate::model_walks::{ModelBlocks, ModelMissing, ModelWalk};
use crate::sides::{BlockWalk, Refused, Set, Walk};
use std::cell::Cell;
use std::cmp::Ordering;
use std::collections::BTreeSet;
use std::hash::{Hash, Hasher};
use std::ops::Range;

thread_local! {
    static WIDTH: Cell<usize> = const { Cell::new(32) };
}

/// Sets the number of bits in a block for the scripts that follow.
pub fn set_width(bits: usize) {
    WIDTH.set(bits);
}

pub fn width() -> usize {
    WIDTH.get()
}

#[derive(Clone, Default)]
pub struct Model {
    pub elements: BTreeSet<usize>,
    pub len: usize,
}

impl Model {
    fn filled(len: usize, bit: bool) -> Model {
        let elements = if bit { (0..len).collect() } else { BTreeSet::new() };
        Model { elements, len }
    }

    /// The first value is the highest bit of the first byte.
    fn of_bytes(bytes: &[u8]) -> Model {
        let len = 8 * bytes.len();
        let elements = (0..len).filter(|place| bytes[place / 8] >> (7 - place % 8) & 1 == 1).collect();
        Model { elements, len }
    }

    fn insert(&mut self, number: usize) -> Result<bool, Refused> {
        if number == usize::MAX {
            return Err(Refused);
        }
        self.len = self.len.max(number + 1);
        Ok(self.elements.insert(number))
    }

    fn extend(&mut self, numbers: &[usize]) -> Result<bool, Refused> {
        for number in numbers {
            self.insert(*number)?;
        }
        Ok(true)
    }

    /// Inserts each number of a range, or removes it if it is present and that is asked for.
    fn turn_range(&mut self, from: usize, to: usize, takes_out: bool) {
        for number in from..to {
            if !self.elements.insert(number) && takes_out {
                self.elements.remove(&number);
            }
        }
        if from < to {
            self.len = self.len.max(to);
        }
    }

    fn clear_range(&mut self, range: Range<usize>) {
        self.elements.retain(|element| !range.contains(element));
    }

    fn within(&self, from: usize, to: usize) -> impl Iterator<Item = &usize> {
        self.elements.range(from..to.max(from))
    }

    /// Fails if an element would pass the greatest.
    fn shift_up(&mut self, distance: usize) -> Result<(), Refused> {
        let Some(last) = self.elements.last() else { return Ok(()) };
        let top = last.checked_add(distance).filter(|top| *top < usize::MAX).ok_or(Refused)?;
        self.len = self.len.max(top + 1);
        self.elements = self.elements.iter().map(|element| element + distance).collect();
        Ok(())
    }

    fn truncate(&mut self, len: usize) {
        if len < self.len {
            self.elements.split_off(&len);
            self.len = len;
        }
    }

    pub fn blocks(&self) -> usize {
        self.len.div_ceil(width())
    }

    /// Sets the length to the end of the last nonempty block.
    fn cut_zero_blocks(&mut self) {
        self.len = self.elements.last().map_or(0, |last| (last / width() + 1) * width());
    }

    /// The elements of either set that a call keeps.
    fn merge(&mut self, call: Call, other: &Model) {
        let (one, two) = (&self.elements, &other.elements);
        self.elements = match call {
            Call::UnionWith | Call::UnionChanges | Call::BitsMergeUnion | Call::BitsMergeChangesUnion => one | two,
            Call::IntersectWith | Call::IntersectionChanges | Call::BitsMergeIntersection | Call::BitsMergeChangesIntersection => one & two,
            Call::DifferenceWith | Call::DifferenceChanges | Call::BitsMergeDifference | Call::BitsMergeChangesDifference => one - two,
            _ => one ^ two,
        };
        self.len = self.len.max(other.len);
    }

    fn put(&mut self, place: usize, bit: bool) -> bool {
        if bit { !self.elements.insert(place) } else { self.elements.remove(&place) }
    }

    fn grow(&mut self, count: usize, bit: bool) {
        if bit {
            self.elements.extend(self.len..self.len + count);
        }
        self.len += count;
    }

    /// The values as digits, with a space between blocks if that is asked for.
    pub fn digits(&self, between: &str) -> String {
        let mut text = String::new();
        for place in 0..self.len {
            if place != 0 && place % width() == 0 {
                text.push_str(between);
            }
            text.push(if self.elements.contains(&place) { '1' } else { '0' });
        }
        text
    }
}

impl PartialEq for Model {
    fn eq(&self, other: &Model) -> bool {
        self.elements == other.elements
    }
}

impl Eq for Model {}

impl PartialOrd for Model {
    fn partial_cmp(&self, other: &Model) -> Option<Ordering> {
        Some(self.cmp(other))
    }
}

impl Ord for Model {
    fn cmp(&self, other: &Model) -> Ordering {
        self.elements.iter().cmp(&other.elements)
    }
}

impl Hash for Model {
    fn hash<H: Hasher>(&self, state: &mut H) {
        for element in &self.elements {
            element.hash(state);
        }
    }
}

impl Set for Model {
    fn made(line: &Line) -> Result<Model, Refused> {
        Ok(match line.call {
            Call::WithCapacity | Call::WithCapacityGeneral => Model::filled(line.first, false),
            Call::BitsFromElem | Call::BitsFromElemGeneral => Model::filled(line.first, line.bit()),
            Call::FromBytes | Call::FromBytesGeneral | Call::BitsFromBytes | Call::BitsFromBytesGeneral => {
                Model::of_bytes(&line.bytes())
            }
            Call::FromBytesLsb | Call::FromBytesLsbGeneral => Model::of_bytes(&line.reversed_bytes()),
            Call::FromIter => {
                let mut set = Model::default();
                set.extend(&line.numbers)?;
                set
            }
            _ => Model::default(),
        })
    }

    fn gathered(call: Call, sets: &[Model; 4]) -> Model {
        let mut made = sets[0].clone();
        for set in &sets[1..] {
            let len = if call == Call::UnionOf { made.len.max(set.len) } else { made.len.min(set.len) };
            made.merge(if call == Call::UnionOf { Call::UnionWith } else { Call::IntersectWith }, set);
            made.len = len;
        }
        made
    }

    fn changed(&mut self, line: &Line) -> Result<bool, Refused> {
        match line.call {
            Call::Insert => return self.insert(line.first),
            Call::Remove => return Ok(self.elements.remove(&line.first)),
            Call::Extend => return self.extend(&line.numbers),
            Call::Truncate => self.truncate(line.first),
            Call::MakeEmpty | Call::Clear => self.elements.clear(),
            Call::Reset => *self = Model::default(),
            Call::ShrinkToFit => self.cut_zero_blocks(),
            Call::InsertRange | Call::ToggleRange => {
                self.turn_range(line.first, line.second, line.call == Call::ToggleRange);
            }
            Call::RemoveRange => self.clear_range(line.first..line.second),
            Call::Toggle => {
                let was = self.elements.contains(&line.first);
                self.insert(line.first)?;
                return Ok(!was || !self.elements.remove(&line.first));
            }
            Call::Set if line.bit() => return self.insert(line.first),
            Call::Set => return Ok(self.elements.remove(&line.first)),
            Call::Retain => self.elements.retain(|element| element % 3 != line.first % 3),
            Call::ShiftUp => self.shift_up(line.first)?,
            Call::ShiftDown => {
                self.elements = self.elements.iter().filter_map(|element| element.checked_sub(line.first)).collect();
            }
            _ => {}
        }
        Ok(true)
    }

    fn merged(&mut self, call: Call, other: &Model) {
        self.merge(call, other);
    }

    fn append(&mut self, other: &mut Model) {
        self.merge(Call::UnionWith, other);
        other.elements.clear();
    }

    fn split_off(&mut self, at: usize) -> Model {
        if at >= self.len && at != 0 {
            return Model::default();
        }
        let part = Model { elements: self.elements.split_off(&at), len: self.len };
        self.len = at;
        part
    }

    fn copy_range(&self, from: usize, to: usize) -> Model {
        let end = to.min(self.len);
        let len = if from < end { end } else { 0 };
        Model { elements: self.within(from, to).copied().collect(), len }
    }

    fn bits_clone(&self) -> Model {
        self.clone()
    }

    fn bits_clone_tail(&self, at: usize) -> Model {
        Model { elements: self.elements.range(at..).copied().collect(), len: self.len }
    }

    fn contains(&self, number: usize) -> bool {
        self.elements.contains(&number)
    }

    fn count(&self) -> usize {
        self.elements.len()
    }

    fn is_empty(&self) -> bool {
        self.elements.is_empty()
    }

    fn capacity(&self) -> usize {
        self.len
    }

    fn is_subset(&self, other: &Model) -> bool {
        self.elements.is_subset(&other.elements)
    }

    fn is_superset(&self, other: &Model) -> bool {
        self.elements.is_superset(&other.elements)
    }

    fn is_disjoint(&self, other: &Model) -> bool {
        self.elements.is_disjoint(&other.elements)
    }

    fn display(&self) -> String {
        format!("{:?}", self.elements)
    }

    fn debug(&self) -> String {
        format!("BitSet {{ bit_vec: {} }}", self.bits_debug())
    }

    fn json(&self) -> Option<String> {
        let numbers: Vec<String> = self.bits_storage().iter().map(u128::to_string).collect();
        let text = format!("{{\"bit_vec\":{{\"nbits\":{},\"storage\":[{}]}}}}", self.len, numbers.join(","));
        (width() < 128).then_some(text)
    }

    fn walk<'a>(&'a self, line: &Line, other: &'a Model) -> Box<dyn Walk + 'a> {
        let (one, two) = (&self.elements, &other.elements);
        let call = line.call;
        if call == Call::Missing {
            let first = line.first.min(line.second);
            let index = first / width() * width();
            return Box::new(ModelMissing { elements: one, at: first, index, end: line.second });
        }
        let items: Vec<usize> = match call {
            Call::Iter => one.iter().copied().collect(),
            Call::IterFrom => one.range(line.first..).copied().collect(),
            Call::Union => one.union(two).copied().collect(),
            Call::Intersection => one.intersection(two).copied().collect(),
            Call::Difference => one.difference(two).copied().collect(),
            _ => one.symmetric_difference(two).copied().collect(),
        };
        let is_of_one = matches!(call, Call::Iter | Call::IterFrom);
        let all = if is_of_one { self.blocks() } else { self.blocks().max(other.blocks()) };
        let last_block = all.max(1) - 1;
        let block = if call == Call::IterFrom { (line.first / width()).min(last_block) } else { 0 };
        let most = (call == Call::Intersection).then_some(self.len.min(other.len));
        Box::new(ModelWalk { items: items.into(), taken: 0, last_block, block, most })
    }

    fn elements(&self) -> Vec<usize> {
        self.elements.iter().copied().collect()
    }

    fn fused(&mut self, call: Call, one: &Model, two: Option<&Model>) -> bool {
        let old = self.elements.clone();
        let in_two = |number: &usize| two.is_some_and(|two| two.elements.contains(number));
        let wanted = matches!(call, Call::UnionWithIntersection | Call::BitsUniteIntersection);
        if matches!(call, Call::CopyDifference | Call::BitsBecomeDifference) {
            self.elements.clear();
        }
        self.elements.extend(one.elements.iter().filter(|number| in_two(number) == wanted));
        self.len = self.len.max(one.len);
        self.elements != old
    }

    fn popped(&mut self, call: Call) -> Option<usize> {
        if call == Call::PopFirst { self.elements.pop_first() } else { self.elements.pop_last() }
    }

    fn read_range(&self, call: Call, from: usize, to: usize) -> usize {
        let count = self.within(from, to).count();
        match call {
            Call::CountInRange | Call::BitsCountOnesInRange => count,
            Call::ContainsAnyInRange | Call::BitsAnyInRange => usize::from(count > 0),
            _ => usize::from(count == to.saturating_sub(from)),
        }
    }

    fn found(&self, call: Call, number: usize) -> Option<usize> {
        match call {
            Call::First => self.elements.first(),
            Call::Last => self.elements.last(),
            Call::Next | Call::BitsFirstOneFrom => self.elements.range(number..).next(),
            _ => self.elements.range(..number).next_back(),
        }
        .copied()
    }

    fn next_missing(&self, number: usize) -> usize {
        let mut missing = number;
        while self.elements.contains(&missing) {
            missing += 1;
        }
        missing
    }

    fn first_gap(&self, from: usize, count: usize) -> Option<usize> {
        let mut gap = from;
        for element in self.elements.range(from..) {
            if element - gap >= count {
                break;
            }
            gap = element + 1;
        }
        gap.checked_add(count).map(|_| gap)
    }

    fn to_bytes(&self) -> Vec<u8> {
        let mut bytes = vec![0; self.len.div_ceil(8)];
        for element in &self.elements {
            bytes[element / 8] |= 128 >> (element % 8);
        }
        bytes
    }

    fn bits_written(&mut self, line: &Line, other: &Model) -> Option<bool> {
        match line.call {
            Call::BitsSet | Call::BitsReplace => return Some(self.put(line.first, line.bit())),
            Call::BitsFill => *self = Model::filled(self.len, line.bit()),
            Call::BitsTruncate => self.truncate(line.first),
            Call::BitsRemoveAll => *self = Model::default(),
            Call::BitsGrow => self.grow(line.first, line.bit()),
            Call::BitsCutZeroBlocks => self.cut_zero_blocks(),
            Call::BitsCloneFrom => *self = other.clone(),
            Call::BitsSetRange | Call::BitsNegateRange => {
                let to = line.second.min(self.len);
                self.turn_range(line.first, to, line.call == Call::BitsNegateRange);
            }
            Call::BitsClearRange => self.clear_range(line.first..line.second),
            Call::BitsKeepInBlock => {
                self.elements.retain(|number| number / width() != line.first || other.elements.contains(number));
            }
            Call::BitsReserve | Call::BitsReserveExact | Call::BitsShrinkToFit => {}
            merge => self.merge(merge, other),
        }
        None
    }

    fn bits_len(&self) -> usize {
        self.len
    }

    fn bits_get(&self, place: usize) -> Option<bool> {
        (place < self.len).then(|| self.elements.contains(&place))
    }

    fn bits_none(&self) -> bool {
        self.elements.is_empty()
    }

    fn bits_count_ones(&self) -> usize {
        self.elements.len()
    }

    fn bits_capacity(&self) -> usize {
        self.len
    }

    fn bits_storage(&self) -> Vec<u128> {
        let mut blocks = vec![0; self.blocks()];
        for element in &self.elements {
            blocks[element / width()] |= 1 << (element % width());
        }
        blocks
    }

    fn bits_blocks(&self) -> Box<dyn BlockWalk + '_> {
        Box::new(ModelBlocks { blocks: self.bits_storage().into(), taken: 0 })
    }

    fn bits_is_subset_of(&self, other: &Model) -> bool {
        self.is_subset(other)
    }

    fn bits_is_disjoint_from(&self, other: &Model) -> bool {
        self.is_disjoint(other)
    }

    fn bits_debug(&self) -> String {
        format!("BitVec {{ storage: \"{}\", nbits: {} }}", self.digits(" "), self.len)
    }
}
