//! Random scripts. Each has its own keys, in which most of its numbers lie, and sets that are random, clustered, dense
//! and of runs.
use crate::calls::{CALLS, Call, Line};
use crate::croaring::Set;
use crate::random::Random;

/// How many lines a script has. The last one writes bytes.
pub const LINES: usize = 1_000;

/// Sets with more members are emptied occasionally.
const MOST: u64 = 300_000;

/// A bit set is made only of numbers below this one, since it takes memory for all of them.
const GREATEST: usize = 100_000_000;

pub struct Draw {
    random: Random,
    lines_left: usize,
    keys: Vec<usize>,
    /// The most numbers that a call inserts.
    most: usize,
}

impl Draw {
    pub fn new(seed: u64, lines: usize) -> Draw {
        let mut random = Random::new(seed);
        let first = random.of(&[0, 0, 1, 7, 1_000, 65_530]);
        let mut keys: Vec<usize> = (0..1 + random.below(4)).map(|key| first + key).collect();
        keys.extend((0..random.below(4)).map(|_| random.below(65_536)));
        keys.push(65_535);
        let most = random.of(&[20, 300, 6_000, 6_000, 40_000]);
        Draw { random, lines_left: lines, keys, most }
    }

    /// The next line of the script, given the sets at that point.
    pub fn line(&mut self, sets: &[Set; 4]) -> Option<Line> {
        self.lines_left = self.lines_left.checked_sub(1)?;
        let set = self.random.below(4);
        if self.lines_left == 0 {
            return Some(Line { count: self.random.below(2), ..Line::new(Call::Serialize, set) });
        }
        if sets[set].len() > MOST && self.random.once_in(4) {
            return Some(Line::new(Call::Clear, set));
        }
        let mut line = Line::new(self.call(), set);
        line.one = self.random.below(4);
        line.two = self.random.below(4);
        if line.call.is_in_place() && line.one == set {
            line.one = (set + 1 + self.random.below(3)) % 4;
        }
        self.numbers(&mut line, &sets[set]);
        Some(line)
    }

    /// A call. Those that insert numbers and merge in place are more frequent, and those that empty a set less.
    fn call(&mut self) -> Call {
        let often = [Call::Insert, Call::Remove, Call::Spread, Call::Scatter, Call::Erase, Call::UnionWith];
        loop {
            let call = if self.random.once_in(3) { self.random.of(&often) } else { self.random.of(CALLS).0 };
            let is_rare = match call {
                Call::Clear | Call::Intersection | Call::IntersectWith | Call::Clone => true,
                // Thousands of numbers take longer than all other calls together.
                Call::Spread | Call::Scatter | Call::Erase | Call::Append | Call::Extend => self.most > 1_000,
                Call::FromIter | Call::FromSortedIter => true,
                _ => false,
            };
            if !is_rare || self.random.once_in(5) {
                return call;
            }
        }
    }

    fn numbers(&mut self, line: &mut Line, set: &Set) {
        match line.call {
            Call::Spread | Call::Erase | Call::Append | Call::Extend | Call::FromIter | Call::FromSortedIter => {
                line.first = self.number(set);
                line.second = self.random.of(&[1, 1, 1, 2, 3, 7, 16, 63, 4_096, 65_536, 1_000_003]);
                let most = if line.second < 4_096 { self.most } else { 40 };
                line.count = self.count(most);
            }
            Call::Scatter => {
                line.first = self.random.next() as usize >> 8;
                let bits = self.random.of(&[6, 10, 12, 13, 14, 16, 17, 20, 32]);
                line.second = 256 * self.number(set) + bits;
                line.count = self.count(if bits < 20 { self.most } else { 60 });
            }
            Call::Serialize | Call::SerializeInto | Call::Deserialize | Call::SerializedSize => {
                line.count = self.random.below(2);
            }
            Call::DeserializeFrom => {
                line.second = self.random.of(&[1, 3, 100, 8_192, 1_000_000]);
                line.count = self.random.below(2);
            }
            Call::ToBitSet => {
                line.first = self.number(set).min(GREATEST);
                line.count = self.random.below(2);
            }
            Call::InsertRange | Call::RemoveRange => {
                line.first = self.number(set);
                let longest = if self.random.once_in(10) { 200_000 } else { 300 };
                line.second = line.first + self.random.below(longest);
            }
            Call::RangeCardinality | Call::ContainsRange => self.range(line, set),
            Call::Walk => {
                line.first = self.random.below(1 << 32);
                line.count = self.steps();
            }
            Call::Range => {
                self.range(line, set);
                line.count = self.steps();
            }
            Call::NextMany => {
                line.first = self.random.of(&[0, 1, 7, 64, 255, 256]);
                line.count = self.steps();
            }
            Call::Select => line.first = self.random.below(set.len() as usize + 3),
            Call::Iter => {
                let steps = [self.random.below(7), self.random.below(set.len() as usize + 3)];
                line.count = self.random.of(&steps);
            }
            _ => line.first = self.number(set),
        }
    }

    /// A range, which may be empty or pass all numbers.
    fn range(&mut self, line: &mut Line, set: &Set) {
        line.first = self.number(set);
        let ends = [line.first + self.random.below(300), self.number(set), 1 << 32, line.first];
        line.second = self.random.of(&ends);
    }

    /// The number of steps of a walk from both ends.
    fn steps(&mut self) -> usize {
        let most = self.random.of(&[7, 40, 400]);
        self.random.below(most)
    }

    /// How many numbers: few, about as many as a list can have, or up to the most.
    fn count(&mut self, most: usize) -> usize {
        let choices = [1 + self.random.below(9), 4_090 + self.random.below(12), self.random.below(most + 1)];
        self.random.of(&choices).min(most)
    }

    /// A member or a number beside one, the edge of a container, any number with one of the keys, or any at all.
    fn number(&mut self, set: &Set) -> usize {
        let key = self.random.below(self.keys.len());
        let start = 65_536 * self.keys[key];
        let number = match self.random.below(8) {
            0..=2 => {
                let place = self.random.below(set.len() as usize);
                let near = set.select(place as u32).map_or(start, |near| near as usize);
                (near + self.random.below(3)).saturating_sub(1)
            }
            3 => start + self.random.of(&[0, 1, 4_095, 4_096, 32_768, 65_534, 65_535]),
            4 => start + self.random.below(200),
            5 => self.random.below(1 << 32),
            _ => start + self.random.below(65_536),
        };
        number % (1 << 32)
    }
}
