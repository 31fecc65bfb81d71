//! A script on both sides: this library's, the static library `crates/roaring_calls`, and CRoaring's.
use crate::bends::Bend;
use crate::calls::{Call, Line};
use crate::croaring::{Calls, Set};
use crate::walks::{digest_of_steps, numbers_between};

unsafe extern "C" {
    fn roaring_run(
        script: *const usize,
        n: usize,
        input: *const u8,
        i: usize,
        places: *mut usize,
        m: usize,
        out: *mut u8,
        o: usize,
    ) -> usize;
}

/// The result of a call, and how many members its set then has.
pub type Words = [usize; 2];

/// Stands for a call that would change a set by itself.
const LEFT_OUT: usize = 7;

/// Where the sides differ.
pub struct Difference {
    pub line: usize,
    pub peer: Option<Words>,
    pub ours: Option<Words>,
    pub reason: &'static str,
}

/// CRoaring's sets.
pub struct Peer<'a> {
    calls: &'a Calls,
    pub sets: [Set<'a>; 4],
    /// The bytes that this library reads, and those of the set that was written last.
    input: Vec<u8>,
    written: Option<(usize, Vec<u8>)>,
}

/// 0 for none, else one more than the number.
pub fn of_item(item: Option<u32>) -> usize {
    item.map_or(0, |number| number as usize + 1)
}

/// A digest of a list of numbers.
pub fn digest_of(start: usize, numbers: impl Iterator<Item = usize>) -> usize {
    numbers.fold(start, |digest, number| digest.wrapping_mul(1_099_511_628_211).wrapping_add(number))
}

/// A digest of the results of this many steps of a walk.
pub fn digest_of_walk(numbers: &[u32], steps: usize) -> usize {
    let items = numbers.iter().map(|number| of_item(Some(*number)));
    digest_of(0, items.chain(std::iter::repeat(0)).take(steps))
}

/// A step of the random number generator, which this library's side has too.
pub fn next_state(state: u64) -> u64 {
    state.wrapping_mul(6_364_136_223_846_793_005).wrapping_add(1_442_695_040_888_963_407)
}

/// The numbers of a line that inserts or removes many.
fn numbers_of(line: &Line) -> Vec<u32> {
    if line.call != Call::Scatter {
        let number = |turn: usize| (line.first as u32).wrapping_add((line.second as u32).wrapping_mul(turn as u32));
        return (0..line.count).map(number).collect();
    }
    let base = (line.second / 256) as u32;
    let mask = (1u64 << (line.second % 33)) - 1;
    let mut state = line.first as u64;
    let next = |_| {
        state = next_state(state);
        base.wrapping_add(((state >> 24) & mask) as u32)
    };
    (0..line.count).map(next).collect()
}

impl<'a> Peer<'a> {
    pub fn new(calls: &'a Calls) -> Self {
        let set = || Set::new(calls);
        Peer { calls, sets: [set(), set(), set(), set()], input: Vec::new(), written: None }
    }

    /// The bytes of a set in the form of the line. CRoaring chooses the shorter of lists and blocks, but keeps some
    /// runs that have more bytes.
    fn bytes(&self, set: usize, line: &Line) -> Vec<u8> {
        let mut copy = self.sets[set].clone();
        copy.remove_runs();
        if line.count == 1 {
            copy.optimize();
        }
        copy.bytes()
    }

    /// Makes the call of a line. In a line that reads bytes it stores their place.
    fn call(&mut self, line: &mut Line, bend: Option<&Bend>) -> Words {
        let mut returned = match line.call {
            Call::Deserialize | Call::DeserializeFrom => self.read(line),
            Call::Serialize | Call::SerializeInto => self.write(line),
            Call::Clone => {
                self.sets[line.set] = self.sets[line.one].clone();
                0
            }
            _ if line.call.is_in_place() => self.merge(line),
            Call::Union | Call::Intersection | Call::Difference | Call::SymmetricDifference => self.make(line),
            Call::Append | Call::Extend | Call::FromIter | Call::FromSortedIter => self.change_by_items(line),
            _ => self.change(line).unwrap_or_else(|| self.look(line)),
        };
        if let Some(bend) = bend.filter(|bend| bend.call == line.call) {
            let other = self.sets[line.one].clone();
            (bend.turn)(line, &mut self.sets[line.set], &other, &mut returned);
        }
        [returned, self.sets[line.set].len() as usize]
    }

    fn read(&mut self, line: &mut Line) -> usize {
        let bytes = self.bytes(line.one, line);
        line.first = self.input.len();
        self.input.extend(&bytes);
        if line.call == Call::Deserialize {
            line.second = self.input.len();
        }
        let Some((set, len)) = Set::of_bytes(self.calls, &bytes) else { return 0 };
        self.sets[line.set] = set;
        len
    }

    fn write(&mut self, line: &Line) -> usize {
        let bytes = self.bytes(line.set, line);
        let digest = digest_of(bytes.len(), bytes.iter().map(|byte| usize::from(*byte)));
        self.written = Some((line.set, bytes));
        digest
    }

    fn make(&mut self, line: &Line) -> usize {
        if let Some(merge) = line.call.merge() {
            self.sets[line.set] = Set::made(merge, &self.sets[line.one], &self.sets[line.two]);
        }
        0
    }

    fn merge(&mut self, line: &Line) -> usize {
        if line.set == line.one {
            return LEFT_OUT;
        }
        let (before, other) = (self.sets[line.set].clone(), self.sets[line.one].clone());
        if let Some(merge) = line.call.merge() {
            self.sets[line.set].merge(merge, &other);
        }
        usize::from(self.sets[line.set] != before)
    }

    /// A call by items. Those of `append` are inserted up to the first that is not above the ones before; a set of
    /// sorted items is made only if all are.
    fn change_by_items(&mut self, line: &Line) -> usize {
        let numbers = numbers_of(line);
        let set = &mut self.sets[line.set];
        let is_past = |set: &Set, number: u32| set.max().is_none_or(|last| last < number);
        match line.call {
            Call::Append => numbers.iter().take_while(|number| is_past(set, **number) && set.insert(**number)).count(),
            Call::Extend => {
                for number in numbers {
                    set.insert(number);
                }
                0
            }
            _ => {
                let mut made = Set::new(self.calls);
                let sorted = line.call == Call::FromSortedIter;
                let goes_in = |number: &&u32| (!sorted || is_past(&made, **number)) && (made.insert(**number) || !sorted);
                let count = numbers.iter().take_while(goes_in).count();
                if count == numbers.len() {
                    *set = made;
                }
                if sorted { count } else { 0 }
            }
        }
    }

    /// A call that changes one set by numbers; `None` if the line is of another call.
    fn change(&mut self, line: &Line) -> Option<usize> {
        let set = &mut self.sets[line.set];
        let number = line.first as u32;
        Some(match line.call {
            Call::Clear => {
                set.clear();
                0
            }
            Call::Insert => usize::from(set.insert(number)),
            Call::Remove => usize::from(set.remove(number)),
            Call::Spread | Call::Scatter => {
                numbers_of(line).iter().filter(|number| set.insert(**number)).count()
            }
            Call::Optimize => {
                set.optimize();
                0
            }
            Call::RemoveRuns => {
                set.remove_runs();
                0
            }
            Call::InsertRange => set.insert_range(line.first as u64, line.second as u64) as usize,
            Call::RemoveRange => set.remove_range(line.first as u64, line.second as u64) as usize,
            Call::Push => usize::from(set.max().is_none_or(|last| last < number) && set.insert(number)),
            Call::Erase => numbers_of(line).iter().filter(|number| set.remove(**number)).count(),
            _ => return None,
        })
    }

    fn look(&self, line: &Line) -> usize {
        let (set, other) = (&self.sets[line.set], &self.sets[line.one]);
        let number = line.first as u32;
        match line.call {
            Call::Contains => usize::from(set.contains(number)),
            Call::Len => set.len() as usize,
            Call::IsEmpty => usize::from(set.is_empty()),
            Call::Min => of_item(set.min()),
            Call::Max => of_item(set.max()),
            Call::Rank => set.rank(number) as usize,
            Call::Select => of_item(set.select(number)),
            Call::Iter => digest_of_walk(&set.numbers(), line.count),
            Call::Walk => digest_of_steps(set, &set.numbers(), line),
            Call::Range => digest_of_steps(set, &numbers_between(set, line.first, line.second), line),
            Call::NextMany => digest_of(0, set.reads(line.first, line.count).into_iter()),
            Call::ToBitSet => {
                let below = numbers_between(set, 0, line.first);
                digest_of_walk(&below, below.len())
            }
            Call::SerializedSize => self.bytes(line.set, line).len(),
            Call::RangeCardinality => set.range_len(line.first as u64, line.second as u64) as usize,
            Call::ContainsRange => usize::from(set.contains_range(line.first as u64, line.second as u64)),
            Call::IsSubset => usize::from(set.is_subset(other)),
            Call::IsSuperset => usize::from(other.is_subset(set)),
            Call::IsDisjoint => usize::from(set.is_disjoint(other)),
            Call::Eq => usize::from(set == other),
            _ => line.call.merge().map_or(0, |merge| set.merged_len(merge, other) as usize),
        }
    }
}

/// This library's result for each call, and the bytes that it wrote last, which must be this many.
fn ours(script: &[Line], input: &[u8], bytes: usize) -> (Vec<Words>, Vec<u8>) {
    let words: Vec<usize> = script.iter().flat_map(Line::words).collect();
    let mut places: Vec<Words> = vec![[0; 2]; script.len()];
    let mut out = vec![0; bytes];
    let count = unsafe {
        roaring_run(
            words.as_ptr(),
            words.len(),
            input.as_ptr(),
            input.len(),
            places.as_mut_ptr().cast(),
            2 * places.len(),
            out.as_mut_ptr(),
            out.len(),
        )
    };
    places.truncate(count);
    (places, out)
}

/// Runs the lines that `next` returns, given CRoaring's sets at that point. They are left in `lines`.
pub fn differ(
    calls: &Calls,
    bend: Option<&Bend>,
    lines: &mut Vec<Line>,
    mut next: impl FnMut(&[Set; 4]) -> Option<Line>,
) -> Option<Difference> {
    let mut peer = Peer::new(calls);
    let mut words = Vec::new();
    while let Some(mut line) = next(&peer.sets) {
        words.push(peer.call(&mut line, bend));
        lines.push(line);
    }
    let len = peer.written.as_ref().map_or(0, |(_, bytes)| bytes.len());
    let (ours, out) = ours(lines, &peer.input, len);
    let same = words.iter().zip(&ours).take_while(|(word, place)| word == place).count();
    if same < words.len() {
        let (peer, ours) = (words.get(same).copied(), ours.get(same).copied());
        return Some(Difference { line: same + 1, peer, ours, reason: "the calls return something else" });
    }
    bytes_differ(calls, &peer, lines, &out)
        .map(|reason| Difference { line: lines.len(), peer: None, ours: None, reason })
}

/// Compares the bytes that were written last, and reads this library's by CRoaring, which must give the same set. The
/// set must be that of the last line.
fn bytes_differ(calls: &Calls, peer: &Peer, lines: &[Line], out: &[u8]) -> Option<&'static str> {
    let (set, bytes) = peer.written.as_ref()?;
    if lines.last()?.call != Call::Serialize {
        return None;
    }
    if bytes != out {
        return Some("the bytes are not the same");
    }
    match Set::of_bytes(calls, out) {
        Some((read, len)) if len == out.len() && read == peer.sets[*set] => None,
        _ => Some("CRoaring reads another set from the bytes"),
    }
}
