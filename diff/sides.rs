//! What a side written in Rust must offer, and how the results of a call are written as words: as in
//! `crates/diff_calls`, so that they can be compared word by word.
use crate::block_calls::look;
use crate::calls::{Call, Group, Line};
use crate::model::width;
use std::hash::{Hash, Hasher};

/// Stands for an element that cannot be inserted.
const REFUSED: usize = 2;

/// An element that no length can have.
pub struct Refused;

/// A walk over elements.
pub trait Walk {
    fn bounds(&self) -> (usize, Option<usize>);
    fn next(&mut self) -> Option<usize>;
    fn copy(&self) -> Box<dyn Walk + '_>;
    fn count_left(&self) -> usize;
}

/// A set of one side. Each function is the call of its name; those with `bits` are calls of the bit vector.
pub trait Set: Sized + Ord + Hash + Clone {
    fn made(line: &Line) -> Result<Self, Refused>;
    /// The call that makes a set from all four.
    fn gathered(call: Call, sets: &[Self; 4]) -> Self;
    fn changed(&mut self, line: &Line) -> Result<bool, Refused>;
    fn merged(&mut self, call: Call, other: &Self);
    fn append(&mut self, other: &mut Self);
    fn split_off(&mut self, at: usize) -> Self;
    fn copy_range(&self, from: usize, to: usize) -> Self;
    fn bits_clone(&self) -> Self;
    fn bits_clone_tail(&self, at: usize) -> Self;
    fn contains(&self, number: usize) -> bool;
    fn count(&self) -> usize;
    fn is_empty(&self) -> bool;
    fn capacity(&self) -> usize;
    fn is_subset(&self, other: &Self) -> bool;
    fn is_superset(&self, other: &Self) -> bool;
    fn is_disjoint(&self, other: &Self) -> bool;
    fn display(&self) -> String;
    fn debug(&self) -> String;
    /// `None` if blocks of this type have no JSON form.
    fn json(&self) -> Option<String>;
    fn walk<'a>(&'a self, line: &Line, other: &'a Self) -> Box<dyn Walk + 'a>;
    fn elements(&self) -> Vec<usize>;
    /// The call that changes this set by two others, and whether it did.
    fn fused(&mut self, call: Call, one: &Self, two: Option<&Self>) -> bool;
    fn popped(&mut self, call: Call) -> Option<usize>;
    fn read_range(&self, call: Call, from: usize, to: usize) -> usize;
    fn found(&self, call: Call, number: usize) -> Option<usize>;
    fn next_missing(&self, number: usize) -> usize;
    fn first_gap(&self, from: usize, count: usize) -> Option<usize>;
    fn to_bytes(&self) -> Vec<u8>;
    fn bits_written(&mut self, line: &Line, other: &Self) -> Option<bool>;
    fn bits_len(&self) -> usize;
    fn bits_get(&self, place: usize) -> Option<bool>;
    fn bits_none(&self) -> bool;
    fn bits_count_ones(&self) -> usize;
    fn bits_capacity(&self) -> usize;
    fn bits_storage(&self) -> Vec<u128>;
    fn bits_blocks(&self) -> Box<dyn BlockWalk + '_>;
    fn bits_is_subset_of(&self, other: &Self) -> bool;
    fn bits_is_disjoint_from(&self, other: &Self) -> bool;
    fn bits_debug(&self) -> String;
}

/// A walk over blocks.
pub trait BlockWalk {
    fn bounds(&self) -> (usize, Option<usize>);
    fn next(&mut self) -> Option<u128>;
    fn copy(&self) -> Box<dyn BlockWalk + '_>;
}

/// The results of the calls made so far, as words.
#[derive(Default)]
pub struct Answers(pub Vec<usize>);

impl Answers {
    pub fn number(&mut self, number: usize) {
        self.0.push(number);
    }

    pub fn truth(&mut self, truth: bool) {
        self.number(usize::from(truth));
    }

    pub fn item(&mut self, item: Option<usize>) {
        self.number(item.map_or(0, |item| item + 1));
    }

    pub fn bit(&mut self, bit: Option<bool>) {
        self.item(bit.map(usize::from));
    }

    pub fn bounds(&mut self, (lower, upper): (usize, Option<usize>)) {
        self.0.extend([lower, upper.unwrap_or(usize::MAX)]);
    }

    pub fn text(&mut self, text: &str) {
        self.bytes(text.as_bytes());
    }

    pub fn bytes(&mut self, bytes: &[u8]) {
        self.number(bytes.len());
        self.0.extend(bytes.iter().copied().map(usize::from));
    }

    pub fn change(&mut self, ended: Result<bool, Refused>) {
        self.number(ended.map_or(REFUSED, usize::from));
    }

    pub fn block(&mut self, block: u128) {
        self.0.extend([block as u64 as usize, (block >> 64) as usize]);
    }

    pub fn next_block(&mut self, next: Option<u128>) {
        self.truth(next.is_some());
        self.block(next.unwrap_or(0));
    }

    pub fn storage(&mut self, blocks: &[u128]) {
        self.number(blocks.len());
        for block in blocks {
            self.block(*block);
        }
    }
}

/// Counts the calls of a hasher, and has a digest of the bytes.
#[derive(Default)]
struct Feed {
    calls: usize,
    digest: u64,
}

impl Hasher for Feed {
    fn finish(&self) -> u64 {
        self.digest
    }

    fn write(&mut self, bytes: &[u8]) {
        self.calls += 1;
        for byte in bytes {
            self.digest = self.digest.wrapping_mul(1099511628211).wrapping_add(u64::from(*byte));
        }
    }
}

/// Makes the call of a line, and then writes the lengths of both sets.
pub fn answer<S: Set>(sets: &mut [S; 4], line: &Line, answers: &mut Answers) {
    match line.call.group() {
        _ if matches!(line.call, Call::UnionOf | Call::IntersectionOf) => {
            sets[line.set] = S::gathered(line.call, sets);
            answers.truth(true);
        }
        Group::Make => {
            let made = S::made(line).map(|set| sets[line.set] = set);
            answers.change(made.map(|()| true));
        }
        Group::Read => read(&sets[line.set], &sets[line.other], line, answers),
        Group::Walk => walk(&sets[line.set], &sets[line.other], line, answers),
        _ if line.is_idle() => {}
        _ if line.is_fused_of_bits() && sets[line.set].bits_len() < sets[line.other].bits_len() => {}
        _ if line.is_fused() => {
            let mut set = sets[line.set].clone();
            let third = line.first % 4;
            let two = if third == line.set { None } else { Some(&sets[third]) };
            let changed = set.fused(line.call, &sets[line.other], two);
            sets[line.set] = set;
            answers.truth(changed);
        }
        group => {
            let [set, other] = sets.get_disjoint_mut([line.set, line.other]).expect("two sets");
            match group {
                Group::Change => change(set, other, line, answers),
                Group::Move => move_over(set, other, line),
                Group::Write => write(set, other, line, answers),
                _ => look(set, other, line, answers),
            }
        }
    }
    for set in [&sets[line.set], &sets[line.other]] {
        answers.number(set.bits_len());
        answers.truth(set.bits_len() <= set.capacity());
    }
}

fn change<S: Set>(set: &mut S, other: &S, line: &Line, answers: &mut Answers) {
    match line.call {
        Call::IntoBitVec => {
            answers.number(set.bits_len());
            let _same = set.changed(line);
        }
        Call::CloneFrom => set.clone_from(other),
        Call::UnionWith | Call::IntersectWith | Call::DifferenceWith | Call::SymmetricDifferenceWith => {
            set.merged(line.call, other)
        }
        Call::UnionChanges
        | Call::IntersectionChanges
        | Call::DifferenceChanges
        | Call::SymmetricDifferenceChanges => {
            let before = set.elements();
            set.merged(line.call, other);
            answers.truth(set.elements() != before);
        }
        Call::PopFirst | Call::PopLast => answers.item(set.popped(line.call)),
        _ => answers.change(set.changed(line)),
    }
}

fn move_over<S: Set>(set: &mut S, other: &mut S, line: &Line) {
    match line.call {
        Call::Clone => *set = other.clone(),
        Call::Append => set.append(other),
        Call::SplitOff => *other = set.split_off(line.first),
        Call::CopyRange => *set = other.copy_range(line.first, line.second),
        Call::BitsClone => *set = other.bits_clone(),
        _ if line.first < other.bits_len() => *set = other.bits_clone_tail(line.first),
        _ => {}
    }
}

// How many elements a walk over two sets yields.
fn count_walked<S: Set>(set: &S, other: &S, walk: Call) -> usize {
    set.walk(&Line::new(walk, 0), other).count_left()
}

fn read<S: Set>(set: &S, other: &S, line: &Line, answers: &mut Answers) {
    match line.call {
        Call::Contains => answers.truth(set.contains(line.first)),
        Call::Count | Call::Len => answers.number(set.count()),
        Call::IsEmpty => answers.truth(set.is_empty()),
        Call::Capacity => answers.truth(set.bits_len() <= set.capacity()),
        Call::IsSubset => answers.truth(set.is_subset(other)),
        Call::IsSuperset => answers.truth(set.is_superset(other)),
        Call::IsDisjoint => answers.truth(set.is_disjoint(other)),
        Call::Eq => answers.truth(set == other),
        Call::Cmp => {
            answers.number((set.cmp(other) as i8 + 1) as usize);
            answers.truth(set.partial_cmp(other).is_some());
            answers.truth(set < other);
            answers.truth(set >= other);
        }
        Call::Hash => {
            let mut feed = Feed::default();
            set.hash(&mut feed);
            answers.0.extend([feed.calls, feed.finish() as usize]);
        }
        Call::Display => answers.text(&set.display()),
        Call::Debug => answers.text(&set.debug()),
        Call::ContainsAllInRange | Call::ContainsAnyInRange | Call::CountInRange => {
            answers.number(set.read_range(line.call, line.first, line.second))
        }
        Call::First | Call::Last | Call::Next | Call::Previous => answers.item(set.found(line.call, line.first)),
        Call::NextMissing => answers.number(set.next_missing(line.first)),
        Call::FirstGap => answers.item(set.first_gap(line.first, line.second)),
        Call::ToBytes => answers.bytes(&set.to_bytes()),
        Call::ToBytesLsb => {
            let bytes: Vec<u8> = set.to_bytes().iter().map(|byte| byte.reverse_bits()).collect();
            answers.bytes(&bytes);
        }
        Call::IsProperSubset => answers.truth(set.is_subset(other) && !set.is_superset(other)),
        Call::UnionCount => answers.number(count_walked(set, other, Call::Union)),
        Call::IntersectionCount => answers.number(count_walked(set, other, Call::Intersection)),
        Call::DifferenceCount => answers.number(count_walked(set, other, Call::Difference)),
        Call::SymmetricDifferenceCount => answers.number(count_walked(set, other, Call::SymmetricDifference)),
        Call::Ranges => {
            answers.text(&ranges_text(&runs(&set.elements(), 0, usize::MAX)));
            answers.truth(true);
        }
        _ => {
            if let Some(text) = set.json() {
                answers.text(&text);
                answers.truth(true);
                answers.number(set.bits_len());
            }
        }
    }
}

/// The runs of elements in a range, each with its start and its end.
fn runs(elements: &[usize], from: usize, to: usize) -> Vec<(usize, usize)> {
    let mut runs: Vec<(usize, usize)> = Vec::new();
    for &element in elements.iter().filter(|element| (from..to).contains(element)) {
        match runs.last_mut() {
            Some(last) if last.1 == element => last.1 += 1,
            _ => runs.push((element, element + 1)),
        }
    }
    runs
}

fn ranges_text(runs: &[(usize, usize)]) -> String {
    let text = |run: &(usize, usize)| match run.1 - run.0 {
        1 => run.0.to_string(),
        _ => format!("{}-{}", run.0, run.1 - 1),
    };
    runs.iter().map(text).collect::<Vec<_>>().join(", ")
}

fn step(walk: &mut dyn Walk, steps: usize, answers: &mut Answers) {
    for _ in 0..steps {
        answers.bounds(walk.bounds());
        answers.item(walk.next());
    }
}

fn walk<S: Set>(set: &S, other: &S, line: &Line, answers: &mut Answers) {
    if line.call == Call::IntoIter {
        return answers.0.extend(set.elements());
    }
    match line.call {
        Call::IterEnds => return iter_ends(set, line, answers),
        Call::Range => return range(set, line, answers),
        Call::Nth => return nth(set, line, answers),
        Call::Runs => {
            let found = runs(&set.elements(), line.first, line.second);
            answers.bounds((0, Some(line.second.saturating_sub(line.first).div_ceil(2))));
            return answers.0.extend(found.iter().flat_map(|run| [run.0, run.1]));
        }
        _ => {}
    }
    let mut walk = set.walk(line, other);
    let (steps, further) = match line.call {
        // The first number of `iter_from` is where it begins, and both of `missing` are its range.
        Call::IterFrom => (line.second, line.second),
        Call::Missing => (line.second % 64, line.first % 64),
        _ => (line.first, line.second),
    };
    step(&mut *walk, steps, answers);
    // A copy borrows its original: so the walk that continues is a copy too.
    let (mut on, mut copy) = (walk.copy(), walk.copy());
    step(&mut *on, further, answers);
    answers.number(on.count_left());
    step(&mut *copy, further, answers);
    step(&mut *copy, 1, answers);
    answers.number(copy.count_left());
    step(&mut *on, 1, answers);
    answers.number(on.count_left());
}

/// Whether a step takes from the front: there is a bit of `ends` for each.
pub fn is_front(ends: usize, step: usize) -> bool {
    ends >> (step % 64) & 1 == 1
}

pub fn take_of<T>(left: &mut std::collections::VecDeque<T>, front: bool) -> Option<T> {
    if front { left.pop_front() } else { left.pop_back() }
}

/// The elements from both ends. The bound is that of the blocks from the current one at the front to that at the back.
fn iter_ends<S: Set>(set: &S, line: &Line, answers: &mut Answers) {
    take_ends(set.elements(), (0, last_block(set)), (line.first, line.second), answers);
}

fn last_block<S: Set>(set: &S) -> usize {
    set.bits_len().div_ceil(width()).max(1) - 1
}

/// The elements of a range: those at its ends, and then from both ends. The last block is the one in which the range
/// ends.
fn range<S: Set>(set: &S, line: &Line, answers: &mut Answers) {
    let among = |element: &usize| line.first <= *element && *element < line.second;
    let elements: Vec<usize> = set.elements().into_iter().filter(among).collect();
    for item in [elements.first(), elements.last(), elements.last()] {
        answers.item(item.copied());
    }
    let last = last_block(set);
    let front = (line.first / width()).min(last);
    let back = (line.second.saturating_sub(1) / width()).max(front).min(last);
    take_ends(elements, (front, back), (line.second % 64, line.first), answers);
}

fn nth<S: Set>(set: &S, line: &Line, answers: &mut Answers) {
    let mut left = set.elements().into_iter();
    answers.item(left.nth(line.first));
    answers.item(left.next());
    answers.item(left.nth(line.second));
    answers.number(left.count());
}

fn take_ends(elements: Vec<usize>, blocks: (usize, usize), (steps, ends): (usize, usize), answers: &mut Answers) {
    let mut left = std::collections::VecDeque::from(elements);
    let (mut front, mut back) = blocks;
    for step in 0..steps {
        answers.bounds((0, Some((1 + back - front) * width())));
        let takes_front = is_front(ends, step);
        let item = take_of(&mut left, takes_front);
        let (near, far) = if takes_front { (&mut front, back) } else { (&mut back, front) };
        *near = item.map_or(far, |item| item / width());
        answers.item(item);
    }
    answers.number(left.len());
}

fn write<S: Set>(set: &mut S, other: &S, line: &Line, answers: &mut Answers) {
    let len = set.bits_len();
    match line.call {
        Call::BitsMergeChangesUnion
        | Call::BitsMergeChangesIntersection
        | Call::BitsMergeChangesDifference
        | Call::BitsMergeChangesSymmetric => {
            if len >= other.bits_len() {
                let before = set.elements();
                let _nothing = set.bits_written(line, other);
                answers.truth(set.elements() != before);
            }
        }
        Call::BitsSet | Call::BitsReplace if len <= line.first => answers.bit(None),
        Call::BitsSet | Call::BitsReplace => {
            let was = set.bits_written(line, other);
            answers.bit(if line.call == Call::BitsSet { Some(line.bit()) } else { was });
        }
        Call::BitsGrow | Call::BitsReserve | Call::BitsReserveExact if line.first > usize::MAX - len => {}
        Call::BitsMergeUnion | Call::BitsMergeIntersection | Call::BitsMergeDifference | Call::BitsMergeSymmetric
            if len < other.bits_len() => {}
        _ => {
            let _nothing = set.bits_written(line, other);
        }
    }
}
