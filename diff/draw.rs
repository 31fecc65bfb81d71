//! Random scripts. The lengths and densities of sets differ from script to script; half of the scripts have sets of one
//! shape.
use crate::calls::{CALLS, Call, Group, Line};
use crate::model::{Model, width};
use crate::random::Random;

/// The shape of a script's sets: any sets; long ones of few elements; of nearly all; of runs.
#[derive(Clone, Copy, PartialEq)]
pub enum Shape {
    Any,
    Few,
    Full,
    Runs,
}

/// Draws the lines of one script, each given the sets at that point.
pub struct Draw {
    random: Random,
    lines_left: usize,
    pub shape: Shape,
    /// Drawn lengths stay below this, and sets of more elements are emptied.
    most: usize,
    most_elements: usize,
}

/// The greatest length of a script's sets, and the number of elements above which one is emptied.
fn any_size(random: &mut Random) -> (usize, usize) {
    let summary = width() * width();
    match random.below(1000) {
        0..200 => (3 * width() + 2, usize::MAX),
        200..450 => (2 * summary + 2, usize::MAX),
        450..700 => (9 * summary + 2, 20_000),
        700..950 => (35 * summary + 2, 20_000),
        950..995 => (1 << 20, 20_000),
        _ => (5_000_000, 500_000),
    }
}

/// The same for a script with long sets. Full ones are no longer than the model can handle in time.
fn long_size(random: &mut Random, shape: Shape) -> (usize, usize) {
    let summary = width() * width();
    let most = random.of(&[2, 9, 9, 35, 35, 70]) * summary + 2;
    match shape {
        Shape::Few if random.once_in(8) => (random.of(&[1 << 20, 1 << 22]), 60),
        Shape::Few => (most.min(1 << 20), 60),
        Shape::Full => (most.min(if random.once_in(20) { 200_000 } else { 20_000 }), usize::MAX),
        _ => (most.min(1 << 20), 20_000),
    }
}

impl Draw {
    pub fn new(seed: u64) -> Draw {
        let mut random = Random::new(seed);
        // Full sets take most of the time.
        let shapes = [Shape::Few, Shape::Few, Shape::Runs, Shape::Full];
        let shape = if random.once_in(2) { Shape::Any } else { random.of(&shapes) };
        let (most, most_elements) = match shape {
            Shape::Any => any_size(&mut random),
            _ => long_size(&mut random, shape),
        };
        let lines_left = 50 + random.below(150);
        Draw { random, lines_left, shape, most, most_elements }
    }

    /// The next line of the script.
    pub fn line(&mut self, sets: &[Model; 4]) -> Option<Line> {
        self.lines_left = self.lines_left.checked_sub(1)?;
        let set = self.random.below(4);
        if sets[set].elements.len() > self.most_elements && self.random.once_in(4) {
            let kept = [Call::MakeEmpty, Call::Clear];
            let cut = [Call::MakeEmpty, Call::Reset, Call::BitsRemoveAll];
            let choices = if self.shape == Shape::Few { &kept[..] } else { &cut[..] };
            return Some(Line::new(self.random.of(choices), set));
        }
        if self.shape != Shape::Any && sets[set].len < self.most / 2 && !self.random.once_in(3) {
            return Some(self.grown(set, sets[set].len));
        }
        let is_new = sets[set].len == 0 && self.random.once_in(2);
        let mut line = Line::new(if is_new { Call::BitsGrow } else { self.call(sets[set].len) }, set);
        if line.call.form().contains('t') {
            line.other = self.other(set, line.call);
        }
        self.numbers(&mut line, sets);
        Some(line)
    }

    /// Makes a short set nearly as long as sets get: without new elements or, in a script of full sets, with all.
    fn grown(&mut self, set: usize, len: usize) -> Line {
        let first = (self.most - len).saturating_sub(self.random.below(3 * width()));
        Line { first, second: usize::from(self.shape == Shape::Full), ..Line::new(Call::BitsGrow, set) }
    }

    /// A call. Those that change single elements or merge are more frequent and, in a script of runs, those on ranges.
    /// Texts are for short sets.
    fn call(&mut self, len: usize) -> Call {
        let often: &[Call] = match self.shape {
            Shape::Any => &[Call::Insert, Call::Insert, Call::Remove, Call::Extend, Call::BitsSet, Call::BitsGrow, Call::UnionWith],
            Shape::Few => &[Call::Insert, Call::Insert, Call::BitsSet, Call::UnionWith, Call::SymmetricDifferenceWith],
            Shape::Full => &[Call::Remove, Call::Remove, Call::RemoveRange, Call::UnionWith, Call::IntersectWith],
            Shape::Runs => &[Call::InsertRange, Call::InsertRange, Call::RemoveRange, Call::UnionWith, Call::DifferenceWith],
        };
        loop {
            let call = if self.random.once_in(4) { self.random.of(often) } else { self.random.of(CALLS).0 };
            let is_long = match call {
                Call::Debug | Call::BitsDebug => len > 2000,
                Call::Display | Call::Json | Call::IntoIter | Call::BitsStorage => len > 20_000,
                _ => false,
            };
            // New sets are empty or short, so not every call may make one.
            let is_rare = matches!(call.group(), Group::Make | Group::Move)
                || matches!(call, Call::MakeEmpty | Call::Clear | Call::Reset | Call::BitsRemoveAll);
            if !(is_long && !self.random.once_in(100) || is_rare && !self.random.once_in(3)) {
                return call;
            }
        }
    }

    fn other(&mut self, set: usize, call: Call) -> usize {
        let may_be_same = matches!(call.group(), Group::Read | Group::Walk);
        if may_be_same && self.random.once_in(8) { set } else { (set + 1 + self.random.below(3)) % 4 }
    }

    fn numbers(&mut self, line: &mut Line, sets: &[Model; 4]) {
        let set = &sets[line.set];
        let is_far = self.random.once_in(400);
        match line.call {
            Call::Insert | Call::Toggle | Call::Set if is_far => line.first = usize::MAX,
            Call::Next | Call::Previous | Call::NextMissing if is_far => {
                line.first = usize::MAX - self.random.below(2);
            }
            Call::InsertRange | Call::ToggleRange => self.range(line, set),
            // So far that the greatest element cannot be moved: a little less would need more memory than there is.
            Call::ShiftUp if is_far => {
                line.first = usize::MAX - self.random.below(set.elements.last().map_or(1, |last| last + 1));
            }
            Call::ShiftUp | Call::ShiftDown => line.first = self.random.below(300),
            Call::FirstGap if is_far => {
                line.first = self.element(set);
                line.second = usize::MAX - self.element(set);
            }
            Call::FirstGap => {
                line.first = self.element(set);
                line.second = self.random.below(40);
            }
            Call::CopyRange => self.range(line, &sets[line.other]),
            Call::RemoveRange
            | Call::ContainsAllInRange
            | Call::ContainsAnyInRange
            | Call::CountInRange
            | Call::Missing
            | Call::Range
            | Call::BitsSetRange
            | Call::BitsClearRange
            | Call::BitsNegateRange
            | Call::BitsCountOnesInRange
            | Call::BitsAllInRange
            | Call::BitsAnyInRange => {
                self.range(line, set);
                if is_far {
                    line.second = usize::MAX - self.random.below(2);
                }
            }
            Call::Toggle | Call::Set | Call::Next | Call::Previous | Call::NextMissing => {
                line.first = self.element(set);
            }
            Call::BitsFirstOneFrom | Call::BitsLastOneBefore | Call::BitsFirstZeroFrom => {
                line.first = self.element(set);
            }
            _ if line.is_fused() => line.first = self.random.below(4),
            Call::Contains | Call::Remove | Call::Truncate if is_far => line.first = usize::MAX - self.random.below(2),
            Call::BitsGet | Call::SplitOff if is_far => line.first = usize::MAX - self.random.below(2),
            Call::Insert | Call::Remove | Call::Contains => line.first = self.element(set),
            Call::BitsSet | Call::BitsReplace | Call::BitsGet => line.first = self.within(set),
            Call::BitsCloneTail => line.first = self.within(&sets[line.other]),
            Call::Truncate | Call::BitsTruncate | Call::SplitOff => line.first = self.cut(set),
            Call::BitsGrow => line.first = self.growth(set),
            Call::BitsReserve | Call::BitsReserveExact => line.first = self.length().saturating_sub(set.len),
            Call::BitsBlocks | Call::BitsNextIf => self.steps(line, set.blocks()),
            Call::BitsNonzero | Call::BitsNonzeroPastFirst => self.steps(line, set.blocks()),
            Call::BitsNonzeroEnds | Call::BitsRefillEnds | Call::IterEnds => {
                let is_blocks = line.call == Call::BitsNonzeroEnds;
                self.steps(line, if is_blocks { set.blocks() } else { set.elements.len() });
                // The end of each step: the same for all steps, or random for each.
                let mixed = self.random.next() as usize;
                line.second = self.random.of(&[0, usize::MAX, mixed]);
            }
            Call::BitsNonzeroPast | Call::BitsRefill => {
                let refills = line.call == Call::BitsRefill;
                self.steps(line, if refills { set.elements.len() } else { set.blocks() });
                line.first = self.block(set, is_far);
            }
            Call::BitsKeepInBlock => line.first = self.block(set, is_far),
            Call::BitsZerosInBlock => {
                line.first = self.block(set, is_far);
                let from = self.element(set).max(line.first.saturating_mul(width()));
                line.second = from.saturating_add(self.random.below(2 * width()));
            }
            Call::BitsBlock => {
                line.first = self.block(set, is_far);
                line.second = self.random.below(2 * width());
            }
            Call::Union | Call::SymmetricDifference => {
                self.steps(line, set.elements.len() + sets[line.other].elements.len());
            }
            Call::IntoIter => {}
            Call::IterFrom => {
                self.steps(line, set.elements.len());
                line.first = self.element(set);
            }
            _ if line.call.group() == Group::Walk => self.steps(line, set.elements.len()),
            Call::FromIter | Call::Extend => line.numbers = self.elements(set, is_far),
            _ if line.call.form().contains('*') => line.numbers = self.bytes(),
            _ if line.call.form().contains('n') => line.first = self.length(),
            _ => {}
        }
        if line.call.form().contains('b') {
            line.second = usize::from(self.random.once_in(2));
        }
        if self.shape == Shape::Few {
            if line.call.form().contains('b') && !matches!(line.call, Call::Set | Call::BitsSet | Call::BitsReplace) {
                line.second = 0;
            }
            return;
        }
        // Long lists of true values are only for scripts of short or of full sets.
        if self.shape == Shape::Full {
            return;
        }
        if self.most > 20_000 && line.call.form() == "snb" && line.first > 3000 && !self.random.once_in(12) {
            line.second = 0;
        }
        if line.call == Call::BitsFill && set.len > 20_000 && !self.random.once_in(20) {
            line.second = 0;
        }
    }

    /// A length at or beside a multiple of the bits of a block, of a summary block, or of several of those.
    fn length(&mut self) -> usize {
        let summary = width() * width();
        let unit = self.random.of(&[1, 8, width(), width(), summary, 8 * summary, 32 * summary]);
        let count = if self.random.once_in(2) { self.random.below(4) } else { self.random.below(self.most / unit + 1) };
        let near = unit * count + self.random.below(3);
        near.saturating_sub(1).min(self.most)
    }

    /// An element of the set or beside one, a number at an edge, or any below the length or the greatest length.
    fn element(&mut self, set: &Model) -> usize {
        match self.random.below(6) {
            0 | 1 => {
                let from = self.random.below(set.len.max(1));
                let near = set.elements.range(from..).next().or(set.elements.last());
                near.map_or(0, |near| (near + self.random.below(3)).saturating_sub(1))
            }
            2 => self.random.below(set.len + 2),
            3 => self.random.below(self.most.min(4 * width())),
            4 => self.random.below(self.most),
            _ => self.length(),
        }
    }

    /// A range from an element on, which may be empty. Long ranges are for scripts of short sets.
    fn range(&mut self, line: &mut Line, set: &Model) {
        line.first = self.element(set);
        let is_short = match self.shape {
            Shape::Any => self.most > 20_000 && !self.random.once_in(12),
            Shape::Few => true,
            // A range removed from a full set is short; from a set of runs it may have any length.
            Shape::Full => !self.random.once_in(12),
            Shape::Runs => false,
        };
        line.second = match self.random.below(4) {
            0 if !is_short => self.element(set),
            1 if !is_short => self.length(),
            2 => line.first + self.random.below(3),
            _ => line.first + self.random.below(3 * width()),
        };
    }

    /// The block of such an element, or one far past all blocks.
    fn block(&mut self, set: &Model, is_far: bool) -> usize {
        if is_far { usize::MAX - self.random.below(2) } else { self.element(set) / width() }
    }

    /// A place below the length, and occasionally one past it.
    fn within(&mut self, set: &Model) -> usize {
        let place = self.element(set);
        if place < set.len || self.random.once_in(6) { place } else { place % set.len.max(1) }
    }

    /// Where to cut: mostly near the end, so that most of the set stays.
    fn cut(&mut self, set: &Model) -> usize {
        match self.random.below(4) {
            0 => self.length(),
            1 => self.element(set),
            _ => set.len.saturating_sub(self.random.below(3 * width())),
        }
    }

    /// By how much to grow: to a length at an edge, or by some blocks.
    fn growth(&mut self, set: &Model) -> usize {
        let count = match self.random.below(3) {
            0 => self.length().saturating_sub(set.len),
            1 => self.random.below(3 * width()),
            _ => self.random.below(9),
        };
        count.min(self.most.saturating_sub(set.len))
    }

    /// Some steps and some more: few, or as many as reach the end and pass it.
    fn steps(&mut self, line: &mut Line, count: usize) {
        let short = |random: &mut Random| random.below(7);
        let is_few = count > 3000 && !self.random.once_in(50);
        let whole = if is_few { 40 } else { count };
        line.first = if self.random.once_in(2) { short(&mut self.random) } else { self.random.below(whole + 2) };
        if !line.call.form().contains('m') {
            return;
        }
        line.second = match self.random.below(3) {
            0 => short(&mut self.random),
            1 => self.random.below(whole + 2),
            _ => (whole + 2).saturating_sub(line.first),
        };
    }

    /// Elements in a cluster, evenly spaced, at edges, or anywhere, in any order.
    fn elements(&mut self, set: &Model, is_far: bool) -> Vec<usize> {
        let counts = [0, 1, 2, 5, 12, 40];
        let count = self.random.of(if self.shape == Shape::Few { &counts[..4] } else { &counts[..] });
        let start = self.element(set);
        let apart = self.random.of(&[1, 2, 7, width(), width() * width()]);
        let kind = self.random.below(4);
        let mut elements: Vec<usize> = (0..count)
            .map(|place| match kind {
                0 => start + self.random.below(2 * width()),
                1 => (start + place * apart) % (self.most + 1),
                2 => self.length(),
                _ => self.element(set),
            })
            .collect();
        if is_far {
            let place = self.random.below(count + 1);
            elements.insert(place, usize::MAX);
        }
        elements
    }

    fn bytes(&mut self) -> Vec<usize> {
        let most = self.random.of(&[0, 1, 4, 16, 17, 40, 300]).min(self.most / 8 + 1);
        let count = self.random.below(most + 1);
        let fill = self.random.of(&[0, 255, 256, 256]);
        let random = &mut self.random;
        (0..count).map(|_| if fill < 256 && !random.once_in(9) { fill } else { random.below(256) }).collect()
    }
}
