//! Scripts of random calls on matrices, of this library and of a plain slow model. A line is a call and three numbers.
use crate::matrix_model::{BENDS, Bend, Sides, length};
use crate::ours;
use crate::random::Random;
use std::fmt;

/// The calls, in the order of their numbers.
#[derive(Clone, Copy, Debug, PartialEq, Eq)]
pub enum Call {
    New,
    FromRow,
    Clone,
    Transpose,
    Swap,
    SetInsert,
    SetRemove,
    Insert,
    Remove,
    Contains,
    Get,
    UnionRows,
    IntersectRows,
    DifferenceRows,
    IsSubsetRow,
    IsDisjointRow,
    InsertRange,
    FillRow,
    ClearRow,
    Count,
    Iter,
    IterFrom,
    IterClone,
    UnionRowWith,
    RowToSet,
    Eq,
    Display,
    Debug,
    Hash,
}

/// Each call with its name in a script.
const CALLS: [(Call, &str); 29] = [
    (Call::New, "new"),
    (Call::FromRow, "from_row"),
    (Call::Clone, "clone"),
    (Call::Transpose, "transpose"),
    (Call::Swap, "swap"),
    (Call::SetInsert, "set_insert"),
    (Call::SetRemove, "set_remove"),
    (Call::Insert, "insert"),
    (Call::Remove, "remove"),
    (Call::Contains, "contains"),
    (Call::Get, "get"),
    (Call::UnionRows, "union_rows"),
    (Call::IntersectRows, "intersect_rows"),
    (Call::DifferenceRows, "difference_rows"),
    (Call::IsSubsetRow, "is_subset_row"),
    (Call::IsDisjointRow, "is_disjoint_row"),
    (Call::InsertRange, "insert_range"),
    (Call::FillRow, "fill_row"),
    (Call::ClearRow, "clear_row"),
    (Call::Count, "count"),
    (Call::Iter, "iter"),
    (Call::IterFrom, "iter_from"),
    (Call::IterClone, "iter_clone"),
    (Call::UnionRowWith, "union_row_with"),
    (Call::RowToSet, "row_to_set"),
    (Call::Eq, "eq"),
    (Call::Display, "display"),
    (Call::Debug, "debug"),
    (Call::Hash, "hash"),
];

/// The block types, with the bits of each.
const BLOCKS: [(&str, usize); 4] = [("u8", 8), ("u32", 32), ("u64", 64), ("u128", 128)];

/// How many lines a script has.
const LINES: usize = 60;

#[derive(Clone, Copy, PartialEq, Eq)]
pub struct Line {
    pub call: Call,
    pub first: usize,
    pub second: usize,
    pub third: usize,
}

impl fmt::Display for Line {
    fn fmt(&self, f: &mut fmt::Formatter<'_>) -> fmt::Result {
        let name = CALLS[self.call as usize].1;
        write!(f, "{name} {} {} {}", self.first, self.second, self.third)
    }
}

impl Line {
    fn parse(text: &str) -> Option<Line> {
        let words: Vec<&str> = text.split_whitespace().collect();
        let [name, first, second, third] = words[..] else { return None };
        let call = CALLS.iter().find(|call| call.1 == name)?.0;
        Some(Line { call, first: first.parse().ok()?, second: second.parse().ok()?, third: third.parse().ok()? })
    }

    fn draw(random: &mut Random, sides: &Sides) -> Line {
        let (rows, columns) = (sides.matrix.rows.len(), sides.matrix.columns);
        let call = match random.below(8) {
            0 if rows == 0 || columns == 0 => Call::New,
            1 => Call::Insert,
            2 => random.of(&[Call::SetInsert, Call::InsertRange, Call::UnionRows]),
            _ => CALLS[random.below(CALLS.len())].0,
        };
        let mut line = Line { call, first: random.below(rows), second: random.below(columns), third: 0 };
        match call {
            // More bits than fit a `usize`, over blocks of any width.
            Call::New if random.once_in(20) => (line.first, line.second) = (1 << 62, 1 + random.below(9)),
            Call::New => (line.first, line.second) = (length(random, 40), length(random, 300)),
            Call::FromRow => line.first = random.below(9),
            Call::SetInsert | Call::SetRemove => line.first = length(random, 300),
            Call::Get => (line.first, line.second) = (random.below(rows + 2), random.below(columns + 2)),
            Call::InsertRange => {
                line.second = random.below(columns + 1);
                line.third = random.below(columns + 1);
            }
            Call::IterFrom => line.second = random.below(columns + 9),
            _ if call as usize >= Call::UnionRows as usize && call as usize <= Call::IsDisjointRow as usize => {
                line.second = random.below(rows);
            }
            _ => {}
        }
        line
    }
}

/// The model's results for the lines, which are drawn one by one, and all rows at the end.
fn by_model(bits: usize, bend: Option<&Bend>, mut next: impl FnMut(&Sides) -> Option<Line>) -> Vec<usize> {
    let mut sides = Sides::default();
    let mut words = Vec::new();
    while let Some(line) = next(&sides) {
        let mut answers = Vec::new();
        sides.answer(&line, bits, &mut answers);
        bend.into_iter().for_each(|bend| bend.apply(&line, &mut sides, &mut answers));
        words.append(&mut answers);
        words.extend([sides.matrix.rows.len(), sides.matrix.columns, sides.len]);
    }
    sides.matrix.write(&mut words);
    sides.other.write(&mut words);
    words
}

/// Whether the sides of a script differ.
fn differs(bits: usize, bend: Option<&Bend>, script: &[Line]) -> bool {
    let mut rest = script.iter();
    let model = by_model(bits, bend, |_| rest.next().copied());
    differs_from(bits, script, &model)
}

fn differs_from(bits: usize, script: &[Line], model: &[usize]) -> bool {
    let words: Vec<usize> =
        script.iter().flat_map(|line| [line.call as usize, line.first, line.second, line.third]).collect();
    let mut places = Vec::new();
    !ours::run_matrices(bits, &words, &mut places) || places != model
}

/// A script whose sides differ, over blocks of this many bits.
struct Found {
    blocks: &'static str,
    bits: usize,
    script: Vec<Line>,
}

/// Runs scripts until this many calls were made or two sides differ. Also returns how many were made.
fn search(calls: usize, seed: u64, bend: Option<&Bend>) -> (usize, Option<Found>) {
    let mut random = Random::new(seed);
    let mut made = 0;
    for turn in 0.. {
        if made >= calls {
            break;
        }
        let (blocks, bits) = BLOCKS[turn % BLOCKS.len()];
        let mut script = Vec::new();
        let model = by_model(bits, bend, |sides| {
            (script.len() < LINES).then(|| {
                script.push(Line::draw(&mut random, sides));
                script[script.len() - 1]
            })
        });
        made += script.len();
        if differs_from(bits, &script, &model) {
            return (made, Some(Found { blocks, bits, script }));
        }
    }
    (made, None)
}

impl Found {
    /// Removes each line without which the sides still differ.
    fn shorten(&mut self, bend: Option<&Bend>) {
        let mut place = self.script.len();
        while place > 0 {
            place -= 1;
            let mut shorter = self.script.clone();
            shorter.remove(place);
            if differs(self.bits, bend, &shorter) {
                self.script = shorter;
            }
        }
    }

    fn print(&self, indent: &str) {
        println!("{indent}matrices {}", self.blocks);
        self.script.iter().for_each(|line| println!("{indent}{line}"));
    }
}

/// Runs scripts of this many calls. Returns whether no sides differ.
pub fn run(calls: usize, seed: u64) -> bool {
    let (made, found) = search(calls, seed, None);
    println!("{made} calls on matrices");
    if let Some(mut found) = found {
        found.shorten(None);
        found.print("");
        println!("# the sides differ");
        return false;
    }
    true
}

/// Runs the lines of a script over some block type. Returns whether the sides agree, or `None` if it is not a script.
pub fn run_lines<'a>(blocks: &str, lines: impl Iterator<Item = &'a str>) -> Option<bool> {
    let (_, bits) = BLOCKS.iter().find(|(name, _)| *name == blocks)?;
    let script: Vec<Line> = lines.map(Line::parse).collect::<Option<_>>()?;
    let agrees = !differs(*bits, None, &script);
    println!("{}", if agrees { "no difference" } else { "the sides differ" });
    Some(agrees)
}

/// Whether each wrong call is detected; prints how.
pub fn self_test() -> bool {
    let mut seen = 0;
    for bend in &BENDS {
        match search(100_000, 1, Some(bend)) {
            (calls, None) => println!("NOT seen in {calls} calls: {}", bend.name),
            (calls, Some(mut found)) => {
                seen += 1;
                found.shorten(Some(bend));
                println!("seen after {calls} calls: {}", bend.name);
                found.print("    ");
            }
        }
    }
    println!("{seen} of {} seen of matrices", BENDS.len());
    seen == BENDS.len()
}
