//! The calls of a script on Roaring bitmaps, and a line that makes one.
use crate::croaring::Merge;

/// Defines the calls in the order of their numbers, which is that of `crates/roaring_calls`. A form lists the arguments
/// after the name in a line: `s`, `t` and `u` three sets, `n` and `m` two numbers, `c` a count. For a call on bytes it
/// is 1 if each container has the form of the fewest bytes, and 0 if none is of runs.
macro_rules! calls {
    ($($call:ident $name:literal $form:literal)*) => {
        #[derive(Clone, Copy, PartialEq, Debug)]
        pub enum Call { $($call,)* }

        pub const CALLS: &[(Call, &str, &str)] = &[$((Call::$call, $name, $form),)*];
    };
}

calls! {
    Clear "clear" "s"
    Insert "insert" "sn"
    Remove "remove" "sn"
    Spread "spread" "snmc"
    Erase "erase" "snmc"
    Scatter "scatter" "snmc"
    Clone "clone" "st"
    Union "union" "stu"
    Intersection "intersection" "stu"
    Difference "difference" "stu"
    SymmetricDifference "symmetric_difference" "stu"
    UnionWith "union_with" "st"
    IntersectWith "intersect_with" "st"
    DifferenceWith "difference_with" "st"
    SymmetricDifferenceWith "symmetric_difference_with" "st"
    Contains "contains" "sn"
    Len "len" "s"
    IsEmpty "is_empty" "s"
    Min "min" "s"
    Max "max" "s"
    Rank "rank" "sn"
    Select "select" "sn"
    Iter "iter" "sc"
    SerializedSize "serialized_size" "sc"
    UnionLen "union_len" "st"
    IntersectionLen "intersection_len" "st"
    DifferenceLen "difference_len" "st"
    SymmetricDifferenceLen "symmetric_difference_len" "st"
    IsSubset "is_subset" "st"
    IsSuperset "is_superset" "st"
    IsDisjoint "is_disjoint" "st"
    Eq "eq" "st"
    Serialize "serialize" "sc"
    Deserialize "deserialize" "stc"
    Optimize "optimize" "s"
    RemoveRuns "remove_runs" "s"
    RangeCardinality "range_cardinality" "snm"
    ContainsRange "contains_range" "snm"
    InsertRange "insert_range" "snm"
    RemoveRange "remove_range" "snm"
    Push "push" "sn"
    Append "append" "snmc"
    Extend "extend" "snmc"
    FromIter "from_iter" "snmc"
    FromSortedIter "from_sorted_iter" "snmc"
    SerializeInto "serialize_into" "sc"
    DeserializeFrom "deserialize_from" "stmc"
    Walk "walk" "snc"
    Range "range" "snmc"
    ToBitSet "to_bit_set" "snc"
    NextMany "next_many" "snc"
}

impl Call {
    /// The name of the call, and its arguments in a line.
    fn entry(self) -> (&'static str, &'static str) {
        let (_, name, form) = CALLS[self as usize];
        (name, form)
    }

    /// Which of the four operations the call uses, if it does.
    pub fn merge(self) -> Option<Merge> {
        Some(match self {
            Call::Union | Call::UnionWith | Call::UnionLen => Merge::Union,
            Call::Intersection | Call::IntersectWith | Call::IntersectionLen => Merge::Intersection,
            Call::Difference | Call::DifferenceWith | Call::DifferenceLen => Merge::Difference,
            Call::SymmetricDifference | Call::SymmetricDifferenceWith | Call::SymmetricDifferenceLen => {
                Merge::Symmetric
            }
            _ => return None,
        })
    }

    /// Whether the call changes its first set by the second, which must be another one.
    pub fn is_in_place(self) -> bool {
        let both = [Call::UnionWith, Call::IntersectWith, Call::DifferenceWith, Call::SymmetricDifferenceWith];
        both.contains(&self)
    }
}

/// A call with its sets, below 4, and its numbers.
#[derive(Clone, PartialEq)]
pub struct Line {
    pub call: Call,
    pub set: usize,
    pub one: usize,
    pub two: usize,
    pub first: usize,
    pub second: usize,
    pub count: usize,
}

const NAMES: [&str; 4] = ["a", "b", "c", "d"];

impl Line {
    pub fn new(call: Call, set: usize) -> Line {
        Line { call, set, one: (set + 1) % 4, two: (set + 2) % 4, first: 0, second: 0, count: 0 }
    }

    /// The words by which `crates/roaring_calls` reads the line.
    pub fn words(&self) -> [usize; 7] {
        [self.call as usize, self.set, self.one, self.two, self.first, self.second, self.count]
    }

    pub fn parse(text: &str) -> Option<Line> {
        let mut words = text.split_whitespace();
        let name = words.next()?;
        let (call, _, form) = *CALLS.iter().find(|call| call.1 == name)?;
        let mut line = Line::new(call, 0);
        for part in form.chars() {
            let word = words.next()?;
            let set = || NAMES.iter().position(|name| *name == word);
            match part {
                's' => line.set = set()?,
                't' => line.one = set()?,
                'u' => line.two = set()?,
                'n' => line.first = word.parse().ok()?,
                'm' => line.second = word.parse().ok()?,
                _ => line.count = word.parse().ok()?,
            }
        }
        words.next().is_none().then_some(line)
    }
}

impl std::fmt::Display for Line {
    fn fmt(&self, f: &mut std::fmt::Formatter) -> std::fmt::Result {
        let (name, form) = self.call.entry();
        write!(f, "{name}")?;
        for part in form.chars() {
            match part {
                's' => write!(f, " {}", NAMES[self.set])?,
                't' => write!(f, " {}", NAMES[self.one])?,
                'u' => write!(f, " {}", NAMES[self.two])?,
                'n' => write!(f, " {}", self.first)?,
                'm' => write!(f, " {}", self.second)?,
                _ => write!(f, " {}", self.count)?,
            }
        }
        Ok(())
    }
}
