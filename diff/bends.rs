//! Wrong calls on the peers' side, for the self test: each must be detected.
use crate::calls::{Call, Line};
use crate::model::width;
use crate::peers::{Block, Peer};
use crate::sides::Set;

/// Makes the peers' sets after the call, or its result, wrong.
type Turn = fn(&Line, &mut Around, &mut Vec<usize>);

pub struct Bend {
    pub name: &'static str,
    pub calls: &'static [Call],
    turn: Turn,
}

/// The set of the call, as far as a wrong call may read and change it.
pub struct Around<'a> {
    elements: Vec<usize>,
    others: Vec<usize>,
    lens: (usize, usize),
    insert: &'a mut dyn FnMut(usize),
    remove: &'a mut dyn FnMut(usize),
}

impl Bend {
    pub fn apply<B: Block>(&self, line: &Line, sets: &mut [Peer<B>; 4], words: &mut Vec<usize>) {
        let (set, other) = (&sets[line.set], &sets[line.other]);
        let (elements, others) = (set.elements(), other.elements());
        let lens = (set.bits_len(), other.bits_len());
        let (mut added, mut removed) = (None, None);
        let mut around = Around {
            elements,
            others,
            lens,
            insert: &mut |number| added = Some(number),
            remove: &mut |number| removed = Some(number),
        };
        (self.turn)(line, &mut around, words);
        for (call, number) in [(Call::Insert, added), (Call::Remove, removed)] {
            if let Some(first) = number {
                let _done = sets[line.set].changed(&Line { first, ..Line::new(call, line.set) });
            }
        }
    }
}

const WALKS: &[Call] =
    &[Call::Iter, Call::Union, Call::Intersection, Call::Difference, Call::SymmetricDifference];

pub static BENDS: [Bend; 20] = [
    Bend {
        name: "insert returns true for the first number of a block, in or not",
        calls: &[Call::Insert],
        turn: |line, _, words| words[0] |= usize::from(line.first % width() == 0),
    },
    Bend {
        name: "remove keeps the last number of a block of the summary",
        calls: &[Call::Remove],
        turn: |line, around, words| {
            if words[0] == 1 && line.first % (width() * width()) == width() * width() - 1 {
                (around.insert)(line.first);
            }
        },
    },
    Bend {
        name: "contains does not find the last number of a block",
        calls: &[Call::Contains],
        turn: |line, _, words| words[0] &= usize::from(line.first % width() != width() - 1),
    },
    Bend {
        name: "extend leaves out its last number",
        calls: &[Call::Extend],
        turn: |line, around, _| line.numbers.last().into_iter().for_each(|last| (around.remove)(*last)),
    },
    Bend {
        name: "truncate cuts one place more",
        calls: &[Call::Truncate],
        turn: |line, around, _| (around.remove)(line.first.saturating_sub(1)),
    },
    Bend {
        name: "make_empty keeps the last place of a long set",
        calls: &[Call::MakeEmpty, Call::Clear],
        turn: |_, around, _| {
            if around.lens.0 > width() * width() {
                (around.insert)(around.lens.0 - 1);
            }
        },
    },
    Bend {
        name: "clone_from leaves out the greatest element where it is the first of a block",
        calls: &[Call::CloneFrom],
        turn: |_, around, _| {
            if let Some(last) = around.elements.last().filter(|last| **last % width() == 0) {
                (around.remove)(*last);
            }
        },
    },
    Bend {
        name: "union_with leaves out the last place of the other set",
        calls: &[Call::UnionWith],
        turn: |_, around, _| (around.remove)(around.lens.1.wrapping_sub(1)),
    },
    Bend {
        name: "intersect_with loses what is past eight blocks of the summary",
        calls: &[Call::IntersectWith],
        turn: |_, around, _| {
            let past = around.elements.iter().find(|element| **element >= 8 * width() * width());
            past.into_iter().for_each(|past| (around.remove)(*past));
        },
    },
    Bend {
        name: "difference_with keeps the greatest element of the other set",
        calls: &[Call::DifferenceWith],
        turn: |_, around, _| around.others.last().into_iter().for_each(|last| (around.insert)(*last)),
    },
    Bend {
        name: "symmetric_difference_with keeps the least element of both",
        calls: &[Call::SymmetricDifferenceWith],
        turn: |_, around, _| {
            let least = around.others.iter().find(|other| !around.elements.contains(other));
            least.into_iter().for_each(|least| (around.insert)(*least));
        },
    },
    Bend {
        name: "shrink_to_fit keeps a block more",
        calls: &[Call::ShrinkToFit],
        turn: |_, _, words| words[1] += width(),
    },
    Bend {
        name: "is_empty looks at the first block alone",
        calls: &[Call::IsEmpty],
        turn: |_, around, words| words[0] = usize::from(around.elements.first().is_none_or(|first| *first >= width())),
    },
    Bend {
        name: "is_subset passes over what is past the length of the other set",
        calls: &[Call::IsSubset],
        turn: |_, around, words| {
            let mut within = around.elements.iter().filter(|element| **element < around.lens.1);
            words[0] = usize::from(within.all(|element| around.others.contains(element)));
        },
    },
    Bend {
        name: "is_disjoint looks at the first block alone",
        calls: &[Call::IsDisjoint],
        turn: |_, around, words| {
            let mut first = around.elements.iter().take_while(|element| **element < width());
            words[0] = usize::from(!first.any(|element| around.others.contains(element)));
        },
    },
    Bend {
        name: "eq compares the lengths too",
        calls: &[Call::Eq],
        turn: |_, around, words| words[0] &= usize::from(around.lens.0 == around.lens.1),
    },
    Bend {
        name: "cmp puts the set of more elements last",
        calls: &[Call::Cmp],
        turn: |_, around, words| {
            words[0] = (around.elements.len().cmp(&around.others.len()) as i8 + 1) as usize;
        },
    },
    Bend {
        name: "hash feeds the length too",
        calls: &[Call::Hash],
        turn: |_, _, words| words[0] += 1,
    },
    Bend {
        name: "the upper bound of a walk is one too many after an item",
        calls: WALKS,
        turn: |line, _, words| {
            if line.first > 1 && words[2] != 0 {
                words[4] += 1;
            }
        },
    },
    Bend {
        name: "a copy of a walk gives the item before once more",
        calls: WALKS,
        turn: |line, _, words| {
            let copied = 3 * (line.first + line.second) + 1;
            if line.first > 0 && line.second > 0 {
                words[copied + 2] = words[3 * line.first - 1];
            }
        },
    },
];
