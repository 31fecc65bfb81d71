//! Wrong calls on CRoaring's side, for the self test: each must be detected.
use crate::calls::{Call, Line};
use crate::croaring::Set;
use crate::sides::{digest_of, digest_of_walk};
use crate::walks::{digest_of_steps, numbers_between};

/// Makes the set after the call, or its result, wrong; the second set is passed too.
type Turn = fn(&Line, &mut Set, &Set, &mut usize);

pub struct Bend {
    pub name: &'static str,
    pub call: Call,
    pub turn: Turn,
}

/// The lower 16 bits.
fn low(number: u32) -> u32 {
    number % 65_536
}

/// The first member that is in a later container than the least.
fn past_container(set: &Set) -> Option<u32> {
    let key = set.min()? / 65_536;
    set.numbers().into_iter().find(|number| number / 65_536 != key)
}

pub static BENDS: [Bend; 15] = [
    Bend {
        name: "insert returns true for the first number of a container, in or not",
        call: Call::Insert,
        turn: |line, _, _, returned| *returned |= usize::from(low(line.first as u32) == 0),
    },
    Bend {
        name: "remove keeps the last number of a container",
        call: Call::Remove,
        turn: |line, set, _, returned| {
            if *returned == 1 && low(line.first as u32) == 65_535 {
                set.insert(line.first as u32);
            }
        },
    },
    Bend {
        name: "contains does not find the last number of a container",
        call: Call::Contains,
        turn: |line, _, _, returned| *returned &= usize::from(low(line.first as u32) != 65_535),
    },
    Bend {
        name: "union_with leaves out the greatest member of the other set, unless it was in",
        call: Call::UnionWith,
        turn: |line, set, other, _| {
            if let Some(last) = other.max().filter(|_| line.set != line.one) {
                set.remove(last);
            }
        },
    },
    Bend {
        name: "intersect_with loses a member past the first container",
        call: Call::IntersectWith,
        turn: |_, set, _, _| {
            if let Some(past) = past_container(set) {
                set.remove(past);
            }
        },
    },
    Bend {
        name: "difference_len takes off the members of the other set that this one lacks",
        call: Call::DifferenceLen,
        turn: |_, set, other, returned| *returned = set.len().saturating_sub(other.len()) as usize,
    },
    Bend {
        name: "rank leaves out the last number of a container",
        call: Call::Rank,
        turn: |line, set, _, returned| {
            let is_last = low(line.first as u32) == 65_535;
            *returned -= usize::from(is_last && set.contains(line.first as u32));
        },
    },
    Bend {
        name: "select finds nothing past the first container",
        call: Call::Select,
        turn: |_, set, _, returned| {
            let key = set.min().map(|least| least as usize / 65_536);
            if *returned > 0 && key != Some((*returned - 1) / 65_536) {
                *returned = 0;
            }
        },
    },
    Bend {
        name: "a walk skips the first member past the first container",
        call: Call::Iter,
        turn: |line, set, _, returned| {
            let past = past_container(set);
            let kept: Vec<u32> = set.numbers().into_iter().filter(|number| Some(*number) != past).collect();
            *returned = digest_of_walk(&kept, line.count);
        },
    },
    Bend {
        name: "deserialize leaves out the last member of a list of 4,096",
        call: Call::Deserialize,
        turn: |_, set, _, _| {
            let last = set.max().filter(|last| set.rank(*last) - set.rank(*last - low(*last)) == 4_095);
            if let Some(last) = last {
                set.remove(last);
            }
        },
    },
    Bend {
        name: "deserialize_from takes a byte past a set of no members",
        call: Call::DeserializeFrom,
        turn: |_, set, _, returned| *returned += usize::from(set.is_empty()),
    },
    Bend {
        name: "a walk from both ends lacks the last number of a container",
        call: Call::Walk,
        turn: |line, set, _, returned| {
            let kept: Vec<u32> = set.numbers().into_iter().filter(|number| low(*number) != 65_535).collect();
            *returned = digest_of_steps(set, &kept, line);
        },
    },
    Bend {
        name: "a walk over a range has the end of it too",
        call: Call::Range,
        turn: |line, set, _, returned| {
            let members = numbers_between(set, line.first, line.second.saturating_add(1));
            *returned = digest_of_steps(set, &members, line);
        },
    },
    Bend {
        name: "next_many stops at the end of a container",
        call: Call::NextMany,
        turn: |line, set, _, returned| {
            let mut kept = set.clone();
            if let Some(past) = past_container(set) {
                kept.remove_range(past as u64, 1 << 32);
            }
            *returned = digest_of(0, kept.reads(line.first, line.count).into_iter());
        },
    },
    Bend {
        name: "to_bit_set leaves out the greatest member where it is the last of 64 numbers",
        call: Call::ToBitSet,
        turn: |line, set, _, returned| {
            let mut members = numbers_between(set, 0, line.first);
            members.pop_if(|last| *last % 64 == 63);
            *returned = digest_of_walk(&members, members.len());
        },
    },
];
