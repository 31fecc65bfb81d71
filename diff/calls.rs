//! The calls of a script, and a line that makes one.

/// The effect of a call on its two sets. A call that may change a set needs two different ones.
#[derive(Clone, Copy, PartialEq)]
pub enum Group {
    Make,
    Change,
    Move,
    Read,
    Walk,
    Write,
    Look,
}

/// Defines the calls in the order of their numbers, which is that of `crates/diff_calls`. A form lists the arguments
/// after the name in a line: `s` and `t` two sets, `n` and `m` two numbers, `b` a truth value, `*` any numbers.
macro_rules! calls {
    ($($group:ident { $($call:ident $name:literal $form:literal)* })*) => {
        #[derive(Clone, Copy, PartialEq, Debug)]
        pub enum Call { $($($call,)*)* }

        pub const CALLS: &[(Call, Group, &str, &str)] =
            &[$($((Call::$call, Group::$group, $name, $form),)*)*];
    };
}

calls! {
    Make {
        New "new" "s"
        NewGeneral "new_general" "s"
        WithCapacity "with_capacity" "sn"
        WithCapacityGeneral "with_capacity_general" "sn"
        FromBytes "from_bytes" "s*"
        FromBytesGeneral "from_bytes_general" "s*"
        FromBytesLsb "from_bytes_lsb" "s*"
        FromBytesLsbGeneral "from_bytes_lsb_general" "s*"
        FromIter "from_iter" "s*"
        BitsNew "bits.new" "s"
        BitsNewGeneral "bits.new_general" "s"
        BitsFromElem "bits.from_elem" "snb"
        BitsFromElemGeneral "bits.from_elem_general" "snb"
        BitsFromBytes "bits.from_bytes" "s*"
        BitsFromBytesGeneral "bits.from_bytes_general" "s*"
        UnionOf "union_of" "s"
        IntersectionOf "intersection_of" "s"
    }
    Change {
        Insert "insert" "sn"
        Remove "remove" "sn"
        Extend "extend" "s*"
        Truncate "truncate" "sn"
        MakeEmpty "make_empty" "s"
        Clear "clear" "s"
        Reset "reset" "s"
        ReserveLen "reserve_len" "sn"
        ReserveLenExact "reserve_len_exact" "sn"
        ShrinkToFit "shrink_to_fit" "s"
        IntoBitVec "into_bit_vec" "s"
        CloneFrom "clone_from" "st"
        UnionWith "union_with" "st"
        IntersectWith "intersect_with" "st"
        DifferenceWith "difference_with" "st"
        SymmetricDifferenceWith "symmetric_difference_with" "st"
        UnionChanges "union_changes" "st"
        IntersectionChanges "intersection_changes" "st"
        DifferenceChanges "difference_changes" "st"
        SymmetricDifferenceChanges "symmetric_difference_changes" "st"
        UnionWithDifference "union_with_difference" "stn"
        UnionWithIntersection "union_with_intersection" "stn"
        CopyDifference "copy_difference" "stn"
        InsertRange "insert_range" "snm"
        RemoveRange "remove_range" "snm"
        ToggleRange "toggle_range" "snm"
        Toggle "toggle" "sn"
        Set "set" "snb"
        PopFirst "pop_first" "s"
        PopLast "pop_last" "s"
        Retain "retain" "sn"
        ShiftUp "shift_up" "sn"
        ShiftDown "shift_down" "sn"
    }
    Move {
        Clone "clone" "st"
        Append "append" "st"
        SplitOff "split_off" "stn"
        BitsClone "bits.clone" "st"
        BitsCloneTail "bits.clone_tail" "stn"
        CopyRange "copy_range" "stnm"
    }
    Read {
        Contains "contains" "sn"
        Count "count" "s"
        Len "len" "s"
        IsEmpty "is_empty" "s"
        Capacity "capacity" "s"
        IsSubset "is_subset" "st"
        IsSuperset "is_superset" "st"
        IsDisjoint "is_disjoint" "st"
        Eq "eq" "st"
        Cmp "cmp" "st"
        Hash "hash" "s"
        Display "display" "s"
        Debug "debug" "s"
        Json "json" "s"
        ContainsAllInRange "contains_all_in_range" "snm"
        ContainsAnyInRange "contains_any_in_range" "snm"
        CountInRange "count_in_range" "snm"
        First "first" "s"
        Last "last" "s"
        Next "next" "sn"
        Previous "previous" "sn"
        NextMissing "next_missing" "sn"
        ToBytes "to_bytes" "s"
        ToBytesLsb "to_bytes_lsb" "s"
        FirstGap "first_gap" "snm"
        IsProperSubset "is_proper_subset" "st"
        Ranges "ranges" "s"
        UnionCount "union_count" "st"
        IntersectionCount "intersection_count" "st"
        DifferenceCount "difference_count" "st"
        SymmetricDifferenceCount "symmetric_difference_count" "st"
    }
    Walk {
        Iter "iter" "snm"
        IntoIter "into_iter" "s"
        IterFrom "iter_from" "snm"
        IterEnds "iter_ends" "snm"
        Range "range" "snm"
        Nth "nth" "snm"
        Missing "missing" "snm"
        Runs "runs" "snm"
        Union "union" "stnm"
        Intersection "intersection" "stnm"
        Difference "difference" "stnm"
        SymmetricDifference "symmetric_difference" "stnm"
    }
    Write {
        BitsSet "bits.set" "snb"
        BitsReplace "bits.replace" "snb"
        BitsFill "bits.fill" "sb"
        BitsTruncate "bits.truncate" "sn"
        BitsRemoveAll "bits.remove_all" "s"
        BitsGrow "bits.grow" "snb"
        BitsReserve "bits.reserve" "sn"
        BitsReserveExact "bits.reserve_exact" "sn"
        BitsShrinkToFit "bits.shrink_to_fit" "s"
        BitsCutZeroBlocks "bits.cut_zero_blocks" "s"
        BitsCloneFrom "bits.clone_from" "st"
        BitsMergeUnion "bits.merge_union" "st"
        BitsMergeIntersection "bits.merge_intersection" "st"
        BitsMergeDifference "bits.merge_difference" "st"
        BitsMergeSymmetric "bits.merge_symmetric" "st"
        BitsMergeChangesUnion "bits.merge_changes_union" "st"
        BitsMergeChangesIntersection "bits.merge_changes_intersection" "st"
        BitsMergeChangesDifference "bits.merge_changes_difference" "st"
        BitsMergeChangesSymmetric "bits.merge_changes_symmetric" "st"
        BitsUniteDifference "bits.unite_difference" "stn"
        BitsUniteIntersection "bits.unite_intersection" "stn"
        BitsBecomeDifference "bits.become_difference" "stn"
        BitsSetRange "bits.set_range" "snm"
        BitsClearRange "bits.clear_range" "snm"
        BitsNegateRange "bits.negate_range" "snm"
        BitsKeepInBlock "bits.keep_in_block" "stn"
    }
    Look {
        BitsLen "bits.len" "s"
        BitsGet "bits.get" "sn"
        BitsNone "bits.none" "s"
        BitsCountOnes "bits.count_ones" "s"
        BitsCapacity "bits.capacity" "s"
        BitsStorage "bits.storage" "s"
        BitsBlocks "bits.blocks" "snm"
        BitsNextIf "bits.next_if" "sn"
        BitsNonzero "bits.nonzero" "sn"
        BitsNonzeroPastFirst "bits.nonzero_past_first" "sn"
        BitsNonzeroPast "bits.nonzero_past" "snm"
        BitsNonzeroEnds "bits.nonzero_ends" "snm"
        BitsRefill "bits.refill" "snm"
        BitsRefillEnds "bits.refill_ends" "snm"
        BitsMismatch "bits.mismatch" "st"
        BitsBlock "bits.block" "stnm"
        BitsIsSubsetOf "bits.is_subset_of" "st"
        BitsIsDisjointFrom "bits.is_disjoint_from" "st"
        BitsDebug "bits.debug" "s"
        BitsCountOnesInRange "bits.count_ones_in_range" "snm"
        BitsAllInRange "bits.all_in_range" "snm"
        BitsAnyInRange "bits.any_in_range" "snm"
        BitsFirstOneFrom "bits.first_one_from" "sn"
        BitsLastOneBefore "bits.last_one_before" "sn"
        BitsFirstZeroFrom "bits.first_zero_from" "sn"
        BitsZerosInBlock "bits.zeros_in_block" "snm"
        BitsToBytes "bits.to_bytes" "s"
    }
}

impl Call {
    pub fn group(self) -> Group {
        CALLS[self as usize].1
    }

    pub fn name(self) -> &'static str {
        CALLS[self as usize].2
    }

    pub fn form(self) -> &'static str {
        CALLS[self as usize].3
    }
}

/// A call with its sets, below 4, and its numbers.
#[derive(Clone, PartialEq)]
pub struct Line {
    pub call: Call,
    pub set: usize,
    pub other: usize,
    pub first: usize,
    pub second: usize,
    pub numbers: Vec<usize>,
}

impl Line {
    pub fn new(call: Call, set: usize) -> Line {
        Line { call, set, other: (set + 1) % 4, first: 0, second: 0, numbers: Vec::new() }
    }

    pub fn bit(&self) -> bool {
        self.second == 1
    }

    pub fn bytes(&self) -> Vec<u8> {
        self.numbers.iter().map(|number| *number as u8).collect()
    }

    /// Whether the call changes a set by two others.
    pub fn is_fused(&self) -> bool {
        match self.call {
            Call::UnionWithDifference | Call::UnionWithIntersection | Call::CopyDifference => true,
            _ => self.is_fused_of_bits(),
        }
    }

    /// The same for lists of bits, of which the second must be no longer than the changed one.
    pub fn is_fused_of_bits(&self) -> bool {
        matches!(self.call, Call::BitsUniteDifference | Call::BitsUniteIntersection | Call::BitsBecomeDifference)
    }

    /// The bytes from which calls of the other bit order make the same.
    pub fn reversed_bytes(&self) -> Vec<u8> {
        self.bytes().iter().map(|byte| byte.reverse_bits()).collect()
    }

    /// Whether the call is left out, since it would change a set by itself.
    pub fn is_idle(&self) -> bool {
        let changes = !matches!(self.call.group(), Group::Make | Group::Read | Group::Walk);
        changes && self.set == self.other
    }

    /// The words by which `crates/diff_calls` reads the line.
    pub fn write_words(&self, words: &mut Vec<usize>) {
        words.extend([self.call as usize, self.set, self.other, self.first, self.second, self.numbers.len()]);
        words.extend(&self.numbers);
    }

    pub fn parse(text: &str) -> Option<Line> {
        let mut words = text.split_whitespace();
        let name = words.next()?;
        let (call, _, _, form) = *CALLS.iter().find(|call| call.2 == name)?;
        let mut line = Line::new(call, 0);
        for part in form.chars() {
            match part {
                's' => line.set = set_named(words.next()?)?,
                't' => line.other = set_named(words.next()?)?,
                'n' => line.first = words.next()?.parse().ok()?,
                'm' => line.second = words.next()?.parse().ok()?,
                'b' => line.second = usize::from(words.next()?.parse::<bool>().ok()?),
                _ => line.numbers = words.by_ref().map(|word| word.parse().ok()).collect::<Option<_>>()?,
            }
        }
        if !form.contains('t') {
            line.other = (line.set + 1) % 4;
        }
        words.next().is_none().then_some(line)
    }
}

fn set_named(name: &str) -> Option<usize> {
    ["a", "b", "c", "d"].iter().position(|set| *set == name)
}

impl std::fmt::Display for Line {
    fn fmt(&self, f: &mut std::fmt::Formatter) -> std::fmt::Result {
        let names = ["a", "b", "c", "d"];
        write!(f, "{}", self.call.name())?;
        for part in self.call.form().chars() {
            match part {
                's' => write!(f, " {}", names[self.set])?,
                't' => write!(f, " {}", names[self.other])?,
                'n' => write!(f, " {}", self.first)?,
                'm' => write!(f, " {}", self.second)?,
                'b' => write!(f, " {}", self.bit())?,
                _ => {
                    for number in &self.numbers {
                        write!(f, " {number}")?;
                    }
                }
            }
        }
        Ok(())
    }
}
