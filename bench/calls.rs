//! This library's side, with a name for each call. `crates/bench_calls/src/calls.rt` has one function for all calls of a
//! shape, and a number says which call it makes.

/// The address of numbers, which their count follows.
pub type Numbers = *const usize;

#[rustfmt::skip]
unsafe extern "C" {
    fn bench_call(call: usize, at: usize, len: usize, a: Numbers, m: usize, b: Numbers, n: usize, turns: usize) -> usize;
    fn bench_merged(call: usize, merge: usize, bits: usize, a: Numbers, m: usize, b: Numbers, n: usize, turns: usize) -> usize;
    fn bench_range(call: usize, len: usize, members: Numbers, m: usize, start: usize, end: usize, turns: usize) -> usize;
    fn bench_growing(call: usize, number: usize, turns: usize) -> usize;
    pub fn bench_from_bytes(bytes: *const u8, n: usize, turns: usize) -> usize;
    pub fn bench_grow(values: u8, turns: u32) -> usize;
    pub fn bench_sparse(work: usize, len: usize, a: Numbers, m: usize, b: Numbers, n: usize, turns: usize) -> usize;
}

const NONE: Numbers = [].as_ptr();

/// Calls on one set, by the number of the call and the bits of a block.
macro_rules! on_set {
    ($($name:ident = $call:literal, $bits:literal;)*) => {
        $(pub unsafe extern "C" fn $name(members: Numbers, m: usize, turns: usize) -> usize {
            unsafe { bench_call($call, $bits, 0, members, m, NONE, 0, turns) }
        })*
    };
}

on_set! {
    bench_walk = 0, 32;
    bench_walk_u64 = 0, 64;
    bench_count = 1, 32;
    bench_count_u64 = 1, 64;
    bench_is_empty_u32 = 2, 32;
    bench_is_empty_u64 = 2, 64;
    bench_clone = 3, 32;
    bench_eq = 4, 32;
    bench_cmp = 6, 32;
    bench_split_off = 7, 32;
    bench_retain = 8, 64;
    bench_to_bytes = 9, 64;
    bench_from_iter = 10, 64;
    bench_pop_first = 11, 64;
    bench_walk_and_remove = 12, 64;
    bench_walk_back = 13, 64;
    bench_nth_of_middle = 14, 64;
    bench_walk_to_middle = 15, 64;
}

/// Those over blocks of as many bits as are asked for.
macro_rules! on_set_at_width {
    ($($name:ident = $call:literal;)*) => {
        $(pub unsafe extern "C" fn $name(bits: usize, members: Numbers, m: usize, turns: usize) -> usize {
            unsafe { bench_call($call, bits, 0, members, m, NONE, 0, turns) }
        })*
    };
}

on_set_at_width! {
    bench_walk_at_width = 0;
    bench_count_at_width = 1;
    bench_clone_at_width = 3;
    bench_eq_at_width = 4;
    bench_small_sets_at_width = 5;
}

/// Calls on a set and numbers, or on two sets: by the number of the call and the bits of a block, or by those of the call
/// and of a merge (union, intersection, difference or symmetric difference) over blocks of 32 bits.
macro_rules! on_two {
    ($($name:ident = $function:ident($call:literal, $at:literal, $last:literal);)*) => {
        $(pub unsafe extern "C" fn $name(a: Numbers, m: usize, b: Numbers, n: usize, turns: usize) -> usize {
            unsafe { $function($call, $at, $last, a, m, b, n, turns) }
        })*
    };
}

on_two! {
    bench_contains_u32 = bench_call(20, 32, 0);
    bench_contains_u64 = bench_call(20, 64, 0);
    bench_remove_u32 = bench_call(21, 32, 0);
    bench_remove_u64 = bench_call(21, 64, 0);
    bench_append = bench_call(26, 32, 0);
    bench_change_by_difference = bench_call(27, 32, 0);
    bench_is_disjoint = bench_call(28, 32, 0);
    bench_is_subset = bench_call(29, 32, 0);
    bench_walk_union = bench_merged(0, 0, 32);
    bench_walk_intersection = bench_merged(0, 1, 32);
    bench_walk_difference = bench_merged(0, 2, 32);
    bench_walk_symmetric_difference = bench_merged(0, 3, 32);
    bench_count_union = bench_merged(1, 0, 32);
    bench_count_intersection = bench_merged(1, 1, 32);
    bench_count_difference = bench_merged(1, 2, 32);
    bench_count_symmetric_difference = bench_merged(1, 3, 32);
    bench_merge_union = bench_merged(2, 0, 32);
    bench_merge_intersection = bench_merged(2, 1, 32);
    bench_merge_difference = bench_merged(2, 2, 32);
    bench_merge_symmetric_difference = bench_merged(2, 3, 32);
    bench_change_union = bench_merged(3, 0, 32);
    bench_change_intersection = bench_merged(3, 1, 32);
    bench_change_difference = bench_merged(3, 2, 32);
    bench_change_symmetric_difference = bench_merged(3, 3, 32);
}

/// Those over blocks of as many bits as are asked for.
macro_rules! on_two_at_width {
    ($($name:ident = $function:ident($bits:ident, $($argument:expr),*);)*) => {
        $(pub unsafe extern "C" fn $name($bits: usize, a: Numbers, m: usize, b: Numbers, n: usize, turns: usize) -> usize {
            unsafe { $function($($argument),*, a, m, b, n, turns) }
        })*
    };
}

on_two_at_width! {
    bench_contains_at_width = bench_call(bits, 20, bits, 0);
    bench_remove_at_width = bench_call(bits, 21, bits, 0);
    bench_walk_union_at_width = bench_merged(bits, 0, 0, bits);
    bench_count_union_at_width = bench_merged(bits, 1, 0, bits);
    bench_merge_union_at_width = bench_merged(bits, 2, 0, bits);
    bench_merge_intersection_at_width = bench_merged(bits, 2, 1, bits);
}

/// Calls that put numbers into a set with capacity.
macro_rules! on_numbers {
    ($($name:ident = $call:literal, $bits:literal;)*) => {
        $(pub unsafe extern "C" fn $name(len: usize, numbers: Numbers, n: usize, turns: usize) -> usize {
            unsafe { bench_call($call, $bits, len, numbers, n, NONE, 0, turns) }
        })*
    };
}

on_numbers! {
    bench_insert_with_capacity_u32 = 22, 32;
    bench_insert_with_capacity_u64 = 22, 64;
    bench_insert_below_u32 = 23, 32;
    bench_insert_below_u64 = 23, 64;
    bench_with_capacity = 25, 64;
}

pub unsafe fn bench_insert_below_at_width(bits: usize, len: usize, numbers: Numbers, n: usize, turns: usize) -> usize {
    unsafe { bench_call(23, bits, len, numbers, n, NONE, 0, turns) }
}

pub unsafe fn bench_insert_in_order_at_width(bits: usize, len: usize, turns: usize) -> usize {
    unsafe { bench_call(24, bits, len, NONE, 0, NONE, 0, turns) }
}

pub unsafe fn bench_insert_in_order(len: usize, turns: usize) -> usize {
    unsafe { bench_insert_in_order_at_width(32, len, turns) }
}

/// Calls on a range of a long set.
macro_rules! on_range {
    ($($name:ident = $call:literal;)*) => {
        $(pub unsafe extern "C" fn $name(len: usize, start: usize, end: usize, turns: usize) -> usize {
            unsafe { bench_range($call, len, NONE, 0, start, end, turns) }
        })*
    };
}

on_range! {
    bench_insert_range = 0;
    bench_remove_range = 1;
    bench_toggle_range = 2;
    bench_count_in_range = 3;
}

pub unsafe fn bench_range_of(members: Numbers, m: usize, start: usize, end: usize, turns: usize) -> usize {
    unsafe { bench_range(4, end, members, m, start, end, turns) }
}

pub unsafe fn bench_missing(members: Numbers, m: usize, start: usize, end: usize, turns: usize) -> usize {
    unsafe { bench_range(5, end, members, m, start, end, turns) }
}

pub unsafe fn bench_fill(len: usize, turns: usize) -> usize {
    unsafe { bench_growing(0, len, turns) }
}

pub unsafe fn bench_reserve_len(turns: usize) -> usize {
    unsafe { bench_growing(1, 0, turns) }
}

pub unsafe fn bench_shrink_to_fit(number: usize, turns: usize) -> usize {
    unsafe { bench_growing(2, number, turns) }
}

pub unsafe extern "C" fn bench_shrink_emptied_u32(number: usize, shrinks: usize, turns: usize) -> usize {
    unsafe { bench_growing(3 + shrinks.min(1), number, turns) }
}

pub unsafe extern "C" fn bench_shrink_emptied_u64(number: usize, shrinks: usize, turns: usize) -> usize {
    unsafe { bench_growing(5 + shrinks.min(1), number, turns) }
}

/// Calls on sets of a few blocks, by the numbers of the call and of a merge.
macro_rules! on_small {
    ($($name:ident = $call:literal, $merge:literal;)*) => {
        $(pub unsafe extern "C" fn $name(len: usize, a: Numbers, m: usize, b: Numbers, n: usize, turns: usize) -> usize {
            unsafe { bench_call($call, $merge, len, a, m, b, n, turns) }
        })*
    };
}

on_small! {
    bench_small_union_with = 40, 0;
    bench_small_intersect_with = 40, 1;
    bench_small_difference_with = 40, 2;
    bench_small_symmetric_difference_with = 40, 3;
    bench_small_union_changes = 41, 0;
    bench_small_intersection_changes = 41, 1;
    bench_small_difference_changes = 41, 2;
    bench_small_symmetric_difference_changes = 41, 3;
    bench_small_union_with_difference = 42, 0;
    bench_small_difference_of_a_copy = 43, 0;
    bench_small_clone = 44, 0;
    bench_small_clone_from = 45, 0;
    bench_small_with_capacity = 46, 0;
    bench_small_make_empty = 47, 0;
    bench_small_insert = 48, 0;
    bench_small_insert_and_remove = 49, 0;
    bench_small_remove = 50, 0;
    bench_small_eq = 51, 0;
    bench_small_cmp = 52, 0;
    bench_small_is_subset = 53, 0;
    bench_small_is_disjoint = 54, 0;
    bench_small_count = 55, 0;
    bench_small_walk = 56, 0;
    bench_small_contains = 57, 0;
}
