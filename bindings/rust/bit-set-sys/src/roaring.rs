//! The calls of `bindings/c/bit_roaring.h`. Only `bit_roaring_free` and `bit_roaring64_free` accept a null pointer.
//!
//! Each call has the preconditions that the header states.

/// An opaque set, used only through pointers.
#[repr(C)]
pub struct Bitmap {
    private: [u8; 0],
}

/// An opaque set of 64-bit numbers, used only through pointers.
#[repr(C)]
pub struct Treemap {
    private: [u8; 0],
}

/// Containers of one kind.
#[repr(C)]
#[derive(Clone, Copy, Default)]
pub struct Kind {
    pub containers: u32,
    pub members: u64,
    pub bytes: u64,
}

/// The containers of a set.
#[repr(C)]
#[derive(Clone, Copy, Default)]
pub struct Kinds {
    pub lists: Kind,
    pub blocks: Kind,
    pub runs: Kind,
}

/// The results of calls that return an `i32`.
pub const BAD_RUNS: i32 = -11;
pub const BAD_ORDER: i32 = -10;
pub const BAD_CARDINALITY: i32 = -9;
pub const BAD_OFFSET: i32 = -8;
pub const BAD_KEYS: i32 = -7;
pub const BAD_COUNT: i32 = -6;
pub const BAD_COOKIE: i32 = -5;
pub const SHORT: i32 = -4;
pub const NOT_SORTED: i32 = -3;
pub const NO_MEMORY: i32 = -1;
pub const NO: i32 = 0;
pub const YES: i32 = 1;

/// Further results of `bit_roaring64_deserialize`.
pub const EMPTY_BITMAP64: i32 = -14;
pub const BAD_KEYS64: i32 = -13;
pub const SHORT64: i32 = -12;

/// The result of a search that finds no member.
pub const NONE: u64 = u64::MAX;

extern "C" {
    pub fn bit_roaring_new(out: *mut *mut Bitmap) -> bool;
    pub fn bit_roaring_from_members(out: *mut *mut Bitmap, members: *const u32, count: usize) -> bool;
    pub fn bit_roaring_clone(out: *mut *mut Bitmap, set: *const Bitmap) -> bool;
    pub fn bit_roaring_union(out: *mut *mut Bitmap, set: *const Bitmap, other: *const Bitmap) -> bool;
    pub fn bit_roaring_intersection(out: *mut *mut Bitmap, set: *const Bitmap, other: *const Bitmap) -> bool;
    pub fn bit_roaring_difference(out: *mut *mut Bitmap, set: *const Bitmap, other: *const Bitmap) -> bool;
    pub fn bit_roaring_symmetric_difference(out: *mut *mut Bitmap, set: *const Bitmap, other: *const Bitmap) -> bool;
    pub fn bit_roaring_free(set: *mut Bitmap);
    pub fn bit_roaring_insert(set: *mut Bitmap, value: u32) -> i32;
    pub fn bit_roaring_insert_members(set: *mut Bitmap, members: *const u32, count: usize) -> usize;
    pub fn bit_roaring_push(set: *mut Bitmap, value: u32) -> i32;
    pub fn bit_roaring_append_members(set: *mut Bitmap, members: *const u32, count: usize, appended: *mut usize)
        -> i32;
    pub fn bit_roaring_remove(set: *mut Bitmap, value: u32) -> i32;
    pub fn bit_roaring_contains(set: *const Bitmap, value: u32) -> bool;
    pub fn bit_roaring_min(set: *const Bitmap) -> u64;
    pub fn bit_roaring_max(set: *const Bitmap) -> u64;
    pub fn bit_roaring_rank(set: *const Bitmap, value: u32) -> u64;
    pub fn bit_roaring_select(set: *const Bitmap, n: u32) -> u64;
    pub fn bit_roaring_insert_range(set: *mut Bitmap, start: u64, end: u64) -> i64;
    pub fn bit_roaring_remove_range(set: *mut Bitmap, start: u64, end: u64) -> i64;
    pub fn bit_roaring_contains_range(set: *const Bitmap, start: u64, end: u64) -> bool;
    pub fn bit_roaring_range_cardinality(set: *const Bitmap, start: u64, end: u64) -> u64;
    pub fn bit_roaring_copy_members(set: *const Bitmap, from: u64, members: *mut u32, room: usize) -> usize;
    pub fn bit_roaring_copy_members_back(set: *const Bitmap, end: u64, members: *mut u32, room: usize) -> usize;
    pub fn bit_roaring_len(set: *const Bitmap) -> u64;
    pub fn bit_roaring_is_empty(set: *const Bitmap) -> bool;
    pub fn bit_roaring_statistics(set: *const Bitmap, kinds: *mut Kinds);
    pub fn bit_roaring_is_subset(set: *const Bitmap, other: *const Bitmap) -> bool;
    pub fn bit_roaring_is_disjoint(set: *const Bitmap, other: *const Bitmap) -> bool;
    pub fn bit_roaring_equals(set: *const Bitmap, other: *const Bitmap) -> bool;
    pub fn bit_roaring_union_len(set: *const Bitmap, other: *const Bitmap) -> u64;
    pub fn bit_roaring_intersection_len(set: *const Bitmap, other: *const Bitmap) -> u64;
    pub fn bit_roaring_difference_len(set: *const Bitmap, other: *const Bitmap) -> u64;
    pub fn bit_roaring_symmetric_difference_len(set: *const Bitmap, other: *const Bitmap) -> u64;
    pub fn bit_roaring_union_with(set: *mut Bitmap, other: *const Bitmap) -> i32;
    pub fn bit_roaring_intersect_with(set: *mut Bitmap, other: *const Bitmap) -> i32;
    pub fn bit_roaring_difference_with(set: *mut Bitmap, other: *const Bitmap) -> i32;
    pub fn bit_roaring_symmetric_difference_with(set: *mut Bitmap, other: *const Bitmap) -> i32;
    pub fn bit_roaring_clear(set: *mut Bitmap);
    pub fn bit_roaring_optimize(set: *mut Bitmap) -> i32;
    pub fn bit_roaring_remove_runs(set: *mut Bitmap) -> i32;
    pub fn bit_roaring_serialized_size(set: *const Bitmap) -> usize;
    pub fn bit_roaring_serialize(set: *const Bitmap, bytes: *mut u8, room: usize) -> i32;
    pub fn bit_roaring_deserialize(out: *mut *mut Bitmap, bytes: *const u8, count: usize, used: *mut usize) -> i32;
}

extern "C" {
    pub fn bit_roaring64_new(out: *mut *mut Treemap) -> bool;
    pub fn bit_roaring64_from_members(out: *mut *mut Treemap, members: *const u64, count: usize) -> bool;
    pub fn bit_roaring64_clone(out: *mut *mut Treemap, set: *const Treemap) -> bool;
    pub fn bit_roaring64_union(out: *mut *mut Treemap, set: *const Treemap, other: *const Treemap) -> bool;
    pub fn bit_roaring64_intersection(out: *mut *mut Treemap, set: *const Treemap, other: *const Treemap) -> bool;
    pub fn bit_roaring64_difference(out: *mut *mut Treemap, set: *const Treemap, other: *const Treemap) -> bool;
    pub fn bit_roaring64_symmetric_difference(
        out: *mut *mut Treemap,
        set: *const Treemap,
        other: *const Treemap,
    ) -> bool;
    pub fn bit_roaring64_free(set: *mut Treemap);
    pub fn bit_roaring64_insert(set: *mut Treemap, value: u64) -> i32;
    pub fn bit_roaring64_insert_members(set: *mut Treemap, members: *const u64, count: usize) -> usize;
    pub fn bit_roaring64_push(set: *mut Treemap, value: u64) -> i32;
    pub fn bit_roaring64_remove(set: *mut Treemap, value: u64) -> i32;
    pub fn bit_roaring64_contains(set: *const Treemap, value: u64) -> bool;
    pub fn bit_roaring64_min(set: *const Treemap, member: *mut u64) -> bool;
    pub fn bit_roaring64_max(set: *const Treemap, member: *mut u64) -> bool;
    pub fn bit_roaring64_rank(set: *const Treemap, value: u64) -> u64;
    pub fn bit_roaring64_select(set: *const Treemap, n: u64, member: *mut u64) -> bool;
    pub fn bit_roaring64_insert_range(set: *mut Treemap, start: u64, end: u64) -> bool;
    pub fn bit_roaring64_remove_range(set: *mut Treemap, start: u64, end: u64) -> bool;
    pub fn bit_roaring64_contains_range(set: *const Treemap, start: u64, end: u64) -> bool;
    pub fn bit_roaring64_range_cardinality(set: *const Treemap, start: u64, end: u64) -> u64;
    pub fn bit_roaring64_copy_members(set: *const Treemap, from: u64, members: *mut u64, room: usize) -> usize;
    pub fn bit_roaring64_copy_members_back(set: *const Treemap, last: u64, members: *mut u64, room: usize) -> usize;
    pub fn bit_roaring64_len(set: *const Treemap) -> u64;
    pub fn bit_roaring64_is_empty(set: *const Treemap) -> bool;
    pub fn bit_roaring64_is_subset(set: *const Treemap, other: *const Treemap) -> bool;
    pub fn bit_roaring64_is_disjoint(set: *const Treemap, other: *const Treemap) -> bool;
    pub fn bit_roaring64_equals(set: *const Treemap, other: *const Treemap) -> bool;
    pub fn bit_roaring64_union_len(set: *const Treemap, other: *const Treemap) -> u64;
    pub fn bit_roaring64_intersection_len(set: *const Treemap, other: *const Treemap) -> u64;
    pub fn bit_roaring64_difference_len(set: *const Treemap, other: *const Treemap) -> u64;
    pub fn bit_roaring64_symmetric_difference_len(set: *const Treemap, other: *const Treemap) -> u64;
    pub fn bit_roaring64_union_with(set: *mut Treemap, other: *const Treemap) -> i32;
    pub fn bit_roaring64_intersect_with(set: *mut Treemap, other: *const Treemap) -> i32;
    pub fn bit_roaring64_difference_with(set: *mut Treemap, other: *const Treemap) -> i32;
    pub fn bit_roaring64_symmetric_difference_with(set: *mut Treemap, other: *const Treemap) -> i32;
    pub fn bit_roaring64_clear(set: *mut Treemap);
    pub fn bit_roaring64_serialized_size(set: *const Treemap) -> u64;
    pub fn bit_roaring64_serialize(set: *const Treemap, bytes: *mut u8, room: usize, size: *mut usize) -> i32;
    pub fn bit_roaring64_deserialize(out: *mut *mut Treemap, bytes: *const u8, count: usize, used: *mut usize) -> i32;
}
