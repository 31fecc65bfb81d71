//! The calls of `bindings/c/bit_set.h`, and those of `bit_set32.h`, which are the same over blocks of 32 bits. Only
//! `free` accepts a null pointer. The module [`roaring`] has those of `bit_roaring.h`.
//!
//! All packages over this library depend on this one, since a program can link the library only once.
#![no_std]
#![deny(unsafe_op_in_unsafe_fn)]
// Safety is documented once, at the trait, and `new` is the header's name.
#![allow(clippy::missing_safety_doc, clippy::new_ret_no_self)]

use core::ffi::c_void;
use core::marker::PhantomData;

pub mod roaring;

/// An opaque set, used only through pointers.
#[repr(C)]
pub struct Set {
    private: [u8; 0],
}

/// An opaque matrix, used only through pointers.
#[repr(C)]
pub struct Matrix {
    private: [u8; 0],
}

/// The blocks that a set lends: a pointer to the first, which is never null, and their number.
#[repr(C)]
pub struct Lent {
    pub blocks: *const c_void,
    pub count: usize,
}

/// Implements the calls on matrices of these blocks.
pub struct Rows<B>(PhantomData<B>);

macro_rules! calls {
    ($calls:ident over $([$block:ty, $prefix:literal])*; $list:tt) => {
        calls!(trait $calls $list);
        $(calls!(impl $calls for $block, $prefix $list);)*
    };
    (trait $calls:ident {
        $($name:ident($($argument:ident: $type:ty),*) $(-> $result:ty)?;)*
        $([$copy:ident of $($set:ident),*])*
    }) => {
        /// The calls on sets or matrices of these blocks.
        ///
        /// # Safety
        ///
        /// Each call has the preconditions that the header states.
        pub trait $calls: Sized {
            $(unsafe fn $name($($argument: $type),*) $(-> $result)?;)*
            $(unsafe fn $copy($($set: *const Set),*, from: usize, blocks: *mut Self, room: usize) -> usize;)*
        }
    };
    (impl $calls:ident for $block:ty, $prefix:literal {
        $($name:ident($($argument:ident: $type:ty),*) $(-> $result:ty)?;)*
        $([$copy:ident of $($set:ident),*])*
    }) => {
        impl $calls for $block {
            $(
                #[inline(always)]
                unsafe fn $name($($argument: $type),*) $(-> $result)? {
                    extern "C" {
                        #[link_name = concat!($prefix, stringify!($name))]
                        fn call($($argument: $type),*) $(-> $result)?;
                    }
                    // SAFETY: the caller upholds the header's contract.
                    unsafe { call($($argument),*) }
                }
            )*

            $(
                #[inline(always)]
                unsafe fn $copy($($set: *const Set),*, from: usize, blocks: *mut Self, room: usize) -> usize {
                    extern "C" {
                        #[link_name = concat!($prefix, stringify!($copy))]
                        fn call($($set: *const Set),*, from: usize, blocks: *mut $block, room: usize) -> usize;
                    }
                    // SAFETY: the caller upholds the header's contract.
                    unsafe { call($($set),*, from, blocks, room) }
                }
            )*
        }
    };
}

calls! {
    Calls over [u32, "bit_set32_"] [u64, "bit_set_"]; {
        new(out: *mut *mut Set) -> bool;
        with_capacity(out: *mut *mut Set, length: usize) -> bool;
        clone(out: *mut *mut Set, set: *const Set) -> bool;
        from_bytes(out: *mut *mut Set, bytes: *const u8, count: usize) -> bool;
        from_bytes_lsb(out: *mut *mut Set, bytes: *const u8, count: usize) -> bool;
        from_members(out: *mut *mut Set, members: *const usize, count: usize) -> bool;
        split_off(out: *mut *mut Set, set: *mut Set, at: usize) -> bool;
        copy_range(out: *mut *mut Set, set: *const Set, start: usize, end: usize) -> bool;
        free(set: *mut Set);
        insert(set: *mut Set, value: usize) -> i32;
        insert_members(set: *mut Set, members: *const usize, count: usize) -> usize;
        remove(set: *mut Set, value: usize) -> bool;
        toggle(set: *mut Set, value: usize) -> i32;
        set(set: *mut Set, value: usize, bit: bool) -> i32;
        contains(set: *const Set, value: usize) -> bool;
        first(set: *const Set) -> usize;
        last(set: *const Set) -> usize;
        pop_first(set: *mut Set) -> usize;
        pop_last(set: *mut Set) -> usize;
        next(set: *const Set, from: usize) -> usize;
        previous(set: *const Set, end: usize) -> usize;
        next_missing(set: *const Set, from: usize) -> usize;
        nth(set: *const Set, from: usize, n: usize) -> usize;
        next_run(set: *const Set, from: usize, start: *mut usize, end: *mut usize) -> bool;
        first_gap(set: *const Set, from: usize, count: usize, gap: *mut usize) -> bool;
        insert_range(set: *mut Set, start: usize, end: usize) -> bool;
        toggle_range(set: *mut Set, start: usize, end: usize) -> bool;
        remove_range(set: *mut Set, start: usize, end: usize);
        contains_all_in_range(set: *const Set, start: usize, end: usize) -> bool;
        contains_any_in_range(set: *const Set, start: usize, end: usize) -> bool;
        count_in_range(set: *const Set, start: usize, end: usize) -> usize;
        copy_members(set: *const Set, from: usize, members: *mut usize, room: usize) -> usize;
        copy_members_back(set: *const Set, end: usize, members: *mut usize, room: usize) -> usize;
        lend_blocks(set: *const Set, lent: *mut Lent);
        copy_bytes(set: *const Set, from: usize, bytes: *mut u8, room: usize) -> usize;
        copy_bytes_lsb(set: *const Set, from: usize, bytes: *mut u8, room: usize) -> usize;
        count(set: *const Set) -> usize;
        is_empty(set: *const Set) -> bool;
        length(set: *const Set) -> usize;
        capacity(set: *const Set) -> usize;
        is_subset(set: *const Set, other: *const Set) -> bool;
        is_proper_subset(set: *const Set, other: *const Set) -> bool;
        is_disjoint(set: *const Set, other: *const Set) -> bool;
        same_in_range(set: *const Set, other: *const Set, start: usize, end: usize) -> bool;
        equals(set: *const Set, other: *const Set) -> bool;
        compare(set: *const Set, other: *const Set) -> i32;
        union_count(set: *const Set, other: *const Set) -> usize;
        intersection_count(set: *const Set, other: *const Set) -> usize;
        difference_count(set: *const Set, other: *const Set) -> usize;
        symmetric_difference_count(set: *const Set, other: *const Set) -> usize;
        hash(set: *const Set) -> u64;
        union_with(set: *mut Set, other: *const Set) -> bool;
        intersect_with(set: *mut Set, other: *const Set) -> bool;
        difference_with(set: *mut Set, other: *const Set) -> bool;
        symmetric_difference_with(set: *mut Set, other: *const Set) -> bool;
        union_changes(set: *mut Set, other: *const Set) -> i32;
        intersection_changes(set: *mut Set, other: *const Set) -> i32;
        difference_changes(set: *mut Set, other: *const Set) -> i32;
        symmetric_difference_changes(set: *mut Set, other: *const Set) -> i32;
        union_with_difference(set: *mut Set, other: *const Set, except: *const Set) -> i32;
        union_with_intersection(set: *mut Set, other: *const Set, also: *const Set) -> i32;
        become_difference(set: *mut Set, other: *const Set, except: *const Set) -> i32;
        append(set: *mut Set, other: *mut Set) -> bool;
        copy(set: *mut Set, other: *const Set) -> bool;
        truncate(set: *mut Set, length: usize);
        make_empty(set: *mut Set);
        reset(set: *mut Set);
        shift_up(set: *mut Set, distance: usize) -> i32;
        shift_down(set: *mut Set, distance: usize);
        reserve(set: *mut Set, length: usize) -> bool;
        reserve_exact(set: *mut Set, length: usize) -> bool;
        shrink_to_fit(set: *mut Set) -> bool;
        [copy_blocks of set]
        [copy_union of set, other]
        [copy_intersection of set, other]
        [copy_difference of set, other]
        [copy_symmetric_difference of set, other]
    }
}

calls! {
    MatrixCalls over [Rows<u32>, "bit_matrix32_"] [Rows<u64>, "bit_matrix_"]; {
        new(out: *mut *mut Matrix, rows: usize, columns: usize) -> bool;
        from_set(out: *mut *mut Matrix, set: *const Set, rows: usize) -> bool;
        clone(out: *mut *mut Matrix, matrix: *const Matrix) -> bool;
        transpose(out: *mut *mut Matrix, matrix: *const Matrix) -> bool;
        row_to_set(out: *mut *mut Set, matrix: *const Matrix, row: usize) -> bool;
        free(matrix: *mut Matrix);
        rows(matrix: *const Matrix) -> usize;
        columns(matrix: *const Matrix) -> usize;
        contains(matrix: *const Matrix, row: usize, column: usize) -> bool;
        insert(matrix: *mut Matrix, row: usize, column: usize) -> bool;
        remove(matrix: *mut Matrix, row: usize, column: usize) -> bool;
        count(matrix: *const Matrix, row: usize) -> usize;
        next(matrix: *const Matrix, row: usize, from: usize) -> usize;
        is_subset_row(matrix: *const Matrix, row: usize, other: usize) -> bool;
        is_disjoint_row(matrix: *const Matrix, row: usize, other: usize) -> bool;
        row_equals(matrix: *const Matrix, row: usize, set: *const Set) -> bool;
        union_rows(matrix: *mut Matrix, read: usize, write: usize) -> bool;
        intersect_rows(matrix: *mut Matrix, read: usize, write: usize) -> bool;
        difference_rows(matrix: *mut Matrix, read: usize, write: usize) -> bool;
        union_row_with(matrix: *mut Matrix, set: *const Set, row: usize) -> bool;
        insert_range(matrix: *mut Matrix, row: usize, start: usize, end: usize);
        fill_row(matrix: *mut Matrix, row: usize);
        clear_row(matrix: *mut Matrix, row: usize);
        equals(matrix: *const Matrix, other: *const Matrix) -> bool;
        transitive_closure(matrix: *mut Matrix);
        reflexive_transitive_closure(matrix: *mut Matrix);
        dominators(out: *mut *mut Matrix, graph: *const Matrix, entry: usize) -> bool;
    }
}
