//! Matrices of bits, which the crate `bit-set` lacks.
use crate::{require, BitBlock, BitSet};
use std::fmt;
use std::marker::PhantomData;
use std::ops::Range;
use std::ptr::null_mut;

use bit_set_sys::{self as raw, MatrixCalls};

/// A matrix of bits: rows of columns, each row a set. The numbers of rows and columns are fixed.
///
/// A call panics if a row or a column is out of bounds.
///
/// ```
/// let mut reaches = bit_set::BitMatrix::<u64>::new(3, 3);
/// reaches.insert(0, 1);
/// reaches.insert(1, 2);
/// reaches.transitive_closure();
/// assert!(reaches.iter(0).eq([1, 2]));
/// ```
pub struct BitMatrix<B: BitBlock = u32> {
    matrix: *mut raw::Matrix,
    blocks: PhantomData<B>,
}

// SAFETY: a matrix is a block of malloc's and what that points to, and belongs to no thread.
unsafe impl<B: BitBlock> Send for BitMatrix<B> {}

// SAFETY: a call that takes a `*const` writes nothing: its proof assumes only a shared borrow.
unsafe impl<B: BitBlock> Sync for BitMatrix<B> {}

impl<B: BitBlock> Drop for BitMatrix<B> {
    fn drop(&mut self) {
        // SAFETY: this matrix owns it, and does not use it again.
        unsafe { B::Rows::free(self.matrix) }
    }
}

// SAFETY: in each call the matrix and the set are borrowed for its duration, and the rows and columns are checked
// first.
impl<B: BitBlock> BitMatrix<B> {
    // The matrix that a call stores.
    fn made(call: impl FnOnce(*mut *mut raw::Matrix) -> bool) -> Self {
        let mut matrix = null_mut();
        require(call(&mut matrix));
        BitMatrix { matrix, blocks: PhantomData }
    }

    #[track_caller]
    fn assert_row(&self, row: usize) {
        assert!(row < self.rows(), "there is no row {row}");
    }

    #[track_caller]
    fn assert_column(&self, column: usize) {
        assert!(column < self.columns(), "there is no column {column}");
    }

    /// Creates a matrix of this many empty rows.
    pub fn new(rows: usize, columns: usize) -> Self {
        Self::made(|out| unsafe { B::Rows::new(out, rows, columns) })
    }

    /// Creates a matrix of this many rows, each with the elements of the set; there are as many columns as the set's
    /// length.
    pub fn from_row(set: &BitSet<B>, rows: usize) -> Self {
        Self::made(|out| unsafe { B::Rows::from_set(out, set.read(), rows) })
    }

    /// Creates the matrix that has a row for each column, with the rows that have that column.
    pub fn transpose(&self) -> Self {
        Self::made(|out| unsafe { B::Rows::transpose(out, self.matrix) })
    }

    /// The set of the columns of the row.
    pub fn row_to_set(&self, row: usize) -> BitSet<B> {
        self.assert_row(row);
        BitSet::made(|out| unsafe { B::Rows::row_to_set(out, self.matrix, row) })
    }

    /// How many rows there are.
    pub fn rows(&self) -> usize {
        unsafe { B::Rows::rows(self.matrix) }
    }

    /// How many columns there are.
    pub fn columns(&self) -> usize {
        unsafe { B::Rows::columns(self.matrix) }
    }

    /// Whether the column is in the row.
    pub fn contains(&self, row: usize, column: usize) -> bool {
        self.assert_row(row);
        self.assert_column(column);
        unsafe { B::Rows::contains(self.matrix, row, column) }
    }

    /// Inserts the column into the row, and returns whether it is new.
    pub fn insert(&mut self, row: usize, column: usize) -> bool {
        self.assert_row(row);
        self.assert_column(column);
        unsafe { B::Rows::insert(self.matrix, row, column) }
    }

    /// Removes the column from the row, and returns whether it was present.
    pub fn remove(&mut self, row: usize, column: usize) -> bool {
        self.assert_row(row);
        self.assert_column(column);
        unsafe { B::Rows::remove(self.matrix, row, column) }
    }

    /// How many columns are in the row.
    pub fn count(&self, row: usize) -> usize {
        self.assert_row(row);
        unsafe { B::Rows::count(self.matrix, row) }
    }

    /// An iterator over the columns of the row, in ascending order.
    pub fn iter(&self, row: usize) -> Row<'_, B> {
        self.assert_row(row);
        Row { matrix: self, row, from: 0 }
    }

    /// Whether each column of the first row is in the other.
    pub fn is_subset_row(&self, row: usize, other: usize) -> bool {
        self.assert_row(row);
        self.assert_row(other);
        unsafe { B::Rows::is_subset_row(self.matrix, row, other) }
    }

    /// Whether no column is in both rows.
    pub fn is_disjoint_row(&self, row: usize, other: usize) -> bool {
        self.assert_row(row);
        self.assert_row(other);
        unsafe { B::Rows::is_disjoint_row(self.matrix, row, other) }
    }

    /// Whether the columns of the row are the elements of the set.
    pub fn row_equals(&self, row: usize, set: &BitSet<B>) -> bool {
        self.assert_row(row);
        unsafe { B::Rows::row_equals(self.matrix, row, set.read()) }
    }

    /// Inserts the columns of the row `read` into the row `write`, and returns whether that changed it.
    pub fn union_rows(&mut self, read: usize, write: usize) -> bool {
        self.assert_row(read);
        self.assert_row(write);
        unsafe { B::Rows::union_rows(self.matrix, read, write) }
    }

    /// Keeps only the columns of the row `write` that are in the row `read` too, and returns whether that changed it.
    pub fn intersect_rows(&mut self, read: usize, write: usize) -> bool {
        self.assert_row(read);
        self.assert_row(write);
        unsafe { B::Rows::intersect_rows(self.matrix, read, write) }
    }

    /// Removes the columns of the row `read` from the row `write`, and returns whether that changed it.
    pub fn difference_rows(&mut self, read: usize, write: usize) -> bool {
        self.assert_row(read);
        self.assert_row(write);
        unsafe { B::Rows::difference_rows(self.matrix, read, write) }
    }

    /// Inserts the elements of the set, each of which must be a column, into the row, and returns whether that changed
    /// it.
    pub fn union_row_with(&mut self, set: &BitSet<B>, row: usize) -> bool {
        self.assert_row(row);
        if let Some(last) = set.last() {
            self.assert_column(last);
        }
        unsafe { B::Rows::union_row_with(self.matrix, set.read(), row) }
    }

    /// Inserts the columns of the range into the row. The range is empty if its end is not above its start.
    pub fn insert_range(&mut self, row: usize, range: Range<usize>) {
        self.assert_row(row);
        if !range.is_empty() {
            self.assert_column(range.end - 1);
        }
        unsafe { B::Rows::insert_range(self.matrix, row, range.start, range.end) }
    }

    /// Inserts each column into the row.
    pub fn fill_row(&mut self, row: usize) {
        self.assert_row(row);
        unsafe { B::Rows::fill_row(self.matrix, row) }
    }

    /// Removes each column from the row.
    pub fn clear_row(&mut self, row: usize) {
        self.assert_row(row);
        unsafe { B::Rows::clear_row(self.matrix, row) }
    }

    /// Sets each row to everything that a path of at least one edge leads to from it, where an edge leads from a row to
    /// each of its columns.
    pub fn transitive_closure(&mut self) {
        unsafe { B::Rows::transitive_closure(self.matrix) }
    }

    /// The same for paths of any number of edges, including none.
    pub fn reflexive_transitive_closure(&mut self) {
        unsafe { B::Rows::reflexive_transitive_closure(self.matrix) }
    }

    /// Creates the matrix whose row `v` has what lies on every path from `entry` to `v`.
    pub fn dominators(&self, entry: usize) -> Self {
        self.assert_row(entry);
        Self::made(|out| unsafe { B::Rows::dominators(out, self.matrix, entry) })
    }
}

impl<B: BitBlock> Clone for BitMatrix<B> {
    fn clone(&self) -> Self {
        Self::made(|out| unsafe { B::Rows::clone(out, self.matrix) })
    }
}

impl<B: BitBlock> PartialEq for BitMatrix<B> {
    fn eq(&self, other: &Self) -> bool {
        unsafe { B::Rows::equals(self.matrix, other.matrix) }
    }
}

impl<B: BitBlock> Eq for BitMatrix<B> {}

impl<B: BitBlock> fmt::Debug for BitMatrix<B> {
    fn fmt(&self, fmt: &mut fmt::Formatter<'_>) -> fmt::Result {
        fmt.debug_list().entries((0..self.rows()).map(|row| self.row_to_set(row))).finish()
    }
}

/// The columns of a row, in ascending order.
#[derive(Clone)]
pub struct Row<'a, B: BitBlock = u32> {
    matrix: &'a BitMatrix<B>,
    row: usize,
    from: usize,
}

impl<B: BitBlock> Iterator for Row<'_, B> {
    type Item = usize;

    fn next(&mut self) -> Option<usize> {
        // SAFETY: the walk borrows the matrix, and began at a row in bounds.
        let column = unsafe { B::Rows::next(self.matrix.matrix, self.row, self.from) };
        if column == usize::MAX {
            return None;
        }
        self.from = column + 1;
        Some(column)
    }
}
