/* The types and the module. */
#include "set.h"
#include <structmember.h>

PyTypeObject *bit_set_type, *bitmap_type, *wide_type, *matrix_type, *walk_type;
PyObject *abstract_set, *array_type;

/* A method of a set, a bitmap or a matrix. */
#define METHOD(of, name, how, text) {#name, (PyCFunction)of##_##name, how, text}

static PyMethodDef methods[] = {
    METHOD(set, add, METH_O, "add($self, number, /)\n--\n\nAdd a number."),
    METHOD(set, discard, METH_O, "discard($self, number, /)\n--\n\nRemove a number if it is a member."),
    METHOD(set, remove, METH_O, "remove($self, number, /)\n--\n\nRemove a member. KeyError if the number is not a member."),
    METHOD(set, toggle, METH_O, "toggle($self, number, /)\n--\n\nRemove a number if it is a member, else add it. Return whether it is a member now."),
    METHOD(set, clear, METH_NOARGS, "clear($self, /)\n--\n\nRemove every member."),
    METHOD(set, first, METH_NOARGS, "first($self, /)\n--\n\nReturn the least member, or None."),
    METHOD(set, last, METH_NOARGS, "last($self, /)\n--\n\nReturn the greatest member, or None."),
    METHOD(set, pop, METH_NOARGS, "pop($self, /)\n--\n\nRemove the least member and return it. KeyError if there is none."),
    METHOD(set, pop_last, METH_NOARGS, "pop_last($self, /)\n--\n\nRemove the greatest member and return it. KeyError if there is none."),
    METHOD(set, next, METH_O, "next($self, start, /)\n--\n\nReturn the least member at or above start, or None."),
    METHOD(set, previous, METH_O, "previous($self, stop, /)\n--\n\nReturn the greatest member below stop, or None."),
    METHOD(set, next_missing, METH_O, "next_missing($self, start, /)\n--\n\nReturn the least absent number at or above start."),
    METHOD(set, nth, METH_O, "nth($self, index, /)\n--\n\nReturn the member that exactly index others precede, or None."),
    METHOD(set, next_run, METH_O, "next_run($self, start, /)\n--\n\nReturn the start and stop of the first range of members at or above start, or None."),
    METHOD(set, first_gap, METH_VARARGS, "first_gap($self, start, count, /)\n--\n\nReturn the least number at or above start at which count absent numbers in a row begin, or None."),
    METHOD(set, shift_up, METH_O, "shift_up($self, distance, /)\n--\n\nMove each member up by the distance."),
    METHOD(set, shift_down, METH_O, "shift_down($self, distance, /)\n--\n\nMove each member down by the distance, and remove those below it."),
    METHOD(set, copy_range, METH_VARARGS, "copy_range($self, start, stop, /)\n--\n\nReturn the set of the members in range(start, stop)."),
    METHOD(set, add_range, METH_VARARGS, "add_range($self, start, stop, /)\n--\n\nAdd each number of range(start, stop)."),
    METHOD(set, discard_range, METH_VARARGS, "discard_range($self, start, stop, /)\n--\n\nRemove each number of range(start, stop)."),
    METHOD(set, toggle_range, METH_VARARGS, "toggle_range($self, start, stop, /)\n--\n\nToggle each number of range(start, stop)."),
    METHOD(set, count_in_range, METH_VARARGS, "count_in_range($self, start, stop, /)\n--\n\nReturn how many members are in range(start, stop)."),
    METHOD(set, any_in_range, METH_VARARGS, "any_in_range($self, start, stop, /)\n--\n\nReturn whether any number of range(start, stop) is a member."),
    METHOD(set, all_in_range, METH_VARARGS, "all_in_range($self, start, stop, /)\n--\n\nReturn whether every number of range(start, stop) is a member."),
    METHOD(set, from_range, METH_VARARGS | METH_CLASS, "from_range($type, start, stop, /)\n--\n\nMake the set of range(start, stop)."),
    METHOD(set, from_bytes, METH_O | METH_CLASS, "from_bytes($type, bytes, /)\n--\n\nMake the set of the bits that are 1, with the bits of each byte counted from the highest."),
    METHOD(set, to_bytes, METH_NOARGS, "to_bytes($self, /)\n--\n\nReturn bytes with a bit for each number up to the greatest member, highest bit first."),
    METHOD(set, from_bytes_lsb, METH_O | METH_CLASS, "from_bytes_lsb($type, bytes, /)\n--\n\nMake the set of the bits that are 1, with the bits of each byte counted from the lowest."),
    METHOD(set, to_bytes_lsb, METH_NOARGS, "to_bytes_lsb($self, /)\n--\n\nReturn bytes with a bit for each number up to the greatest member, lowest bit first."),
    METHOD(set, to_array, METH_NOARGS, "to_array($self, /)\n--\n\nReturn the members in ascending order as an array.array, which NumPy reads without a copy."),
    METHOD(set, copy, METH_NOARGS, "copy($self, /)\n--\n\nReturn a set of the same members."),
    METHOD(set, update, METH_VARARGS, "update($self, *others)\n--\n\nAdd the items of the others."),
    METHOD(set, union, METH_VARARGS, "union($self, *others)\n--\n\nReturn the union of this set and the others."),
    METHOD(set, intersection_update, METH_VARARGS, "intersection_update($self, *others)\n--\n\nKeep only members that are in each of the others."),
    METHOD(set, intersection, METH_VARARGS, "intersection($self, *others)\n--\n\nReturn the intersection of this set and the others."),
    METHOD(set, difference_update, METH_VARARGS, "difference_update($self, *others)\n--\n\nRemove the items of the others."),
    METHOD(set, difference, METH_VARARGS, "difference($self, *others)\n--\n\nReturn the set of the members that are in none of the others."),
    METHOD(set, symmetric_difference_update, METH_O, "symmetric_difference_update($self, other, /)\n--\n\nKeep what is in exactly one of this set and the other."),
    METHOD(set, symmetric_difference, METH_O, "symmetric_difference($self, other, /)\n--\n\nReturn the set of what is in exactly one of this set and the other."),
    METHOD(set, issubset, METH_O, "issubset($self, other, /)\n--\n\nReturn whether each member is in the other."),
    METHOD(set, issuperset, METH_O, "issuperset($self, other, /)\n--\n\nReturn whether each item of the other is a member."),
    METHOD(set, isdisjoint, METH_O, "isdisjoint($self, other, /)\n--\n\nReturn whether no item of the other is a member."),
    METHOD(set, union_count, METH_O, "union_count($self, other, /)\n--\n\nReturn how many numbers are in this set or in the other."),
    METHOD(set, intersection_count, METH_O, "intersection_count($self, other, /)\n--\n\nReturn how many numbers are in both."),
    METHOD(set, difference_count, METH_O, "difference_count($self, other, /)\n--\n\nReturn how many members are not in the other."),
    METHOD(set, symmetric_difference_count, METH_O, "symmetric_difference_count($self, other, /)\n--\n\nReturn how many numbers are in exactly one of the two."),
    {"__copy__", set_shallow_copy, METH_NOARGS, NULL},
    {"__deepcopy__", set_deep_copy, METH_O, NULL},
    {"__reversed__", set_reversed, METH_NOARGS, "Return an iterator over the members in descending order."},
    {"__reduce__", set_reduce, METH_NOARGS, NULL},
    {"__sizeof__", set_sizeof, METH_NOARGS, NULL},
    {NULL, NULL, 0, NULL},
};

/* Python 3.9 and later read this to support weak references. */
#define MEMBERS(type)                                                                                                  \
    {                                                                                                                  \
        {"__weaklistoffset__", T_PYSSIZET, offsetof(type, weak_references), READONLY, NULL}, {NULL, 0, 0, 0, NULL},    \
    }

static PyMemberDef members[] = MEMBERS(BitSet), bitmap_members[] = MEMBERS(Bitmap), wide_members[] = MEMBERS(Wide), matrix_members[] = MEMBERS(BitMatrix);

/* Python 3.8 and 3.9 cache look-ups in a type only if it has this flag, which later headers no longer put into the
 * default. Without it they free a method of `type` too often as classes with another metaclass are derived from one. */
enum { FLAGS = Py_TPFLAGS_DEFAULT | Py_TPFLAGS_HAVE_VERSION_TAG };

static PyType_Slot set_slots[] = {
    {Py_tp_doc, "BitSet(members=())\n--\n\nA set of numbers from 0 to MAX_ELEMENT, as a MutableSet.\n\n"
        "It takes a bit for each number up to its greatest member, and creating a set writes all its bits: a set of\n"
        "few numbers that are far apart takes more memory and time than a Python set. The result of & and - has at most the\n"
        "bits of the shorter operand, or of the first.\n\n"
        "len counts the members, which reads the set: about 10 microseconds below a million. So do ==, <= and < with a Python\n"
        "set that has about as many. bool, first and last read no more than they need."},
    {Py_tp_new, set_new},
    {Py_tp_init, set_init},
    {Py_tp_dealloc, set_dealloc},
    {Py_tp_repr, set_repr},
    {Py_tp_hash, PyObject_HashNotImplemented},
    {Py_tp_richcompare, set_compare},
    {Py_tp_iter, set_iter},
    {Py_tp_methods, methods},
    {Py_tp_members, members},
    {Py_sq_contains, set_contains},
    {Py_sq_length, set_length},
    {Py_nb_bool, set_bool},
    {Py_nb_or, set_or},
    {Py_nb_and, set_and},
    {Py_nb_subtract, set_subtract},
    {Py_nb_xor, set_xor},
    {Py_nb_inplace_or, set_in_place_or},
    {Py_nb_inplace_and, set_in_place_and},
    {Py_nb_inplace_subtract, set_in_place_subtract},
    {Py_nb_inplace_xor, set_in_place_xor},
    {0, NULL},
};

static PyType_Spec set_spec = {
    "bit_set.BitSet", sizeof(BitSet), 0, FLAGS | Py_TPFLAGS_BASETYPE, set_slots,
};

/* Those of a bitmap of either kind. The bytes are those of this form. */
#define METHODS_OF_BITMAPS(of, form) \
    METHOD(of, add, METH_O, "add($self, number, /)\n--\n\nAdd a number."), \
    METHOD(of, add_checked, METH_O, "add_checked($self, number, /)\n--\n\nAdd a number. KeyError if it is a member."), \
    METHOD(of, discard, METH_O, "discard($self, number, /)\n--\n\nRemove a number if it is a member."), \
    METHOD(of, remove, METH_O, "remove($self, number, /)\n--\n\nRemove a member. KeyError if the number is not a member."), \
    METHOD(of, pop, METH_NOARGS, "pop($self, /)\n--\n\nRemove the least member and return it. KeyError if there is none."), \
    METHOD(of, clear, METH_NOARGS, "clear($self, /)\n--\n\nRemove every member."), \
    METHOD(of, overwrite, METH_O, "overwrite($self, other, /)\n--\n\nReplace the members by the items of the other."), \
    METHOD(of, min, METH_NOARGS, "min($self, /)\n--\n\nReturn the least member. ValueError if there is none."), \
    METHOD(of, max, METH_NOARGS, "max($self, /)\n--\n\nReturn the greatest member. ValueError if there is none."), \
    METHOD(of, next, METH_O, "next($self, start, /)\n--\n\nReturn the least member at or above start, or None."), \
    METHOD(of, next_set_bit, METH_O, "next_set_bit($self, start, /)\n--\n\nReturn the least member at or above start. ValueError if there is none."), \
    METHOD(of, iter_equal_or_larger, METH_O, "iter_equal_or_larger($self, start, /)\n--\n\nReturn an iterator over the members at or above start."), \
    METHOD(of, previous, METH_O, "previous($self, stop, /)\n--\n\nReturn the greatest member below stop, or None."), \
    METHOD(of, rank, METH_O, "rank($self, value, /)\n--\n\nReturn how many members are at most the value."), \
    METHOD(of, add_range, METH_VARARGS, "add_range($self, start, stop, /)\n--\n\nAdd each number of range(start, stop)."), \
    METHOD(of, remove_range, METH_VARARGS, "remove_range($self, start, stop, /)\n--\n\nRemove each number of range(start, stop)."), \
    METHOD(of, contains_range, METH_VARARGS, "contains_range($self, start, stop, /)\n--\n\nReturn whether every number of range(start, stop) is a member."), \
    METHOD(of, range_cardinality, METH_VARARGS, "range_cardinality($self, start, stop, /)\n--\n\nReturn how many members are in range(start, stop)."), \
    METHOD(of, clamp, METH_VARARGS, "clamp($self, start, stop, /)\n--\n\nReturn the bitmap of the members in range(start, stop)."), \
    METHOD(of, flip, METH_VARARGS, "flip($self, start, stop, /)\n--\n\nReturn a copy with the numbers of range(start, stop) removed if they are members, and else added."), \
    METHOD(of, flip_inplace, METH_VARARGS, "flip_inplace($self, start, stop, /)\n--\n\nRemove the numbers of range(start, stop) that are members, and add the others."), \
    METHOD(of, to_array, METH_NOARGS, "to_array($self, /)\n--\n\nReturn the members in ascending order as an array.array, which NumPy reads without a copy."), \
    METHOD(of, copy, METH_NOARGS, "copy($self, /)\n--\n\nReturn a bitmap of the same members."), \
    METHOD(of, update, METH_VARARGS, "update($self, *others)\n--\n\nAdd the items of the others."), \
    METHOD(of, union, METH_VARARGS, "union($self, *others)\n--\n\nReturn the union of this bitmap and the others."), \
    METHOD(of, intersection_update, METH_VARARGS, "intersection_update($self, *others)\n--\n\nKeep only members that are in each of the others."), \
    METHOD(of, intersection, METH_VARARGS, "intersection($self, *others)\n--\n\nReturn the intersection of this bitmap and the others."), \
    METHOD(of, difference_update, METH_VARARGS, "difference_update($self, *others)\n--\n\nRemove the items of the others."), \
    METHOD(of, difference, METH_VARARGS, "difference($self, *others)\n--\n\nReturn the bitmap of the members that are in none of the others."), \
    METHOD(of, symmetric_difference_update, METH_VARARGS, "symmetric_difference_update($self, *others)\n--\n\nMerge each of the others: keep what is in exactly one of the two."), \
    METHOD(of, symmetric_difference, METH_VARARGS, "symmetric_difference($self, *others)\n--\n\nReturn what symmetric_difference_update leaves in a copy."), \
    METHOD(of, issubset, METH_O, "issubset($self, other, /)\n--\n\nReturn whether each member is in the other."), \
    METHOD(of, issuperset, METH_O, "issuperset($self, other, /)\n--\n\nReturn whether each item of the other is a member."), \
    METHOD(of, isdisjoint, METH_O, "isdisjoint($self, other, /)\n--\n\nReturn whether no item of the other is a member."), \
    METHOD(of, intersect, METH_O, "intersect($self, other, /)\n--\n\nReturn whether an item of the other is a member."), \
    METHOD(of, union_cardinality, METH_O, "union_cardinality($self, other, /)\n--\n\nReturn how many numbers are in this bitmap or in the other."), \
    METHOD(of, intersection_cardinality, METH_O, "intersection_cardinality($self, other, /)\n--\n\nReturn how many numbers are in both."), \
    METHOD(of, difference_cardinality, METH_O, "difference_cardinality($self, other, /)\n--\n\nReturn how many members are not in the other."), \
    METHOD(of, symmetric_difference_cardinality, METH_O, "symmetric_difference_cardinality($self, other, /)\n--\n\nReturn how many numbers are in exactly one of the two."), \
    METHOD(of, jaccard_index, METH_O, "jaccard_index($self, other, /)\n--\n\nReturn the share of what is in either that is in both; not a number if both are empty."), \
    METHOD(of, run_optimize, METH_NOARGS, "run_optimize($self, /)\n--\n\nConvert each container to the form with the fewest bytes. Return whether one changed."), \
    METHOD(of, remove_runs, METH_NOARGS, "remove_runs($self, /)\n--\n\nConvert each container of runs to a list or blocks. Return whether one changed."), \
    METHOD(of, shrink_to_fit, METH_NOARGS, "shrink_to_fit($self, /)\n--\n\nGive back the memory that is held and not used."), \
    METHOD(of, get_statistics, METH_NOARGS, "get_statistics($self, /)\n--\n\nReturn how many containers of each kind there are, and their members and bytes."), \
    METHOD(of, serialize, METH_NOARGS, "serialize($self, /)\n--\n\nReturn the bytes of the portable form of Roaring bitmaps" form "."), \
    METHOD(of, deserialize, METH_O | METH_CLASS, "deserialize($type, bytes, /)\n--\n\nMake the bitmap that a front of the bytes represents in the portable form" form ". ValueError names the first fault."), \
    {"__copy__", of##_shallow_copy, METH_NOARGS, NULL}, \
    {"__deepcopy__", of##_deep_copy, METH_O, NULL}, \
    {"__reversed__", set_reversed, METH_NOARGS, "Return an iterator over the members in descending order."}, \
    {"__reduce__", of##_reduce, METH_NOARGS, NULL}

#define SLOTS_OF_BITMAPS(of) \
    {Py_tp_new, of##_new}, \
    {Py_tp_init, of##_init}, \
    {Py_tp_dealloc, of##_dealloc}, \
    {Py_tp_repr, bitmap_repr}, \
    {Py_tp_hash, PyObject_HashNotImplemented}, \
    {Py_tp_richcompare, of##_compare}, \
    {Py_tp_iter, set_iter}, \
    {Py_tp_methods, of##_methods}, \
    {Py_tp_members, of##_members}, \
    {Py_sq_contains, of##_contains}, \
    {Py_mp_length, of##_length}, \
    {Py_mp_subscript, of##_subscript}, \
    {Py_nb_bool, of##_bool}, \
    {Py_nb_or, of##_or}, \
    {Py_nb_and, of##_and}, \
    {Py_nb_subtract, of##_subtract}, \
    {Py_nb_xor, of##_xor}, \
    {Py_nb_inplace_or, of##_in_place_or}, \
    {Py_nb_inplace_and, of##_in_place_and}, \
    {Py_nb_inplace_subtract, of##_in_place_subtract}, \
    {Py_nb_inplace_xor, of##_in_place_xor}

static PyMethodDef bitmap_methods[] = {
    METHODS_OF_BITMAPS(bitmap, ""),
    METHOD(bitmap, shift, METH_O, "shift($self, offset, /)\n--\n\nReturn the bitmap of each member plus the offset, without those below 0 or above 4294967295."),
    {NULL, NULL, 0, NULL},
};

static PyType_Slot bitmap_slots[] = {
    {Py_tp_doc, "RoaringBitmap(values=())\n--\n\nA set of numbers from 0 to 4294967295, as a MutableSet, that stays small if its members are few and far apart.\n\n"
        "Its methods are those of pyroaring's BitMap where that has the call. bitmap[n] is the member with n others below it."},
    SLOTS_OF_BITMAPS(bitmap),
    {0, NULL},
};

static PyType_Spec bitmap_spec = {
    "bit_set.RoaringBitmap", sizeof(Bitmap), 0, FLAGS | Py_TPFLAGS_BASETYPE, bitmap_slots,
};

static PyMethodDef wide_methods[] = {
    METHODS_OF_BITMAPS(wide, " for 64 bits"),
    {NULL, NULL, 0, NULL},
};

static PyType_Slot wide_slots[] = {
    {Py_tp_doc, "RoaringBitmap64(values=())\n--\n\nA set of numbers from 0 to 18446744073709551615, as a MutableSet, that stays small if its members are few and far apart.\n\n"
        "Its methods are those of pyroaring's BitMap64 where that has the call. bitmap[n] is the member with n others below it."},
    SLOTS_OF_BITMAPS(wide),
    {0, NULL},
};

static PyType_Spec wide_spec = {
    "bit_set.RoaringBitmap64", sizeof(Wide), 0, FLAGS | Py_TPFLAGS_BASETYPE, wide_slots,
};

static PyMethodDef matrix_methods[] = {
    METHOD(matrix, from_row, METH_VARARGS | METH_CLASS, "from_row($type, members, rows, /)\n--\n\nMake a matrix of this many rows, each with the members, and as many columns as the set's length."),
    METHOD(matrix, copy, METH_NOARGS, "copy($self, /)\n--\n\nReturn a matrix of the same rows."),
    METHOD(matrix, row, METH_O, "row($self, row, /)\n--\n\nReturn the set of the columns of the row."),
    METHOD(matrix, add, METH_VARARGS, "add($self, row, column, /)\n--\n\nAdd the column to the row. Return whether it is new."),
    METHOD(matrix, discard, METH_VARARGS, "discard($self, row, column, /)\n--\n\nRemove the column from the row. Return whether it was present."),
    METHOD(matrix, count, METH_O, "count($self, row, /)\n--\n\nReturn how many columns are in the row."),
    METHOD(matrix, count_all, METH_NOARGS, "count_all($self, /)\n--\n\nReturn how many columns are in all rows together."),
    METHOD(matrix, add_range, METH_VARARGS, "add_range($self, row, start, stop, /)\n--\n\nAdd each column of range(start, stop) to the row."),
    METHOD(matrix, fill_row, METH_O, "fill_row($self, row, /)\n--\n\nAdd each column to the row."),
    METHOD(matrix, clear_row, METH_O, "clear_row($self, row, /)\n--\n\nRemove each column from the row."),
    METHOD(matrix, union_rows, METH_VARARGS, "union_rows($self, read, write, /)\n--\n\nAdd the columns of the row read to the row write. Return whether that changed it."),
    METHOD(matrix, intersect_rows, METH_VARARGS, "intersect_rows($self, read, write, /)\n--\n\nKeep only columns of the row write that are in the row read. Return whether that changed it."),
    METHOD(matrix, difference_rows, METH_VARARGS, "difference_rows($self, read, write, /)\n--\n\nRemove the columns of the row read from the row write. Return whether that changed it."),
    METHOD(matrix, union_row_with, METH_VARARGS, "union_row_with($self, members, row, /)\n--\n\nAdd the members to the row. Return whether that changed it."),
    METHOD(matrix, is_subset_row, METH_VARARGS, "is_subset_row($self, row, other, /)\n--\n\nReturn whether each column of the row is in the other row."),
    METHOD(matrix, is_disjoint_row, METH_VARARGS, "is_disjoint_row($self, row, other, /)\n--\n\nReturn whether no column is in both rows."),
    METHOD(matrix, transpose, METH_NOARGS, "transpose($self, /)\n--\n\nReturn the matrix that has a row for each column, with the rows that have that column."),
    METHOD(matrix, transitive_closure, METH_NOARGS, "transitive_closure($self, /)\n--\n\nSet each row to everything that a path of at least one edge leads to, where an edge leads from a row to each of its columns."),
    METHOD(matrix, reflexive_transitive_closure, METH_NOARGS, "reflexive_transitive_closure($self, /)\n--\n\nSet each row to everything that a path of any number of edges leads to, including none."),
    METHOD(matrix, dominators, METH_O, "dominators($self, entry, /)\n--\n\nReturn the matrix whose row v has what lies on every path from the row entry to v."),
    {"__copy__", matrix_shallow_copy, METH_NOARGS, NULL},
    {"__deepcopy__", matrix_deep_copy, METH_O, NULL},
    {"__reduce__", matrix_reduce, METH_NOARGS, NULL},
    {"__setstate__", matrix_setstate, METH_O, NULL},
    {"__sizeof__", matrix_sizeof, METH_NOARGS, NULL},
    {NULL, NULL, 0, NULL},
};

static PyGetSetDef matrix_attributes[] = {
    {"rows", matrix_rows, NULL, "How many rows there are.", NULL},
    {"columns", matrix_columns, NULL, "How many columns there are.", NULL},
    {NULL, NULL, NULL, NULL, NULL},
};

static PyType_Slot matrix_slots[] = {
    {Py_tp_doc, "BitMatrix(rows, columns)\n--\n\nRows of columns, each row a set. (row, column) in matrix tests whether a row has a column. The numbers of both are fixed."},
    {Py_tp_new, matrix_new},
    {Py_tp_dealloc, matrix_dealloc},
    {Py_tp_repr, matrix_repr},
    {Py_tp_hash, PyObject_HashNotImplemented},
    {Py_tp_richcompare, matrix_compare},
    {Py_tp_methods, matrix_methods},
    {Py_tp_members, matrix_members},
    {Py_tp_getset, matrix_attributes},
    {Py_sq_contains, matrix_contains},
    {0, NULL},
};

static PyType_Spec matrix_spec = {
    "bit_set.BitMatrix", sizeof(BitMatrix), 0, FLAGS | Py_TPFLAGS_BASETYPE, matrix_slots,
};

static PyType_Slot walk_slots[] = {
    {Py_tp_new, walk_new},
    {Py_tp_dealloc, walk_dealloc},
    {Py_tp_traverse, walk_traverse},
    {Py_tp_iter, PyObject_SelfIter},
    {Py_tp_iternext, walk_next},
    {0, NULL},
};

static PyType_Spec walk_spec = {
    "bit_set.Walk", sizeof(Walk), 0, FLAGS | Py_TPFLAGS_HAVE_GC, walk_slots,
};

static struct PyModuleDef module_definition = {
    PyModuleDef_HEAD_INIT, "bit_set._bit_set", "Sets of whole numbers as bits, over the proved library for C.", -1,
    NULL, NULL, NULL, NULL, NULL,
};

static PyObject *attribute_of(const char *module, const char *name)
{
    PyObject *imported = PyImport_ImportModule(module);
    PyObject *attribute = imported ? PyObject_GetAttrString(imported, name) : NULL;
    Py_XDECREF(imported);
    return attribute;
}

static bool add_object(PyObject *module, const char *name, PyObject *object)
{
    Py_XINCREF(object);
    if (object && !PyModule_AddObject(module, name, object))
        return true;
    Py_XDECREF(object);
    return false;
}

/* The headers of Python 3.8 do not make this visible from outside. */
__attribute__((visibility("default"))) PyMODINIT_FUNC PyInit__bit_set(void)
{
    PyObject *module = PyModule_Create(&module_definition);
    PyObject *greatest = PyLong_FromSize_t(NO_MEMBER - 1);
    bit_set_type = (PyTypeObject *)PyType_FromSpec(&set_spec);
    bitmap_type = (PyTypeObject *)PyType_FromSpec(&bitmap_spec);
    wide_type = (PyTypeObject *)PyType_FromSpec(&wide_spec);
    matrix_type = (PyTypeObject *)PyType_FromSpec(&matrix_spec);
    walk_type = (PyTypeObject *)PyType_FromSpec(&walk_spec);
    abstract_set = attribute_of("collections.abc", "Set");
    array_type = attribute_of("array", "array");
    bool is_made = module && walk_type && abstract_set && array_type
        && add_object(module, "BitSet", (PyObject *)bit_set_type)
        && add_object(module, "RoaringBitmap", (PyObject *)bitmap_type)
        && add_object(module, "RoaringBitmap64", (PyObject *)wide_type)
        && add_object(module, "BitMatrix", (PyObject *)matrix_type) && add_object(module, "MAX_ELEMENT", greatest);
    Py_XDECREF(greatest);
    if (!is_made)
        Py_CLEAR(module);
    return module;
}
