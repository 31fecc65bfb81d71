/* Sets of whole numbers as bits, and Roaring bitmaps, over the proved library for C. The module is built for the stable ABI of
 * Python 3.8, so one build serves every later version. Each call holds the interpreter's lock, so threads may share a set. */
#ifndef BIT_SET_MODULE_H
#define BIT_SET_MODULE_H

#define PY_SSIZE_T_CLEAN
#include <Python.h>

#include "bit_roaring.h"
#include "bit_set.h"

/* How many numbers pass between Python and the library at a time, and how many an iterator fetches at once. */
enum { GROUP = 512, WALK_GROUP = 44 };

#define NO_MEMBER SIZE_MAX

typedef struct {
    PyObject_HEAD
    bit_set *set;
    PyObject *weak_references;
} BitSet;

typedef struct {
    PyObject_HEAD
    bit_matrix *matrix;
    PyObject *weak_references;
} BitMatrix;

typedef struct {
    PyObject_HEAD
    bit_roaring *bitmap;
    PyObject *weak_references;
} Bitmap;

typedef struct {
    PyObject_HEAD
    bit_roaring64 *bitmap;
    PyObject *weak_references;
} Wide;

/* An iterator that fetches the members in groups. The set may be changed during the iteration. */
typedef struct {
    PyObject_HEAD
    PyObject *of;
    bool is_backward;
    bool has_ended;
    /* Where the next group begins or, if `is_backward`, ends. */
    size_t bound;
    size_t place;
    size_t count;
    size_t group[WALK_GROUP];
} Walk;

/* The result of reading a number. Only FAILED leaves an exception set. */
enum reading { FAILED = -1, NO_NUMBER = 0, NUMBER = 1 };

typedef bool merge(bit_set *, const bit_set *);
typedef bool bitmap_make(bit_roaring **, const bit_roaring *, const bit_roaring *);
typedef int32_t bitmap_change(bit_roaring *, const bit_roaring *);
typedef bool wide_make(bit_roaring64 **, const bit_roaring64 *, const bit_roaring64 *);
typedef int32_t wide_change(bit_roaring64 *, const bit_roaring64 *);
typedef int look(void *, PyObject *);

/* The types, `Set` of collections.abc, and the type of arrays. */
extern PyTypeObject *bit_set_type, *bitmap_type, *wide_type, *matrix_type, *walk_type;
extern PyObject *abstract_set, *array_type;

/* Later headers of the stable ABI no longer declare these, though each version has them. */
extern int PyObject_AsReadBuffer(PyObject *, const void **, Py_ssize_t *);
extern int PyObject_AsWriteBuffer(PyObject *, void **, Py_ssize_t *);

static inline bool is_bit_set(PyObject *object)
{
    return PyObject_TypeCheck(object, bit_set_type);
}

static inline bit_set *set_of(PyObject *object)
{
    return ((BitSet *)object)->set;
}

static inline bool is_bitmap(PyObject *object)
{
    return PyObject_TypeCheck(object, bitmap_type);
}

static inline bit_roaring *bitmap_of(PyObject *object)
{
    return ((Bitmap *)object)->bitmap;
}

static inline bool is_wide(PyObject *object)
{
    return PyObject_TypeCheck(object, wide_type);
}

static inline bit_roaring64 *wide_of(PyObject *object)
{
    return ((Wide *)object)->bitmap;
}

/* A new reference. The headers of Python 3.12 and later may count none when they return None or NotImplemented, which a
 * Python before 3.12 would then free. */
static inline PyObject *reference_to(PyObject *object)
{
    Py_INCREF(object);
    return object;
}

/* None, or NULL with a MemoryError. */
static inline PyObject *none_if(bool found_memory)
{
    return found_memory ? reference_to(Py_None) : PyErr_NoMemory();
}

/* An int. Python makes one of a `long` faster than one of a `size_t`. */
static inline PyObject *int_of(size_t number)
{
    return number <= LONG_MAX ? PyLong_FromLong((long)number) : PyLong_FromSize_t(number);
}

/* numbers.c */
PyObject *member_or_none(size_t member);
bool has_number(PyObject *self, size_t number);
bool read_bound(PyObject *object, size_t *bound, int *outside);
int read_bounds(PyObject *first, PyObject *last, size_t *start, size_t *stop, bool *is_within);
int read_stretch(PyObject *arguments, size_t *first, size_t *last, bool *is_within);
bool read_member_of_any(PyObject *object, size_t *number);
enum reading read_equal_of_any(PyObject *self, PyObject *object, size_t *number);
enum reading read_number(PyObject *object, size_t *number);

/* Reads a number below SIZE_MAX from an int, which runs no code. */
static inline enum reading read_int(PyObject *object, size_t *number)
{
    *number = PyLong_AsSize_t(object);
    if (*number != SIZE_MAX)
        return NUMBER;
    PyErr_Clear();
    return NO_NUMBER;
}

/* Most objects are ints, so these two test for one in the caller, which saves a tenth of the time of a look-up. */
static inline bool read_member(PyObject *object, size_t *number)
{
    return (PyLong_CheckExact(object) && read_int(object, number) == NUMBER) || read_member_of_any(object, number);
}

static inline enum reading read_equal(PyObject *self, PyObject *object, size_t *number)
{
    return PyLong_CheckExact(object) ? read_int(object, number) : read_equal_of_any(self, object, number);
}

/* copying.c */
PyObject *bitmap_deep_copy(PyObject *self, PyObject *memo);
PyObject *bitmap_shallow_copy(PyObject *self, PyObject *Py_UNUSED(none));
PyObject *matrix_deep_copy(PyObject *self, PyObject *memo);
PyObject *matrix_shallow_copy(PyObject *self, PyObject *Py_UNUSED(none));
PyObject *set_deep_copy(PyObject *self, PyObject *memo);
PyObject *set_shallow_copy(PyObject *self, PyObject *Py_UNUSED(none));
PyObject *state_of(PyObject *self);
PyObject *wide_deep_copy(PyObject *self, PyObject *memo);
PyObject *wide_shallow_copy(PyObject *self, PyObject *Py_UNUSED(none));
bool put_attributes(PyObject *made, PyObject *state);

/* making.c */
PyObject *as_bit_set(PyObject *members);
PyObject *blank(PyTypeObject *type);
PyObject *copy_as(PyTypeObject *type, PyObject *self);
PyObject *made_if(bool found_memory, PyObject *made);
PyObject *removed(enum reading done, PyObject *member);
PyObject *set_add(PyObject *self, PyObject *member);
PyObject *set_copy(PyObject *self, PyObject *Py_UNUSED(none));
PyObject *set_copy_range(PyObject *self, PyObject *arguments);
PyObject *set_discard(PyObject *self, PyObject *member);
PyObject *set_new(PyTypeObject *type, PyObject *Py_UNUSED(positional), PyObject *Py_UNUSED(named));
PyObject *set_remove(PyObject *self, PyObject *member);
bool put(PyObject *self, PyObject *member);
bool put_all(PyObject *self, PyObject *members);
bool put_each(PyObject *self, PyObject *members);
bool put_group(PyObject *self, const size_t *group, size_t count);
bool put_walk(PyObject *self, PyObject *items);
enum reading take_out(PyObject *self, PyObject *member);
int set_contains(PyObject *self, PyObject *member);
int set_init(PyObject *self, PyObject *arguments, PyObject *named);
void set_dealloc(PyObject *self);

/* merging.c */
int is_among(PyObject *self, PyObject *iterable);
PyObject *set_and(PyObject *left, PyObject *right);
PyObject *set_difference(PyObject *self, PyObject *others);
PyObject *set_difference_update(PyObject *self, PyObject *others);
PyObject *set_in_place_and(PyObject *self, PyObject *other);
PyObject *set_in_place_or(PyObject *self, PyObject *other);
PyObject *set_in_place_subtract(PyObject *self, PyObject *other);
PyObject *set_in_place_xor(PyObject *self, PyObject *other);
PyObject *set_intersection(PyObject *self, PyObject *others);
PyObject *set_intersection_update(PyObject *self, PyObject *others);
PyObject *set_or(PyObject *left, PyObject *right);
PyObject *set_subtract(PyObject *left, PyObject *right);
PyObject *set_symmetric_difference(PyObject *self, PyObject *members);
PyObject *set_symmetric_difference_update(PyObject *self, PyObject *members);
PyObject *set_union(PyObject *self, PyObject *others);
PyObject *set_update(PyObject *self, PyObject *others);
PyObject *set_xor(PyObject *left, PyObject *right);
int is_set(PyObject *object);

/* comparing.c */
bool has_less_members(PyObject *self, PyObject *iterable);
PyObject *set_compare(PyObject *self, PyObject *other, int operation);
PyObject *set_difference_count(PyObject *self, PyObject *items);
PyObject *set_intersection_count(PyObject *self, PyObject *items);
PyObject *set_isdisjoint(PyObject *self, PyObject *iterable);
PyObject *set_issubset(PyObject *self, PyObject *items);
PyObject *set_issuperset(PyObject *self, PyObject *items);
PyObject *set_symmetric_difference_count(PyObject *self, PyObject *items);
PyObject *set_union_count(PyObject *self, PyObject *items);

/* walking.c */
int each_item(PyObject *walk, look *look_at, void *with);
PyObject *set_from_bytes(PyObject *type, PyObject *bytes);
PyObject *set_from_bytes_lsb(PyObject *type, PyObject *bytes);
PyObject *set_iter(PyObject *self);
PyObject *set_reduce(PyObject *self, PyObject *Py_UNUSED(none));
PyObject *set_repr(PyObject *self);
PyObject *set_reversed(PyObject *self, PyObject *Py_UNUSED(none));
PyObject *set_sizeof(PyObject *self, PyObject *Py_UNUSED(none));
PyObject *set_to_array(PyObject *self, PyObject *Py_UNUSED(none));
PyObject *set_to_bytes(PyObject *self, PyObject *Py_UNUSED(none));
PyObject *set_to_bytes_lsb(PyObject *self, PyObject *Py_UNUSED(none));
PyObject *type_name(PyObject *self);
PyObject *zeros(const char *kind, Py_ssize_t count);
PyObject *walk_new(PyTypeObject *type, PyObject *Py_UNUSED(positional), PyObject *Py_UNUSED(named));
PyObject *walk_from(PyObject *self, size_t from, bool has_ended);
PyObject *walk_next(PyObject *object);
Py_ssize_t set_length(PyObject *self);
int set_bool(PyObject *self);
int walk_traverse(PyObject *object, visitproc visit, void *arg);
void walk_dealloc(PyObject *object);

/* ranges.c */
PyObject *made_by(PyObject *type, PyObject *argument, PyObject *(*fill)(PyObject *, PyObject *));
PyObject *set_add_range(PyObject *self, PyObject *arguments);
PyObject *set_all_in_range(PyObject *self, PyObject *arguments);
PyObject *set_any_in_range(PyObject *self, PyObject *arguments);
PyObject *set_clear(PyObject *self, PyObject *Py_UNUSED(none));
PyObject *set_count_in_range(PyObject *self, PyObject *arguments);
PyObject *set_discard_range(PyObject *self, PyObject *arguments);
PyObject *set_first(PyObject *self, PyObject *Py_UNUSED(none));
PyObject *set_from_range(PyObject *type, PyObject *arguments);
PyObject *set_last(PyObject *self, PyObject *Py_UNUSED(none));
PyObject *set_next(PyObject *self, PyObject *from);
PyObject *set_next_missing(PyObject *self, PyObject *from);
PyObject *set_nth(PyObject *self, PyObject *index);
PyObject *set_pop(PyObject *self, PyObject *Py_UNUSED(none));
PyObject *set_pop_last(PyObject *self, PyObject *Py_UNUSED(none));
PyObject *set_previous(PyObject *self, PyObject *end);
PyObject *set_toggle(PyObject *self, PyObject *member);
PyObject *set_toggle_range(PyObject *self, PyObject *arguments);
bool read_range(PyObject *arguments, size_t *start, size_t *stop, bool *is_within);

/* stretches.c */
PyObject *set_first_gap(PyObject *self, PyObject *arguments);
PyObject *set_next_run(PyObject *self, PyObject *from);
PyObject *set_shift_down(PyObject *self, PyObject *distance);
PyObject *set_shift_up(PyObject *self, PyObject *distance);

/* matrix.c */
PyObject *matrix_add(PyObject *self, PyObject *arguments);
PyObject *matrix_add_range(PyObject *self, PyObject *arguments);
PyObject *matrix_clear_row(PyObject *self, PyObject *row_object);
PyObject *matrix_columns(PyObject *self, void *Py_UNUSED(closure));
PyObject *matrix_compare(PyObject *self, PyObject *other, int operation);
PyObject *matrix_copy(PyObject *self, PyObject *Py_UNUSED(none));
PyObject *matrix_count(PyObject *self, PyObject *row_object);
PyObject *matrix_count_all(PyObject *self, PyObject *Py_UNUSED(none));
PyObject *matrix_difference_rows(PyObject *self, PyObject *arguments);
PyObject *matrix_discard(PyObject *self, PyObject *arguments);
PyObject *matrix_dominators(PyObject *self, PyObject *entry_object);
PyObject *matrix_fill_row(PyObject *self, PyObject *row_object);
PyObject *matrix_from_row(PyObject *type, PyObject *arguments);
PyObject *matrix_intersect_rows(PyObject *self, PyObject *arguments);
PyObject *matrix_is_disjoint_row(PyObject *self, PyObject *arguments);
PyObject *matrix_is_subset_row(PyObject *self, PyObject *arguments);
PyObject *matrix_new(PyTypeObject *type, PyObject *arguments, PyObject *named);
PyObject *matrix_reduce(PyObject *self, PyObject *Py_UNUSED(none));
PyObject *matrix_reflexive_transitive_closure(PyObject *self, PyObject *Py_UNUSED(none));
PyObject *matrix_repr(PyObject *self);
PyObject *matrix_row(PyObject *self, PyObject *row_object);
PyObject *matrix_rows(PyObject *self, void *Py_UNUSED(closure));
PyObject *matrix_setstate(PyObject *self, PyObject *rows);
PyObject *matrix_sizeof(PyObject *self, PyObject *Py_UNUSED(none));
PyObject *matrix_transitive_closure(PyObject *self, PyObject *Py_UNUSED(none));
PyObject *matrix_transpose(PyObject *self, PyObject *Py_UNUSED(none));
PyObject *matrix_union_row_with(PyObject *self, PyObject *arguments);
PyObject *matrix_union_rows(PyObject *self, PyObject *arguments);
int matrix_contains(PyObject *self, PyObject *pair);
void matrix_dealloc(PyObject *self);

/* roaring.c and wide.c by bitmap.h, and roaring_merging.c and wide_merging.c by bitmap_merging.h. */
#define CALLS_OF_BITMAPS(of)                                                                                           \
    PyObject *of##_add(PyObject *self, PyObject *member);                                                              \
    PyObject *of##_add_checked(PyObject *self, PyObject *member);                                                      \
    PyObject *of##_add_range(PyObject *self, PyObject *arguments);                                                     \
    PyObject *of##_clamp(PyObject *self, PyObject *arguments);                                                         \
    PyObject *of##_clear(PyObject *self, PyObject *none);                                                              \
    PyObject *of##_contains_range(PyObject *self, PyObject *arguments);                                                \
    PyObject *of##_copy(PyObject *self, PyObject *none);                                                               \
    PyObject *of##_deserialize(PyObject *type, PyObject *bytes);                                                       \
    PyObject *of##_discard(PyObject *self, PyObject *member);                                                          \
    PyObject *of##_flip(PyObject *self, PyObject *arguments);                                                          \
    PyObject *of##_flip_inplace(PyObject *self, PyObject *arguments);                                                  \
    PyObject *of##_get_statistics(PyObject *self, PyObject *none);                                                     \
    PyObject *of##_iter_equal_or_larger(PyObject *self, PyObject *from);                                               \
    PyObject *of##_max(PyObject *self, PyObject *none);                                                                \
    PyObject *of##_min(PyObject *self, PyObject *none);                                                                \
    PyObject *of##_new(PyTypeObject *type, PyObject *positional, PyObject *named);                                     \
    PyObject *of##_next(PyObject *self, PyObject *from);                                                               \
    PyObject *of##_next_set_bit(PyObject *self, PyObject *from);                                                       \
    PyObject *of##_of_items(PyObject *members);                                                                        \
    PyObject *of##_overwrite(PyObject *self, PyObject *members);                                                       \
    PyObject *of##_pop(PyObject *self, PyObject *none);                                                                \
    PyObject *of##_previous(PyObject *self, PyObject *end);                                                            \
    PyObject *of##_range_cardinality(PyObject *self, PyObject *arguments);                                             \
    PyObject *of##_rank(PyObject *self, PyObject *value);                                                              \
    PyObject *of##_reduce(PyObject *self, PyObject *none);                                                             \
    PyObject *of##_remove(PyObject *self, PyObject *member);                                                           \
    PyObject *of##_remove_range(PyObject *self, PyObject *arguments);                                                  \
    PyObject *of##_remove_runs(PyObject *self, PyObject *none);                                                        \
    PyObject *of##_run_optimize(PyObject *self, PyObject *none);                                                       \
    PyObject *of##_serialize(PyObject *self, PyObject *none);                                                          \
    PyObject *of##_shrink_to_fit(PyObject *self, PyObject *none);                                                      \
    PyObject *of##_subscript(PyObject *self, PyObject *index);                                                         \
    PyObject *of##_to_array(PyObject *self, PyObject *none);                                                           \
    Py_ssize_t of##_length(PyObject *self);                                                                            \
    bool of##_merge(PyObject *self, PyObject *other, of##_change *call);                                               \
    bool of##_put_all(PyObject *self, PyObject *members);                                                              \
    int of##_bool(PyObject *self);                                                                                     \
    int of##_contains(PyObject *self, PyObject *member);                                                               \
    int of##_init(PyObject *self, PyObject *arguments, PyObject *named);                                               \
    void of##_dealloc(PyObject *self);                                                                                 \
                                                                                                                       \
    PyObject *of##_and(PyObject *left, PyObject *right);                                                               \
    PyObject *of##_compare(PyObject *self, PyObject *other, int operation);                                            \
    PyObject *of##_difference(PyObject *self, PyObject *others);                                                       \
    PyObject *of##_difference_cardinality(PyObject *self, PyObject *items);                                            \
    PyObject *of##_difference_update(PyObject *self, PyObject *others);                                                \
    PyObject *of##_in_place_and(PyObject *self, PyObject *other);                                                      \
    PyObject *of##_in_place_or(PyObject *self, PyObject *other);                                                       \
    PyObject *of##_in_place_subtract(PyObject *self, PyObject *other);                                                 \
    PyObject *of##_in_place_xor(PyObject *self, PyObject *other);                                                      \
    PyObject *of##_intersect(PyObject *self, PyObject *items);                                                         \
    PyObject *of##_intersection(PyObject *self, PyObject *others);                                                     \
    PyObject *of##_intersection_cardinality(PyObject *self, PyObject *items);                                          \
    PyObject *of##_intersection_update(PyObject *self, PyObject *others);                                              \
    PyObject *of##_isdisjoint(PyObject *self, PyObject *items);                                                        \
    PyObject *of##_issubset(PyObject *self, PyObject *items);                                                          \
    PyObject *of##_issuperset(PyObject *self, PyObject *items);                                                        \
    PyObject *of##_jaccard_index(PyObject *self, PyObject *items);                                                     \
    PyObject *of##_or(PyObject *left, PyObject *right);                                                                \
    PyObject *of##_subtract(PyObject *left, PyObject *right);                                                          \
    PyObject *of##_symmetric_difference(PyObject *self, PyObject *others);                                             \
    PyObject *of##_symmetric_difference_cardinality(PyObject *self, PyObject *items);                                  \
    PyObject *of##_symmetric_difference_update(PyObject *self, PyObject *others);                                      \
    PyObject *of##_union(PyObject *self, PyObject *others);                                                            \
    PyObject *of##_union_cardinality(PyObject *self, PyObject *items);                                                 \
    PyObject *of##_update(PyObject *self, PyObject *others);                                                           \
    PyObject *of##_xor(PyObject *left, PyObject *right);
CALLS_OF_BITMAPS(bitmap)
CALLS_OF_BITMAPS(wide)

/* roaring.c */
PyObject *bitmap_repr(PyObject *self);
PyObject *bitmap_shift(PyObject *self, PyObject *offset);
size_t put_in_bitmap(PyObject *self, const size_t *group, size_t count);

/* wide.c */
bool read_wide_member(PyObject *object, size_t *number);
enum reading read_wide_equal(PyObject *self, PyObject *object, size_t *number);

#endif
