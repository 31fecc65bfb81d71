/* Merges of two sets, in place and as new sets. The library's calls require two different sets: for a set and itself
 * the result is that set, or the empty one. */
#include "set.h"

/* The number of bits in a block. */
enum { WIDTH = 8 * sizeof(bit_set_block) };

/* A new set that a call makes from two others. */
static PyObject *filled(PyTypeObject *type, PyObject *one, PyObject *other,
                        int32_t (*call)(bit_set *, const bit_set *, const bit_set *))
{
    PyObject *made = set_new(type, NULL, NULL);
    return made ? made_if(call(set_of(made), set_of(one), set_of(other)) >= 0, made) : NULL;
}

static size_t blocks_of(PyObject *self)
{
    return (bit_set_length(set_of(self)) + (WIDTH - 1)) / WIDTH;
}

/* The merge of two bit sets, as a new set. An intersection has the blocks of the shorter set, and a difference those of
 * the first: a copy merged in place would have those of the longer one. */
static PyObject *merged_sets(PyTypeObject *type, PyObject *left, PyObject *right, merge *call)
{
    size_t count = blocks_of(left), others = blocks_of(right);
    PyObject *shorter = count < others ? left : right, *longer = count < others ? right : left;
    if (call == bit_set_intersect_with && count != others)
        return filled(type, shorter, longer, bit_set_union_with_intersection);
    if (call == bit_set_difference_with && count < others)
        return filled(type, left, right, bit_set_become_difference);
    PyObject *made = copy_as(type, longer);
    return made ? made_if(call(set_of(made), set_of(shorter)), made) : NULL;
}

/* Gives a set the members of one that was made for it, which may be NULL. */
static bool becomes(PyObject *self, PyObject *made)
{
    if (!made)
        return false;
    bit_set *set = set_of(self);
    ((BitSet *)self)->set = set_of(made);
    ((BitSet *)made)->set = set;
    Py_DECREF(made);
    return true;
}

/* Whether a merge in place would grow the set for numbers that are not in the result. */
static bool grows_in_vain(PyObject *self, PyObject *other, merge *call)
{
    return (call == bit_set_intersect_with || call == bit_set_difference_with)
        && bit_set_length(set_of(other)) > bit_set_capacity(set_of(self));
}

static bool merge_with(PyObject *self, PyObject *other, merge *call)
{
    if (self == other) {
        if (call == bit_set_difference_with || call == bit_set_symmetric_difference_with)
            bit_set_reset(set_of(self));
        return true;
    }
    if (grows_in_vain(self, other, call))
        return becomes(self, merged_sets(bit_set_type, self, other, call));
    if (call == bit_set_intersect_with && bit_set_length(set_of(other)) < bit_set_length(set_of(self)))
        bit_set_truncate(set_of(self), bit_set_length(set_of(other)));
    bool found = call(set_of(self), set_of(other));
    if (!found)
        PyErr_NoMemory();
    return found;
}

static int take_out_item(void *self, PyObject *item)
{
    return take_out(self, item) == FAILED ? -1 : 1;
}

/* A set, another made of items, and the set's least member that is not in that one yet, or NO_MEMBER. */
struct made_of_items {
    PyObject *set, *made;
    size_t missing;
};

/* Inserts an item that is a member, until all members are in: as with Python's own sets, no more items are fetched
 * then. */
static int put_member(void *with, PyObject *item)
{
    size_t number;
    struct made_of_items *sets = with;
    enum reading reading = read_equal(sets->set, item, &number);
    if (reading != NUMBER || !bit_set_contains(set_of(sets->set), number))
        return reading == FAILED ? -1 : 1;
    if (bit_set_insert(set_of(sets->made), number) < 0) {
        PyErr_NoMemory();
        return -1;
    }
    while (sets->missing != NO_MEMBER && bit_set_contains(set_of(sets->made), sets->missing))
        sets->missing = bit_set_next(set_of(sets->set), sets->missing + 1);
    return sets->missing != NO_MEMBER;
}

/* The members that are items of an iterable, as a new set, and whether all are. Items that equal no member are
 * skipped. */
static PyObject *members_among(PyTypeObject *type, PyObject *self, PyObject *iterable, bool *are_all)
{
    struct made_of_items sets = {self, set_new(type, NULL, NULL), bit_set_first(set_of(self))};
    if (sets.made && each_item(PyObject_GetIter(iterable), put_member, &sets) < 0)
        Py_CLEAR(sets.made);
    *are_all = sets.missing == NO_MEMBER;
    return sets.made;
}

/* Whether each member is an item of an iterable: 1, 0, or -1 with an exception. */
int is_among(PyObject *self, PyObject *iterable)
{
    bool are_all;
    PyObject *met = members_among(bit_set_type, self, iterable, &are_all);
    Py_XDECREF(met);
    return met ? are_all : -1;
}

static int put_common(void *with, PyObject *member)
{
    struct made_of_items *sets = with;
    int is_in = PySequence_Contains(sets->set, member);
    return is_in > 0 ? (put(sets->made, member) ? 1 : -1) : is_in < 0 ? -1 : 1;
}

/* The intersection of a set and an iterable, as a new set. As with Python's own sets, it iterates over the smaller of
 * two. */
static PyObject *common(PyTypeObject *type, PyObject *self, PyObject *iterable)
{
    bool are_all;
    if (!has_less_members(self, iterable))
        return members_among(type, self, iterable, &are_all);
    struct made_of_items sets = {iterable, set_new(type, NULL, NULL), NO_MEMBER};
    if (sets.made && each_item(set_iter(self), put_common, &sets) < 0)
        Py_CLEAR(sets.made);
    return sets.made;
}

/* A set, and a Python set. */
struct two_sets {
    PyObject *set, *other;
};

static int take_out_common(void *with, PyObject *member)
{
    struct two_sets *sets = with;
    int is_in = PySequence_Contains(sets->other, member);
    return is_in > 0 ? take_out_item(sets->set, member) : is_in < 0 ? -1 : 1;
}

/* Removes the items of an iterable. */
static bool take_out_each(PyObject *self, PyObject *iterable)
{
    struct two_sets sets = {self, iterable};
    if (has_less_members(self, iterable))
        return each_item(set_iter(self), take_out_common, &sets) == 1;
    return each_item(PyObject_GetIter(iterable), take_out_item, self) == 1;
}

static int put_other(void *with, PyObject *item)
{
    struct made_of_items *sets = with;
    int is_in = set_contains(sets->set, item);
    return is_in ? is_in : put(sets->made, item) ? 1 : -1;
}

/* The items of a set of another kind that are not in this set. */
static PyObject *others_than(PyObject *self, PyObject *other)
{
    struct made_of_items sets = {self, set_new(bit_set_type, NULL, NULL), 0};
    if (sets.made && each_item(PyObject_GetIter(other), put_other, &sets) < 0)
        Py_CLEAR(sets.made);
    return sets.made;
}

/* Merges the items of an iterable into the set. */
static bool merge_iterable(PyObject *self, PyObject *iterable, merge *call)
{
    if (call == bit_set_union_with)
        return put_all(self, iterable);
    if (is_bit_set(iterable))
        return merge_with(self, iterable, call);
    if (call == bit_set_difference_with)
        return take_out_each(self, iterable);
    /* If the iterable raises, the set is unchanged. */
    if (call == bit_set_intersect_with)
        return becomes(self, common(bit_set_type, self, iterable));
    PyObject *other = as_bit_set(iterable);
    bool is_done = other && merge_with(self, other, call);
    Py_XDECREF(other);
    return is_done;
}

static PyObject *merge_each(PyObject *self, PyObject *iterables, merge *call)
{
    for (Py_ssize_t at = 0; at < PyTuple_Size(iterables); at++)
        if (!merge_iterable(self, PyTuple_GetItem(iterables, at), call))
            return NULL;
    return reference_to(Py_None);
}

/* The merge of a set and an iterable, as a new set. */
static PyObject *merged(PyTypeObject *type, PyObject *self, PyObject *iterable, merge *call)
{
    if (is_bit_set(iterable))
        return merged_sets(type, self, iterable, call);
    if (call == bit_set_intersect_with)
        return common(type, self, iterable);
    if (call == bit_set_symmetric_difference_with) {
        PyObject *made = set_new(type, NULL, NULL);
        if (made && !(put_all(made, iterable) && merge_with(made, self, call)))
            Py_CLEAR(made);
        return made;
    }
    PyObject *made = copy_as(type, self);
    if (made && !merge_iterable(made, iterable, call))
        Py_CLEAR(made);
    return made;
}

static PyObject *merged_with_each(PyTypeObject *type, PyObject *self, PyObject *iterables, merge *call)
{
    Py_ssize_t count = PyTuple_Size(iterables);
    PyObject *made = count ? merged(type, self, PyTuple_GetItem(iterables, 0), call) : copy_as(type, self);
    for (Py_ssize_t at = 1; made && at < count; at++)
        if (!merge_iterable(made, PyTuple_GetItem(iterables, at), call))
            Py_CLEAR(made);
    return made;
}

PyObject *set_update(PyObject *self, PyObject *others)
{
    return merge_each(self, others, bit_set_union_with);
}

PyObject *set_difference_update(PyObject *self, PyObject *others)
{
    return merge_each(self, others, bit_set_difference_with);
}

/* If one of the others raises, this set is unchanged; the calls above keep what they did before. Both are as with
 * Python's own sets. */
PyObject *set_intersection_update(PyObject *self, PyObject *others)
{
    if (PyTuple_Size(others) == 1)
        return merge_each(self, others, bit_set_intersect_with);
    return becomes(self, merged_with_each(bit_set_type, self, others, bit_set_intersect_with)) ? none_if(true) : NULL;
}

PyObject *set_union(PyObject *self, PyObject *others)
{
    return merged_with_each(Py_TYPE(self), self, others, bit_set_union_with);
}

PyObject *set_intersection(PyObject *self, PyObject *others)
{
    return merged_with_each(Py_TYPE(self), self, others, bit_set_intersect_with);
}

PyObject *set_difference(PyObject *self, PyObject *others)
{
    return merged_with_each(Py_TYPE(self), self, others, bit_set_difference_with);
}

/* It takes exactly one iterable, as with Python's own sets. */
PyObject *set_symmetric_difference_update(PyObject *self, PyObject *members)
{
    return merge_iterable(self, members, bit_set_symmetric_difference_with) ? none_if(true) : NULL;
}

PyObject *set_symmetric_difference(PyObject *self, PyObject *members)
{
    return merged(Py_TYPE(self), self, members, bit_set_symmetric_difference_with);
}

/* Whether an operator accepts this: a bit set, or an instance of Set of collections.abc. */
int is_set(PyObject *object)
{
    return is_bit_set(object) || PyAnySet_Check(object) ? 1 : PyObject_IsInstance(object, abstract_set);
}

/* `left op right`. Either may be the bit set. */
static PyObject *operate(PyObject *left, PyObject *right, merge *call)
{
    bool are_sets = is_set(left) > 0 && is_set(right) > 0;
    if (PyErr_Occurred())
        return NULL;
    if (!are_sets)
        return reference_to(Py_NotImplemented);
    /* An intersection is the same either way, and the other set may have items that no bit set can. */
    if (call == bit_set_intersect_with && !is_bit_set(left)) {
        PyObject *other = left;
        left = right;
        right = other;
    }
    if (call == bit_set_difference_with && !is_bit_set(left))
        return others_than(right, left);
    if (is_bit_set(left))
        return merged(Py_TYPE(left), left, right, call);
    PyObject *made = as_bit_set(left);
    if (made && !merge_iterable(made, right, call))
        Py_CLEAR(made);
    return made;
}

static PyObject *operate_in_place(PyObject *self, PyObject *other, merge *call)
{
    int takes = is_set(other);
    if (takes < 0)
        return NULL;
    if (!takes)
        return reference_to(Py_NotImplemented);
    if (!merge_iterable(self, other, call))
        return NULL;
    Py_INCREF(self);
    return self;
}

#define OPERATORS(name, call)                                              \
    PyObject *set_##name(PyObject *left, PyObject *right)           \
    {                                                                      \
        return operate(left, right, call);                                 \
    }                                                                      \
    PyObject *set_in_place_##name(PyObject *self, PyObject *other)  \
    {                                                                      \
        return operate_in_place(self, other, call);                        \
    }
OPERATORS(or, bit_set_union_with)
OPERATORS(and, bit_set_intersect_with)
OPERATORS(subtract, bit_set_difference_with)
OPERATORS(xor, bit_set_symmetric_difference_with)
