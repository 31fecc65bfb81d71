/* Comparisons of two sets, and the sizes of their merges. */
#include "set.h"

/* How many numbers a summary block covers, and how many items are tested before members are counted. */
enum { SUMMARY_BLOCK = 64 * 64, GLANCE = 64 };

static int has(void *self, PyObject *item)
{
    return set_contains(self, item);
}

static int lacks(void *self, PyObject *item)
{
    int found = set_contains(self, item);
    return found < 0 ? found : !found;
}

static int is_in(void *container, PyObject *member)
{
    return PySequence_Contains(container, member);
}

/* A set, and how many more items to test. */
struct glance {
    PyObject *set;
    int left;
};

/* 2 once no more are to be tested. */
static int lacks_at_glance(void *with, PyObject *item)
{
    struct glance *glance = with;
    return glance->left-- > 0 ? lacks(glance->set, item) : 2;
}

static int is_out(void *container, PyObject *member)
{
    int found = PySequence_Contains(container, member);
    return found < 0 ? found : !found;
}

/* Whether each item of an iterable is a member: 1, 0, or -1 with an exception. */
static int has_each(PyObject *self, PyObject *iterable)
{
    return each_item(PyObject_GetIter(iterable), has, self);
}

/* Whether each member is in a container: 1, 0, or -1 with an exception. */
static int is_within(PyObject *self, PyObject *container)
{
    return each_item(set_iter(self), is_in, container);
}

/* Below 0 if the set has fewer than `count` members, 0 if exactly as many, and above 0 if more. Reads no more than it
 * needs. */
static int compare_count(const bit_set *set, size_t count)
{
    if (count == 0)
        return !bit_set_is_empty(set);
    size_t last = count > bit_set_length(set) ? NO_MEMBER : bit_set_nth(set, 0, count - 1);
    return last == NO_MEMBER ? -1 : bit_set_next(set, last + 1) != NO_MEMBER;
}

/* Whether an iterable is a Python set with more items than the set has members, so that looking up each member is less
 * work than looking up each item. Counting costs about as much as one look-up for each summary block. */
bool has_less_members(PyObject *self, PyObject *iterable)
{
    size_t items = PyAnySet_CheckExact(iterable) ? (size_t)PySet_Size(iterable) : 0;
    return items > bit_set_length(set_of(self)) / SUMMARY_BLOCK && compare_count(set_of(self), items) < 0;
}

/* Whether one set's first item is not in another, so that neither need be counted, for which a bit set is read. An
 * exception is dropped: the test of each item raises it again, unless the counts decide before. */
static bool lacks_first(look *look_at, void *with, PyObject *first)
{
    int found = first ? look_at(with, first) : -1;
    Py_XDECREF(first);
    PyErr_Clear();
    return found == 0;
}

static bool begins_outside(PyObject *self, PyObject *other)
{
    size_t first = bit_set_first(set_of(self));
    return first != NO_MEMBER && PyAnySet_CheckExact(other) && lacks_first(is_in, other, int_of(first));
}

/* If there are many items, the first may be far into their table, and counting a set of about as many is faster. */
static bool has_outside(PyObject *self, PyObject *other)
{
    bool has_few = PyAnySet_CheckExact(other) && (size_t)PySet_Size(other) < bit_set_length(set_of(self)) / 8;
    PyObject *items = has_few ? PyObject_GetIter(other) : NULL;
    bool is_outside = items && lacks_first(has, self, PyIter_Next(items));
    Py_XDECREF(items);
    PyErr_Clear();
    return is_outside;
}

static int compare_with_bit_set(PyObject *self, PyObject *other, int operation)
{
    const bit_set *set = set_of(self), *with = set_of(other);
    switch (operation) {
    case Py_EQ: return bit_set_equals(set, with);
    case Py_NE: return !bit_set_equals(set, with);
    case Py_LE: return bit_set_is_subset(set, with);
    case Py_GE: return bit_set_is_subset(with, set);
    case Py_LT: return bit_set_is_proper_subset(set, with);
    default: return bit_set_is_proper_subset(with, set);
    }
}

/* 1 or 0 for an int, which is in both or shows that the sets differ; 2 for any other item, which decides nothing. */
static int is_int_of_both(void *self, PyObject *item)
{
    return PyLong_CheckExact(item) ? set_contains(self, item) : 2;
}

/* Whether the members are the items of a set of another kind with equally many. Iterating over a bit set makes each
 * int, so iterating over a Python set is faster. */
static int is_same(PyObject *self, PyObject *other)
{
    int found = PyAnySet_CheckExact(other) ? each_item(PyObject_GetIter(other), is_int_of_both, self) : 2;
    return found == 2 ? is_within(self, other) : found;
}

/* Compares with a set of another kind, by the counts first. */
static int compare_with_set(PyObject *self, PyObject *other, int operation)
{
    if (operation == Py_NE) {
        int is_equal = compare_with_set(self, other, Py_EQ);
        return is_equal < 0 ? is_equal : !is_equal;
    }
    bool is_for_more = operation == Py_GE || operation == Py_GT;
    if (is_for_more ? has_outside(self, other) : begins_outside(self, other))
        return 0;
    Py_ssize_t others = PyObject_Size(other);
    if (others < 0)
        return -1;
    int more = compare_count(set_of(self), (size_t)others);
    switch (operation) {
    case Py_EQ: return more == 0 ? is_same(self, other) : 0;
    case Py_LE: return more == 0 ? is_same(self, other) : more < 0 ? is_within(self, other) : 0;
    case Py_LT: return more < 0 ? is_within(self, other) : 0;
    case Py_GE: return more >= 0 ? has_each(self, other) : 0;
    default: return more > 0 ? has_each(self, other) : 0;
    }
}

static PyObject *truth_if(int truth)
{
    return truth < 0 ? NULL : PyBool_FromLong(truth);
}

PyObject *set_compare(PyObject *self, PyObject *other, int operation)
{
    if (is_bit_set(other))
        return truth_if(compare_with_bit_set(self, other, operation));
    int takes = is_set(other);
    if (takes < 0)
        return NULL;
    if (!takes)
        return reference_to(Py_NotImplemented);
    return truth_if(compare_with_set(self, other, operation));
}

PyObject *set_issuperset(PyObject *self, PyObject *items)
{
    if (is_bit_set(items))
        return truth_if(bit_set_is_subset(set_of(items), set_of(self)));
    if (PyAnySet_Check(items))
        return truth_if(compare_with_set(self, items, Py_GE));
    return truth_if(has_each(self, items));
}

PyObject *set_issubset(PyObject *self, PyObject *items)
{
    if (is_bit_set(items))
        return truth_if(bit_set_is_subset(set_of(self), set_of(items)));
    if (PyAnySet_Check(items))
        return truth_if(compare_with_set(self, items, Py_LE));
    return truth_if(is_among(self, items));
}

/* Sets that have members in common mostly show it soon. */
static int is_disjoint_from_set(PyObject *self, PyObject *set)
{
    struct glance glance = {self, GLANCE};
    int found = each_item(PyObject_GetIter(set), lacks_at_glance, &glance);
    if (found != 2)
        return found;
    return has_less_members(self, set) ? each_item(set_iter(self), is_out, set)
                                       : each_item(PyObject_GetIter(set), lacks, self);
}

PyObject *set_isdisjoint(PyObject *self, PyObject *iterable)
{
    if (is_bit_set(iterable))
        return truth_if(bit_set_is_disjoint(set_of(self), set_of(iterable)));
    if (PyAnySet_CheckExact(iterable))
        return truth_if(is_disjoint_from_set(self, iterable));
    return truth_if(each_item(PyObject_GetIter(iterable), lacks, self));
}

/* How many members a merge with the items of an iterable has. */
static PyObject *count_by(PyObject *self, PyObject *items, size_t (*call)(const bit_set *, const bit_set *))
{
    PyObject *other = as_bit_set(items);
    if (!other)
        return NULL;
    size_t count = call(set_of(self), set_of(other));
    Py_DECREF(other);
    return PyLong_FromSize_t(count);
}

#define COUNT_METHOD(name, call)                                              \
    PyObject *set_##name(PyObject *self, PyObject *items)                     \
    {                                                                         \
        return count_by(self, items, call);                                   \
    }
COUNT_METHOD(union_count, bit_set_union_count)
COUNT_METHOD(intersection_count, bit_set_intersection_count)
COUNT_METHOD(difference_count, bit_set_difference_count)
COUNT_METHOD(symmetric_difference_count, bit_set_symmetric_difference_count)
