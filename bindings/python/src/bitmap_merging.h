/* Merges and comparisons of Roaring bitmaps, of the kind that kind.h names. As with bit sets, an operator takes a set of any
 * kind, and a method any iterable. */
#include "kind.h"

/* A bitmap, and another made of items. */
struct made_of_items {
    PyObject *self, *made;
};

static int has(void *self, PyObject *item)
{
    return OF(contains)(self, item);
}

static int lacks(void *self, PyObject *item)
{
    int found = OF(contains)(self, item);
    return found < 0 ? found : !found;
}

static int is_in(void *container, PyObject *member)
{
    return PySequence_Contains(container, member);
}

static int put_member(void *with, PyObject *item)
{
    size_t number;
    struct made_of_items *bitmaps = with;
    enum reading reading = READ_EQUAL(bitmaps->self, item, &number);
    bool is_member = reading == NUMBER && HAS(bitmaps->self, number);
    if (is_member && !put_group(bitmaps->made, &number, 1))
        return -1;
    return reading == FAILED ? -1 : 1;
}

static int put_other(void *with, PyObject *item)
{
    size_t number;
    struct made_of_items *bitmaps = with;
    int found = OF(contains)(bitmaps->self, item);
    if (found)
        return found;
    return READ_MEMBER(item, &number) && put_group(bitmaps->made, &number, 1) ? 1 : -1;
}

/* A new bitmap of those items that `look_at` puts in. */
static PyObject *made_of(PyObject *self, PyObject *iterable, look *look_at)
{
    struct made_of_items bitmaps = {self, OF(new)(OF(type), NULL, NULL)};
    if (bitmaps.made && each_item(PyObject_GetIter(iterable), look_at, &bitmaps) < 0)
        Py_CLEAR(bitmaps.made);
    return bitmaps.made;
}

/* Merges the items of an iterable into the bitmap. If it keeps or removes only members, other items are skipped. */
static bool merge_iterable(PyObject *self, PyObject *iterable, OF(change) *call)
{
    bool is_of_members = call == CALL(intersect_with) || call == CALL(difference_with);
    PyObject *other = is_of_members && !IS(iterable) ? made_of(self, iterable, put_member) : OF(of_items)(iterable);
    bool is_done = other && OF(merge)(self, other, call);
    Py_XDECREF(other);
    return is_done;
}

static PyObject *merge_each(PyObject *self, PyObject *iterables, OF(change) *call)
{
    for (Py_ssize_t at = 0; at < PyTuple_Size(iterables); at++)
        if (!merge_iterable(self, PyTuple_GetItem(iterables, at), call))
            return NULL;
    return reference_to(Py_None);
}

static PyObject *merged_with_each(PyObject *self, PyObject *iterables, OF(change) *call)
{
    PyObject *made = OF(copy)(self, NULL), *done = made ? merge_each(made, iterables, call) : NULL;
    if (!done)
        Py_CLEAR(made);
    Py_XDECREF(done);
    return made;
}

#define METHODS(name, update, call)                                                                                    \
    PyObject *OF(update)(PyObject *self, PyObject *others)                                                          \
    {                                                                                                                  \
        return merge_each(self, others, call);                                                                         \
    }                                                                                                                  \
    PyObject *OF(name)(PyObject *self, PyObject *others)                                                            \
    {                                                                                                                  \
        return merged_with_each(self, others, call);                                                                   \
    }
METHODS(union, update, CALL(union_with))
METHODS(intersection, intersection_update, CALL(intersect_with))
METHODS(difference, difference_update, CALL(difference_with))
METHODS(symmetric_difference, symmetric_difference_update, CALL(symmetric_difference_with))

/* The merge of two bitmaps, as a new one. */
static PyObject *merged(PyTypeObject *type, PyObject *left, PyObject *right, OF(make) *call)
{
    PyObject *made = blank(type);
    return made ? made_if(call(&((object *)made)->bitmap, OF(of)(left), OF(of)(right)), made) : NULL;
}

/* `left op right`. Either may be the bitmap. */
static PyObject *operate(PyObject *left, PyObject *right, OF(make) *call, OF(change) *in_place)
{
    bool are_sets = is_set(left) > 0 && is_set(right) > 0;
    if (PyErr_Occurred())
        return NULL;
    if (!are_sets)
        return reference_to(Py_NotImplemented);
    if (IS(left) && IS(right))
        return merged(Py_TYPE(left), left, right, call);
    if (!IS(left) && in_place == CALL(difference_with))
        return made_of(right, left, put_other);
    /* The others are the same either way. */
    PyObject *self = IS(left) ? left : right, *other = self == left ? right : left;
    PyObject *made = OF(copy)(self, NULL);
    if (made && !merge_iterable(made, other, in_place))
        Py_CLEAR(made);
    return made;
}

static PyObject *operate_in_place(PyObject *self, PyObject *other, OF(change) *call)
{
    int takes = is_set(other);
    if (takes < 0)
        return NULL;
    if (!takes)
        return reference_to(Py_NotImplemented);
    return merge_iterable(self, other, call) ? reference_to(self) : NULL;
}

#define OPERATORS(name, call, in_place)                                                                                \
    PyObject *OF(name)(PyObject *left, PyObject *right)                                                             \
    {                                                                                                                  \
        return operate(left, right, call, in_place);                                                                   \
    }                                                                                                                  \
    PyObject *OF(in_place_##name)(PyObject *self, PyObject *other)                                                    \
    {                                                                                                                  \
        return operate_in_place(self, other, in_place);                                                                \
    }
OPERATORS(or, CALL(union), CALL(union_with))
OPERATORS(and, CALL(intersection), CALL(intersect_with))
OPERATORS(subtract, CALL(difference), CALL(difference_with))
OPERATORS(xor, CALL(symmetric_difference), CALL(symmetric_difference_with))

/* ---- Comparisons. */

static int compare_bitmaps(const handle *set, const handle *with, int operation)
{
    switch (operation) {
    case Py_EQ: return CALL(equals)(set, with);
    case Py_NE: return !CALL(equals)(set, with);
    case Py_LE: return CALL(is_subset)(set, with);
    case Py_GE: return CALL(is_superset)(set, with);
    case Py_LT: return CALL(is_proper_subset)(set, with);
    default: return CALL(is_proper_subset)(with, set);
    }
}

/* Compares with a set of another kind, by the counts first. */
static int compare_with_set(PyObject *self, PyObject *other, int operation)
{
    Py_ssize_t count = OF(length)(self), others = PyObject_Size(other);
    if (count < 0 || others < 0)
        return -1;
    bool by_count = operation == Py_LE ? count <= others : operation == Py_LT ? count < others
        : operation == Py_GE ? count >= others : operation == Py_GT ? count > others : count == others;
    int found = !by_count ? 0
        : operation == Py_GE || operation == Py_GT ? each_item(PyObject_GetIter(other), has, self)
                                                   : each_item(PyObject_GetIter(self), is_in, other);
    return operation == Py_NE && found >= 0 ? !found : found;
}

static PyObject *truth_if(int truth)
{
    return truth < 0 ? NULL : PyBool_FromLong(truth);
}

PyObject *OF(compare)(PyObject *self, PyObject *other, int operation)
{
    if (IS(other))
        return truth_if(compare_bitmaps(OF(of)(self), OF(of)(other), operation));
    int takes = is_set(other);
    if (takes < 0)
        return NULL;
    return takes ? truth_if(compare_with_set(self, other, operation)) : reference_to(Py_NotImplemented);
}

PyObject *OF(issuperset)(PyObject *self, PyObject *items)
{
    if (IS(items))
        return truth_if(CALL(is_superset)(OF(of)(self), OF(of)(items)));
    return truth_if(each_item(PyObject_GetIter(items), has, self));
}

PyObject *OF(issubset)(PyObject *self, PyObject *items)
{
    PyObject *among = IS(items) ? reference_to(items) : made_of(self, items, put_member);
    int found = among ? CALL(is_subset)(OF(of)(self), OF(of)(among)) : -1;
    Py_XDECREF(among);
    return truth_if(found);
}

PyObject *OF(isdisjoint)(PyObject *self, PyObject *items)
{
    if (IS(items))
        return truth_if(CALL(is_disjoint)(OF(of)(self), OF(of)(items)));
    return truth_if(each_item(PyObject_GetIter(items), lacks, self));
}

PyObject *OF(intersect)(PyObject *self, PyObject *items)
{
    PyObject *apart = OF(isdisjoint)(self, items);
    int found = apart ? !PyObject_IsTrue(apart) : -1;
    Py_XDECREF(apart);
    return truth_if(found);
}

/* How many members a merge with the items of an iterable has. */
static PyObject *count_by(PyObject *self, PyObject *items, uint64_t (*call)(const handle *, const handle *))
{
    PyObject *other = OF(of_items)(items);
    if (!other)
        return NULL;
    uint64_t count = call(OF(of)(self), OF(of)(other));
    Py_DECREF(other);
    return PyLong_FromUnsignedLongLong(count);
}

#define COUNT_METHOD(name, call)                                                                                       \
    PyObject *OF(name)(PyObject *self, PyObject *items)                                                             \
    {                                                                                                                  \
        return count_by(self, items, call);                                                                            \
    }
COUNT_METHOD(union_cardinality, CALL(union_len))
COUNT_METHOD(intersection_cardinality, CALL(intersection_len))
COUNT_METHOD(difference_cardinality, CALL(difference_len))
COUNT_METHOD(symmetric_difference_cardinality, CALL(symmetric_difference_len))

/* The share of what is in either that is in both. */
PyObject *OF(jaccard_index)(PyObject *self, PyObject *items)
{
    PyObject *other = OF(of_items)(items);
    if (!other)
        return NULL;
    double both = (double)CALL(intersection_len)(OF(of)(self), OF(of)(other));
    double either = (double)CALL(union_len)(OF(of)(self), OF(of)(other));
    Py_DECREF(other);
    return PyFloat_FromDouble(both / either);
}
