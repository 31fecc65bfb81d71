/* Ranges of numbers, the ends of a set, and searches. */
#include "set.h"

/* Reads the arguments of a call as the bounds of a range, like `read_bounds`. */
bool read_range(PyObject *arguments, size_t *start, size_t *stop, bool *is_within)
{
    PyObject *first, *last;
    return PyArg_ParseTuple(arguments, "OO", &first, &last) && read_bounds(first, last, start, stop, is_within) >= 0;
}

static PyObject *change_range(PyObject *self, PyObject *arguments, bool (*call)(bit_set *, size_t, size_t))
{
    size_t start, stop;
    bool is_within;
    if (!read_range(arguments, &start, &stop, &is_within))
        return NULL;
    if (!is_within) {
        PyErr_SetString(PyExc_ValueError, "a number of the range is no member of a bit set");
        return NULL;
    }
    return none_if(call(set_of(self), start, stop));
}

PyObject *set_add_range(PyObject *self, PyObject *arguments)
{
    return change_range(self, arguments, bit_set_insert_range);
}

PyObject *set_toggle_range(PyObject *self, PyObject *arguments)
{
    return change_range(self, arguments, bit_set_toggle_range);
}

PyObject *set_discard_range(PyObject *self, PyObject *arguments)
{
    size_t start, stop;
    bool is_within;
    if (!read_range(arguments, &start, &stop, &is_within))
        return NULL;
    bit_set_remove_range(set_of(self), start, stop);
    return none_if(true);
}

PyObject *set_count_in_range(PyObject *self, PyObject *arguments)
{
    size_t start, stop;
    bool is_within;
    if (!read_range(arguments, &start, &stop, &is_within))
        return NULL;
    return PyLong_FromSize_t(bit_set_count_in_range(set_of(self), start, stop));
}

PyObject *set_any_in_range(PyObject *self, PyObject *arguments)
{
    size_t start, stop;
    bool is_within;
    if (!read_range(arguments, &start, &stop, &is_within))
        return NULL;
    return PyBool_FromLong(bit_set_contains_any_in_range(set_of(self), start, stop));
}

PyObject *set_all_in_range(PyObject *self, PyObject *arguments)
{
    size_t start, stop;
    bool is_within;
    if (!read_range(arguments, &start, &stop, &is_within))
        return NULL;
    return PyBool_FromLong(is_within && bit_set_contains_all_in_range(set_of(self), start, stop));
}

/* The result of a class method: a new object that a method of the set fills. */
PyObject *made_by(PyObject *type, PyObject *argument, PyObject *(*fill)(PyObject *, PyObject *))
{
    PyObject *made = PyObject_CallFunctionObjArgs(type, NULL);
    /* A derived class may make an object that is not a set. */
    if (made && !is_bit_set(made) && !is_bitmap(made) && !is_wide(made)) {
        PyErr_SetString(PyExc_TypeError, "the class makes no set");
        Py_CLEAR(made);
    }
    PyObject *done = made ? fill(made, argument) : NULL;
    if (!done) {
        Py_XDECREF(made);
        return NULL;
    }
    Py_DECREF(done);
    return made;
}

PyObject *set_from_range(PyObject *type, PyObject *arguments)
{
    return made_by(type, arguments, set_add_range);
}

PyObject *set_first(PyObject *self, PyObject *Py_UNUSED(none))
{
    return member_or_none(bit_set_first(set_of(self)));
}

PyObject *set_last(PyObject *self, PyObject *Py_UNUSED(none))
{
    return member_or_none(bit_set_last(set_of(self)));
}

static PyObject *taken(size_t member)
{
    if (member != NO_MEMBER)
        return PyLong_FromSize_t(member);
    PyErr_SetString(PyExc_KeyError, "pop from an empty bit set");
    return NULL;
}

PyObject *set_pop(PyObject *self, PyObject *Py_UNUSED(none))
{
    return taken(bit_set_pop_first(set_of(self)));
}

PyObject *set_pop_last(PyObject *self, PyObject *Py_UNUSED(none))
{
    return taken(bit_set_pop_last(set_of(self)));
}

PyObject *set_next(PyObject *self, PyObject *from)
{
    size_t bound;
    int outside = 0;
    return read_bound(from, &bound, &outside) ? member_or_none(bit_set_next(set_of(self), bound)) : NULL;
}

PyObject *set_previous(PyObject *self, PyObject *end)
{
    size_t bound;
    int outside = 0;
    return read_bound(end, &bound, &outside) ? member_or_none(bit_set_previous(set_of(self), bound)) : NULL;
}

PyObject *set_next_missing(PyObject *self, PyObject *from)
{
    size_t number;
    if (!read_member(from, &number))
        return NULL;
    return member_or_none(bit_set_next_missing(set_of(self), number));
}

PyObject *set_nth(PyObject *self, PyObject *index)
{
    size_t count;
    int outside = 0;
    if (!read_bound(index, &count, &outside))
        return NULL;
    if (outside < 0) {
        PyErr_SetString(PyExc_ValueError, "the count of members before is not below 0");
        return NULL;
    }
    return member_or_none(bit_set_nth(set_of(self), 0, count));
}

PyObject *set_toggle(PyObject *self, PyObject *member)
{
    size_t number;
    if (!read_member(member, &number))
        return NULL;
    int32_t is_in = bit_set_toggle(set_of(self), number);
    return is_in < 0 ? PyErr_NoMemory() : PyBool_FromLong(is_in);
}

PyObject *set_clear(PyObject *self, PyObject *Py_UNUSED(none))
{
    bit_set_reset(set_of(self));
    return none_if(true);
}
