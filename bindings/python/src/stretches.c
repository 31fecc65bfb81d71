/* Runs of members and gaps, and shifts. */
#include "set.h"

PyObject *set_next_run(PyObject *self, PyObject *from)
{
    size_t bound, start, stop;
    int outside = 0;
    if (!read_bound(from, &bound, &outside))
        return NULL;
    if (!bit_set_next_run(set_of(self), bound, &start, &stop))
        return reference_to(Py_None);
    PyObject *first = PyLong_FromSize_t(start), *past = PyLong_FromSize_t(stop);
    PyObject *run = first && past ? PyTuple_Pack(2, first, past) : NULL;
    Py_XDECREF(first);
    Py_XDECREF(past);
    return run;
}

/* Reads a count that is not below 0. One above SIZE_MAX counts as that. */
static bool read_count(PyObject *object, size_t *count)
{
    int outside = 0;
    if (!read_bound(object, count, &outside))
        return false;
    if (outside > 0)
        *count = SIZE_MAX;
    else if (outside < 0)
        PyErr_SetString(PyExc_ValueError, "a count or a distance is not below 0");
    return outside >= 0;
}

PyObject *set_first_gap(PyObject *self, PyObject *arguments)
{
    PyObject *from, *numbers;
    size_t bound, count, gap;
    int outside = 0;
    if (!PyArg_ParseTuple(arguments, "OO", &from, &numbers) || !read_bound(from, &bound, &outside)
        || !read_count(numbers, &count))
        return NULL;
    if (!bit_set_first_gap(set_of(self), bound, count, &gap))
        return reference_to(Py_None);
    return PyLong_FromSize_t(gap);
}

PyObject *set_shift_up(PyObject *self, PyObject *distance)
{
    size_t count;
    if (!read_count(distance, &count))
        return NULL;
    int32_t answer = bit_set_shift_up(set_of(self), count);
    if (answer == BIT_SET_NO_ELEMENT) {
        PyErr_SetString(PyExc_ValueError, "a member would become no member of a bit set");
        return NULL;
    }
    return none_if(answer == BIT_SET_YES);
}

PyObject *set_shift_down(PyObject *self, PyObject *distance)
{
    size_t count;
    if (!read_count(distance, &count))
        return NULL;
    bit_set_shift_down(set_of(self), count);
    return none_if(true);
}
