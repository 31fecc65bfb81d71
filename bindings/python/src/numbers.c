/* Reading numbers from Python's objects. */
#include "set.h"

/* Reads a number below SIZE_MAX from an int or another index. Only FAILED leaves an exception set. */
enum reading read_number(PyObject *object, size_t *number)
{
    /* In the stable ABI the second test is a call. */
    if (PyLong_CheckExact(object) || PyLong_Check(object))
        return read_int(object, number);
    if (!PyIndex_Check(object))
        return NO_NUMBER;
    PyObject *index = PyNumber_Index(object);
    if (!index)
        return FAILED;
    enum reading reading = read_int(index, number);
    Py_DECREF(index);
    return reading;
}

/* Whether a number is a member of a set of either kind. */
bool has_number(PyObject *self, size_t number)
{
    if (is_bitmap(self))
        return number <= UINT32_MAX && bit_roaring_contains(bitmap_of(self), (uint32_t)number);
    return bit_set_contains(set_of(self), number);
}

/* Reads the number that an object equals, as a look-up in one of Python's own sets does: 4.0 is 4. An object that is no
 * index must be hashable, and is compared only with the member that its hash names. */
enum reading read_equal_of_any(PyObject *self, PyObject *object, size_t *number)
{
    if (PyIndex_Check(object))
        return read_number(object, number);
    /* An object that equals an int has its hash, and an int that a set can have is its own hash. */
    Py_hash_t hash = PyObject_Hash(object);
    *number = (size_t)hash;
    if (hash < 0)
        return hash == -1 ? FAILED : NO_NUMBER;
    if (!has_number(self, *number))
        return NO_NUMBER;
    PyObject *member = int_of(*number);
    int is_equal = member ? PyObject_RichCompareBool(object, member, Py_EQ) : -1;
    Py_XDECREF(member);
    return (enum reading)is_equal;
}

/* Reads a number like `read_number`, with an exception if there is none. The object may be borrowed from a list. */
bool read_member_of_any(PyObject *object, size_t *number)
{
    Py_INCREF(object);
    enum reading reading = read_number(object, number);
    if (reading == NO_NUMBER && PyIndex_Check(object))
        PyErr_Format(PyExc_ValueError, "%R is no member of a bit set", object);
    else if (reading == NO_NUMBER)
        PyErr_SetString(PyExc_TypeError, "a member of a bit set is an int");
    Py_DECREF(object);
    return reading == NUMBER;
}

/* Reads a bound of a range. One below 0 counts as 0 and sets `*outside` to -1; one above SIZE_MAX counts as that and
 * sets it to 1. */
bool read_bound(PyObject *object, size_t *bound, int *outside)
{
    int overflow;
    PyObject *index = PyNumber_Index(object);
    if (!index)
        return false;
    long long small = PyLong_AsLongLongAndOverflow(index, &overflow);
    *outside = overflow < 0 || (!overflow && small < 0) ? -1 : 0;
    *bound = *outside ? 0 : (size_t)small;
    if (overflow > 0) {
        *bound = PyLong_AsSize_t(index);
        *outside = PyErr_Occurred() ? 1 : 0;
        PyErr_Clear();
    }
    Py_DECREF(index);
    return true;
}

/* Reads the bounds of a range: 1 if it has numbers, 0 if it is empty, or -1 with an exception. If it has numbers below
 * 0 or from SIZE_MAX on, `*is_within` is false, and the bounds are those of the others. */
int read_bounds(PyObject *first, PyObject *last, size_t *start, size_t *stop, bool *is_within)
{
    int start_is = 0, stop_is = 0, has_numbers = -1;
    PyObject *least = PyNumber_Index(first), *past = least ? PyNumber_Index(last) : NULL;
    if (past && read_bound(least, start, &start_is) && read_bound(past, stop, &stop_is))
        has_numbers = PyObject_RichCompareBool(least, past, Py_LT);
    Py_XDECREF(least);
    Py_XDECREF(past);
    *is_within = !has_numbers || (!start_is && !stop_is);
    return has_numbers;
}

/* Reads the arguments of a call as the first and the last number of a range: 1 if it has numbers, 0 if it has none, or -1
 * with an exception. `*is_within` is whether none of them is below 0 or above SIZE_MAX; those are left out. */
int read_stretch(PyObject *arguments, size_t *first, size_t *last, bool *is_within)
{
    int first_is = 0, last_is = 0, has_numbers = -1;
    PyObject *start, *stop;
    if (!PyArg_ParseTuple(arguments, "OO", &start, &stop))
        return -1;
    PyObject *least = PyNumber_Index(start), *past = least ? PyNumber_Index(stop) : NULL, *one = PyLong_FromLong(1);
    PyObject *greatest = past && one ? PyNumber_Subtract(past, one) : NULL;
    if (greatest && read_bound(least, first, &first_is) && read_bound(greatest, last, &last_is))
        has_numbers = PyObject_RichCompareBool(least, greatest, Py_LE);
    Py_XDECREF(least);
    Py_XDECREF(past);
    Py_XDECREF(one);
    Py_XDECREF(greatest);
    *is_within = !has_numbers || (!first_is && !last_is);
    return has_numbers > 0 ? first_is <= 0 && last_is >= 0 : has_numbers;
}

PyObject *member_or_none(size_t member)
{
    if (member == NO_MEMBER)
        return reference_to(Py_None);
    return PyLong_FromSize_t(member);
}
