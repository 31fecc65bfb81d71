/* Copies for the modules copy and pickle, with what an object of a derived class has beside its members. */
#include "set.h"

/* The state of an object beside its members: the result of `__getstate__`, or before Python 3.11 its attributes without
 * those of `__slots__`, as with Python's own sets. None if there is none. */
PyObject *state_of(PyObject *self)
{
    PyObject *call = PyObject_GetAttrString(self, "__getstate__");
    if (call) {
        PyObject *state = PyObject_CallObject(call, NULL);
        Py_DECREF(call);
        return state;
    }
    PyErr_Clear();
    PyObject *attributes = PyObject_GetAttrString(self, "__dict__");
    if (attributes)
        return attributes;
    PyErr_Clear();
    return reference_to(Py_None);
}

/* Sets the attributes of `__slots__`. */
static bool put_slots(PyObject *made, PyObject *slots)
{
    PyObject *items = PyMapping_Items(slots);
    bool is_good = items;
    for (Py_ssize_t at = 0; is_good && at < PyList_Size(items); at++) {
        PyObject *item = PyList_GetItem(items, at);
        bool is_pair = PyTuple_Check(item) && PyTuple_Size(item) == 2;
        if (!is_pair)
            PyErr_SetString(PyExc_TypeError, "an attribute of a state is a pair of its name and what it is");
        is_good = is_pair && !PyObject_SetAttr(made, PyTuple_GetItem(item, 0), PyTuple_GetItem(item, 1));
    }
    Py_XDECREF(items);
    return is_good;
}

/* Sets attributes from a state: a dictionary of them, or a pair of one and of one for `__slots__`, either of which may
 * be None. */
bool put_attributes(PyObject *made, PyObject *state)
{
    bool is_pair = PyTuple_Check(state) && PyTuple_Size(state) == 2;
    PyObject *attributes = is_pair ? PyTuple_GetItem(state, 0) : state;
    PyObject *slots = is_pair ? PyTuple_GetItem(state, 1) : Py_None;
    if (attributes != Py_None) {
        PyObject *own = PyObject_GetAttrString(made, "__dict__");
        bool is_good = own && !PyDict_Update(own, attributes);
        Py_XDECREF(own);
        if (!is_good)
            return false;
    }
    return slots == Py_None || put_slots(made, slots);
}

/* Sets the state of a copy, as the module copy does. */
static bool put_state(PyObject *made, PyObject *state)
{
    PyObject *call = is_bit_set(made) || is_bitmap(made) || is_wide(made) ? PyObject_GetAttrString(made, "__setstate__") : NULL;
    if (!call) {
        PyErr_Clear();
        return put_attributes(made, state);
    }
    PyObject *done = PyObject_CallFunctionObjArgs(call, state, NULL);
    Py_DECREF(call);
    Py_XDECREF(done);
    return done;
}

/* A deep copy of a state. By then the memo has the copy of the object that it belongs to, to which it may refer. */
static PyObject *deep_state(PyObject *self, PyObject *made, PyObject *state, PyObject *memo)
{
    PyObject *deep = NULL, *place = PyLong_FromVoidPtr(self), *module = PyImport_ImportModule("copy");
    if (place && module && !PyObject_SetItem(memo, place, made))
        deep = PyObject_CallMethod(module, "deepcopy", "(OO)", state, memo);
    Py_XDECREF(place);
    Py_XDECREF(module);
    return deep;
}

/* Takes over `made`, a copy of the members, and sets its state to a copy of this object's: a deep one if there is a memo. */
static PyObject *with_state(PyObject *self, PyObject *made, PyObject *memo)
{
    PyTypeObject *type = Py_TYPE(self);
    if (!made || type == bit_set_type || type == matrix_type || type == bitmap_type || type == wide_type)
        return made;
    PyObject *state = state_of(self);
    if (state && state != Py_None && memo) {
        PyObject *deep = deep_state(self, made, state, memo);
        Py_DECREF(state);
        state = deep;
    }
    bool is_good = state && (state == Py_None || put_state(made, state));
    Py_XDECREF(state);
    if (!is_good)
        Py_CLEAR(made);
    return made;
}

PyObject *set_shallow_copy(PyObject *self, PyObject *Py_UNUSED(none))
{
    return with_state(self, set_copy(self, NULL), NULL);
}

PyObject *set_deep_copy(PyObject *self, PyObject *memo)
{
    return with_state(self, set_copy(self, NULL), memo);
}

PyObject *matrix_shallow_copy(PyObject *self, PyObject *Py_UNUSED(none))
{
    return with_state(self, matrix_copy(self, NULL), NULL);
}

PyObject *matrix_deep_copy(PyObject *self, PyObject *memo)
{
    return with_state(self, matrix_copy(self, NULL), memo);
}

PyObject *bitmap_shallow_copy(PyObject *self, PyObject *Py_UNUSED(none))
{
    return with_state(self, bitmap_copy(self, NULL), NULL);
}

PyObject *bitmap_deep_copy(PyObject *self, PyObject *memo)
{
    return with_state(self, bitmap_copy(self, NULL), memo);
}

PyObject *wide_shallow_copy(PyObject *self, PyObject *Py_UNUSED(none))
{
    return with_state(self, wide_copy(self, NULL), NULL);
}

PyObject *wide_deep_copy(PyObject *self, PyObject *memo)
{
    return with_state(self, wide_copy(self, NULL), memo);
}
