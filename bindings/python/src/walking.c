/* Iterators over the members, and conversions of a whole set. */
#include "set.h"

Py_ssize_t set_length(PyObject *self)
{
    return (Py_ssize_t)bit_set_count(set_of(self));
}

int set_bool(PyObject *self)
{
    return !bit_set_is_empty(set_of(self));
}

/* The members as a list. The list is made before they are read, since making it may run code that changes the set. */
static PyObject *list_of(PyObject *self)
{
    size_t group[GROUP], from = 0, count = GROUP;
    PyObject *list = PyList_New(0);
    while (list && count == GROUP) {
        count = bit_set_copy_members(set_of(self), from, group, GROUP);
        for (size_t at = 0; list && at < count; at++) {
            PyObject *member = int_of(group[at]);
            if (!member || PyList_Append(list, member))
                Py_CLEAR(list);
            Py_XDECREF(member);
        }
        from = count ? group[count - 1] + 1 : from;
    }
    return list;
}

PyObject *type_name(PyObject *self)
{
    return PyObject_GetAttrString((PyObject *)Py_TYPE(self), "__name__");
}

PyObject *set_repr(PyObject *self)
{
    PyObject *text = NULL, *name = type_name(self), *list = list_of(self);
    if (name && list)
        text = PyUnicode_FromFormat("%S(%R)", name, list);
    Py_XDECREF(name);
    Py_XDECREF(list);
    return text;
}

/* This many zeros as an array of numbers of a kind. */
PyObject *zeros(const char *kind, Py_ssize_t count)
{
    PyObject *zero = PyObject_CallFunction(array_type, "s(i)", kind, 0);
    PyObject *array = zero ? PySequence_Repeat(zero, count) : NULL;
    Py_XDECREF(zero);
    return array;
}

/* The members as an array of the machine's words, which NumPy reads without a copy. */
PyObject *set_to_array(PyObject *self, PyObject *Py_UNUSED(none))
{
    void *place;
    Py_ssize_t length, count;
    PyObject *array = NULL;
    /* Making the array may run code that changes the set. */
    do {
        Py_XDECREF(array);
        count = set_length(self);
        array = zeros(sizeof(size_t) == 8 ? "Q" : "I", count);
    } while (array && set_length(self) != count);
    if (array && PyObject_AsWriteBuffer(array, &place, &length))
        Py_CLEAR(array);
    if (array)
        bit_set_copy_members(set_of(self), 0, place, (size_t)length / sizeof(size_t));
    return array;
}

PyObject *set_reduce(PyObject *self, PyObject *Py_UNUSED(none))
{
    PyObject *array = set_to_array(self, NULL);
    if (!array)
        return NULL;
    PyObject *state = state_of(self);
    if (!state) {
        Py_DECREF(array);
        return NULL;
    }
    return Py_BuildValue("O(N)N", (PyObject *)Py_TYPE(self), array, state);
}

PyObject *set_sizeof(PyObject *self, PyObject *Py_UNUSED(none))
{
    return PyLong_FromSize_t(sizeof(BitSet) + bit_set_capacity(set_of(self)) / 8);
}

/* Only a set makes an iterator. */
PyObject *walk_new(PyTypeObject *Py_UNUSED(type), PyObject *Py_UNUSED(positional), PyObject *Py_UNUSED(named))
{
    PyErr_SetString(PyExc_TypeError, "a walk over a bit set is made by iter or reversed");
    return NULL;
}

static PyObject *walk_over(PyObject *self, bool is_backward)
{
    Walk *walk = PyObject_GC_New(Walk, walk_type);
    if (!walk)
        return NULL;
    Py_INCREF(self);
    walk->of = self;
    walk->is_backward = is_backward;
    walk->has_ended = false;
    walk->bound = is_backward ? SIZE_MAX : 0;
    walk->place = walk->count = 0;
    PyObject_GC_Track(walk);
    return (PyObject *)walk;
}

/* A walk over the members at or above a number, or none. */
PyObject *walk_from(PyObject *self, size_t from, bool has_ended)
{
    Walk *walk = (Walk *)walk_over(self, false);
    if (walk) {
        walk->bound = from;
        walk->has_ended = has_ended;
    }
    return (PyObject *)walk;
}

PyObject *set_iter(PyObject *self)
{
    return walk_over(self, false);
}

PyObject *set_reversed(PyObject *self, PyObject *Py_UNUSED(none))
{
    return walk_over(self, true);
}

/* Passes each item of an iterator, which it releases, to `look_at`, as long as that returns 1. Returns its last result,
 * or 1 if there was no item; -1 goes with an exception. */
int each_item(PyObject *walk, look *look_at, void *with)
{
    int found = 1;
    PyObject *item;
    while (found == 1 && walk && (item = PyIter_Next(walk))) {
        found = look_at(with, item);
        Py_DECREF(item);
    }
    Py_XDECREF(walk);
    return PyErr_Occurred() ? -1 : found;
}

/* Copies a group of a bitmap, whose numbers have 32 bits, and returns how many. */
static size_t fill_from_bitmap(Walk *walk)
{
    uint32_t members[WALK_GROUP];
    const bit_roaring *bitmap = bitmap_of(walk->of);
    size_t count = walk->is_backward ? bit_roaring_copy_members_back(bitmap, walk->bound, members, WALK_GROUP)
                                     : bit_roaring_copy_members(bitmap, walk->bound, members, WALK_GROUP);
    for (size_t at = 0; at < count; at++)
        walk->group[at] = members[at];
    return count;
}

/* The same of a bitmap of 64-bit numbers. Its bound is the last number of the group from the back, and there may be no
 * further one. */
static void fill_from_wide(Walk *walk)
{
    uint64_t members[WALK_GROUP];
    const bit_roaring64 *bitmap = wide_of(walk->of);
    walk->count = walk->is_backward ? bit_roaring64_copy_members_back(bitmap, walk->bound, members, WALK_GROUP)
                                    : bit_roaring64_copy_members(bitmap, walk->bound, members, WALK_GROUP);
    for (size_t at = 0; at < walk->count; at++)
        walk->group[at] = members[at];
    uint64_t end = walk->is_backward ? 0 : UINT64_MAX;
    walk->has_ended = walk->count < WALK_GROUP || members[WALK_GROUP - 1] == end;
    if (!walk->has_ended)
        walk->bound = walk->is_backward ? members[WALK_GROUP - 1] - 1 : members[WALK_GROUP - 1] + 1;
}

/* Fetches the next group. */
static void fill(Walk *walk)
{
    walk->place = 0;
    if (is_wide(walk->of)) {
        fill_from_wide(walk);
        return;
    }
    if (is_bitmap(walk->of))
        walk->count = fill_from_bitmap(walk);
    else if (walk->is_backward)
        walk->count = bit_set_copy_members_back(set_of(walk->of), walk->bound, walk->group, WALK_GROUP);
    else
        walk->count = bit_set_copy_members(set_of(walk->of), walk->bound, walk->group, WALK_GROUP);
    walk->has_ended = walk->count < WALK_GROUP;
    if (!walk->has_ended)
        walk->bound = walk->group[WALK_GROUP - 1] + !walk->is_backward;
}

PyObject *walk_next(PyObject *object)
{
    Walk *walk = (Walk *)object;
    if (walk->place == walk->count && !walk->has_ended)
        fill(walk);
    return walk->place < walk->count ? int_of(walk->group[walk->place++]) : NULL;
}

int walk_traverse(PyObject *object, visitproc visit, void *arg)
{
#if PY_VERSION_HEX >= 0x03090000
    Py_VISIT(Py_TYPE(object));
#endif
    Py_VISIT(((Walk *)object)->of);
    return 0;
}

void walk_dealloc(PyObject *object)
{
    PyTypeObject *type = Py_TYPE(object);
    PyObject_GC_UnTrack(object);
    Py_XDECREF(((Walk *)object)->of);
    PyObject_GC_Del(object);
    Py_DECREF(type);
}

static PyObject *bytes_by(PyObject *self, size_t (*call)(const bit_set *, size_t, uint8_t *, size_t))
{
    size_t last = bit_set_last(set_of(self));
    size_t count = last == NO_MEMBER ? 0 : last / 8 + 1;
    PyObject *bytes = PyBytes_FromStringAndSize(NULL, (Py_ssize_t)count);
    if (bytes)
        call(set_of(self), 0, (uint8_t *)PyBytes_AsString(bytes), count);
    return bytes;
}

PyObject *set_to_bytes(PyObject *self, PyObject *Py_UNUSED(none))
{
    return bytes_by(self, bit_set_copy_bytes);
}

PyObject *set_to_bytes_lsb(PyObject *self, PyObject *Py_UNUSED(none))
{
    return bytes_by(self, bit_set_copy_bytes_lsb);
}

static PyObject *put_bytes_by(PyObject *self, PyObject *bytes, bool (*call)(bit_set **, const uint8_t *, size_t))
{
    const void *start;
    Py_ssize_t length;
    bit_set *made = NULL;
    PyObject *view = PyMemoryView_FromObject(bytes);
    if (!view || PyObject_AsReadBuffer(view, &start, &length)) {
        Py_XDECREF(view);
        return NULL;
    }
    /* A buffer of no bytes may have no address, but the library requires one. */
    bool found = call(&made, start ? start : "", (size_t)length);
    Py_DECREF(view);
    if (!found)
        return PyErr_NoMemory();
    bit_set_free(set_of(self));
    ((BitSet *)self)->set = made;
    return none_if(true);
}

static PyObject *put_bytes(PyObject *self, PyObject *bytes)
{
    return put_bytes_by(self, bytes, bit_set_from_bytes);
}

static PyObject *put_bytes_lsb(PyObject *self, PyObject *bytes)
{
    return put_bytes_by(self, bytes, bit_set_from_bytes_lsb);
}

PyObject *set_from_bytes(PyObject *type, PyObject *bytes)
{
    return made_by(type, bytes, put_bytes);
}

PyObject *set_from_bytes_lsb(PyObject *type, PyObject *bytes)
{
    return made_by(type, bytes, put_bytes_lsb);
}
