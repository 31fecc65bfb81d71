/* Creating sets, and inserting and removing members. */
#include "set.h"

/* An object that has no set of the library yet. */
PyObject *blank(PyTypeObject *type)
{
    return ((allocfunc)PyType_GetSlot(type, Py_tp_alloc))(type, 0);
}

/* The new object, or NULL with a MemoryError if the library ran out of memory. */
PyObject *made_if(bool found_memory, PyObject *made)
{
    if (found_memory)
        return made;
    Py_DECREF(made);
    return PyErr_NoMemory();
}

PyObject *set_new(PyTypeObject *type, PyObject *Py_UNUSED(positional), PyObject *Py_UNUSED(named))
{
    PyObject *made = blank(type);
    return made ? made_if(bit_set_new(&((BitSet *)made)->set), made) : NULL;
}

PyObject *copy_as(PyTypeObject *type, PyObject *self)
{
    PyObject *made = blank(type);
    return made ? made_if(bit_set_clone(&((BitSet *)made)->set, set_of(self)), made) : NULL;
}

PyObject *set_copy(PyObject *self, PyObject *Py_UNUSED(none))
{
    return copy_as(Py_TYPE(self), self);
}

PyObject *set_copy_range(PyObject *self, PyObject *arguments)
{
    size_t start, stop;
    bool is_within;
    if (!read_range(arguments, &start, &stop, &is_within))
        return NULL;
    PyObject *made = blank(Py_TYPE(self));
    return made ? made_if(bit_set_copy_range(&((BitSet *)made)->set, set_of(self), start, stop), made) : NULL;
}

void set_dealloc(PyObject *self)
{
    PyTypeObject *type = Py_TYPE(self);
    if (((BitSet *)self)->weak_references)
        PyObject_ClearWeakRefs(self);
    bit_set_free(set_of(self));
    ((freefunc)PyType_GetSlot(type, Py_tp_free))(self);
    Py_DECREF(type);
}

bool put(PyObject *self, PyObject *member)
{
    size_t number;
    if (!read_member(member, &number))
        return false;
    if (bit_set_insert(set_of(self), number) >= 0)
        return true;
    PyErr_NoMemory();
    return false;
}

/* Inserts numbers up to the first that cannot be inserted, and returns how many were. Reserves for the greatest first,
 * so that the set grows once. If that fails, it inserts those before the first for which memory runs out. */
static size_t insert_group(PyObject *self, const size_t *group, size_t count)
{
    if (is_bitmap(self))
        return put_in_bitmap(self, group, count);
    if (is_wide(self))
        return bit_roaring64_insert_members(wide_of(self), group, count);
    /* One more than the greatest; 0 for NO_MEMBER. */
    size_t bound = 0;
    for (size_t at = 0; at < count; at++)
        bound = group[at] + 1 > bound ? group[at] + 1 : bound;
    if (bound > bit_set_capacity(set_of(self)))
        (void)!bit_set_reserve(set_of(self), bound);
    return bit_set_insert_members(set_of(self), group, count);
}

/* Inserts numbers, with an exception for the first that cannot be inserted. */
bool put_group(PyObject *self, const size_t *group, size_t count)
{
    size_t done = insert_group(self, group, count);
    if (done == count)
        return true;
    if (is_wide(self))
        PyErr_NoMemory();
    else if (group[done] == NO_MEMBER)
        PyErr_SetString(PyExc_ValueError, "a number of the buffer is no member of a bit set");
    else if (is_bitmap(self) && group[done] > UINT32_MAX)
        PyErr_SetString(PyExc_ValueError, "a number is no member of a Roaring bitmap");
    else
        PyErr_NoMemory();
    return false;
}

/* Numbers gathered for a set, which inserts many at a time. */
struct gathered {
    PyObject *set;
    bool is_wide;
    size_t count;
    size_t group[GROUP];
};

/* Reads a number that may be a member of a set, with an exception if there is none. */
static inline bool read_number_of(bool is_wide, PyObject *item, size_t *number)
{
    return is_wide ? read_wide_member(item, number) : read_member(item, number);
}

/* Inserts a group once it is full. */
static inline bool gather(struct gathered *numbers, PyObject *item)
{
    if (!read_number_of(numbers->is_wide, item, &numbers->group[numbers->count]))
        return false;
    if (++numbers->count < GROUP)
        return true;
    numbers->count = 0;
    return put_group(numbers->set, numbers->group, GROUP);
}

static int gather_item(void *numbers, PyObject *item)
{
    return gather(numbers, item) ? 1 : -1;
}

/* Inserts the rest, even if an exception is set. Returns whether all were inserted. */
static bool put_rest(struct gathered *numbers)
{
    PyObject *type, *value, *trace;
    PyErr_Fetch(&type, &value, &trace);
    if (put_group(numbers->set, numbers->group, numbers->count)) {
        PyErr_Restore(type, value, trace);
        return !type;
    }
    Py_XDECREF(type);
    Py_XDECREF(value);
    Py_XDECREF(trace);
    return false;
}

/* Inserts the items of a list or a tuple. Those before one that cannot be inserted are inserted. */
static bool put_items(PyObject *self, PyObject *items)
{
    struct gathered numbers = {.set = self, .is_wide = is_wide(self), .count = 0};
    bool is_list = PyList_Check(items), is_good = true;
    Py_ssize_t size = PySequence_Size(items);
    for (Py_ssize_t at = 0; is_good && at < size; at++) {
        PyObject *item = is_list ? PyList_GetItem(items, at) : PyTuple_GetItem(items, at);
        /* An item's `__index__` may shorten the list meanwhile. */
        is_good = item && gather(&numbers, item);
    }
    return put_rest(&numbers);
}

/* The same for a Python set, or one of this module, over which no user's code iterates. */
bool put_walk(PyObject *self, PyObject *items)
{
    struct gathered numbers = {.set = self, .is_wide = is_wide(self), .count = 0};
    each_item(PyObject_GetIter(items), gather_item, &numbers);
    return put_rest(&numbers);
}

static int put_item(void *self, PyObject *item)
{
    size_t number;
    return read_number_of(is_wide(self), item, &number) && put_group(self, &number, 1) ? 1 : -1;
}

/* Whether a format is of integers as this machine stores them, and whether they are signed. */
static bool read_format(PyObject *view, bool *is_signed)
{
    PyObject *format = PyObject_GetAttrString(view, "format");
    PyObject *bytes = format ? PyUnicode_AsASCIIString(format) : NULL;
    const char *text = bytes ? PyBytes_AsString(bytes) : "";
    if (*text == '@' || *text == '=' || *text == (PY_LITTLE_ENDIAN ? '<' : '>'))
        text++;
    bool is_known = *text && !text[1] && strchr("bBhHiIlLqQnN", *text);
    *is_signed = is_known && *text >= 'a';
    Py_XDECREF(bytes);
    Py_XDECREF(format);
    PyErr_Clear();
    return is_known;
}

/* An attribute that is a count, or 0, also if there is no memory to look it up. */
static Py_ssize_t size_attribute(PyObject *object, const char *name)
{
    PyObject *value = PyObject_GetAttrString(object, name);
    Py_ssize_t size = value ? PyLong_AsSsize_t(value) : 0;
    Py_XDECREF(value);
    PyErr_Clear();
    return size;
}

/* Reads number `at` of those in a buffer, unless it is below 0. */
static bool number_at(const char *bytes, size_t width, bool is_signed, size_t at, size_t *number)
{
    uint64_t read = 0;
    const char *from = bytes + at * width;
    switch (width) {
    case 1: read = *(const uint8_t *)from; break;
    case 2: { uint16_t part; memcpy(&part, from, 2); read = part; break; }
    case 4: { uint32_t part; memcpy(&part, from, 4); read = part; break; }
    default: memcpy(&read, from, 8);
    }
    *number = read > SIZE_MAX ? NO_MEMBER : (size_t)read;
    return !is_signed || !(read >> (8 * width - 1));
}

/* Inserts the numbers of a buffer in groups. Those before one that cannot be inserted are inserted. */
static bool put_numbers(PyObject *self, const char *bytes, size_t size, size_t width, bool is_signed)
{
    size_t group[GROUP], count = GROUP;
    for (size_t start = 0; count == GROUP; start += GROUP) {
        size_t room = size - start < GROUP ? size - start : GROUP;
        for (count = 0; count < room && number_at(bytes, width, is_signed, start + count, &group[count]); count++)
            ;
        if (!put_group(self, group, count))
            return false;
        if (count < room) {
            PyErr_SetString(PyExc_ValueError, "a number of the buffer is below 0");
            return false;
        }
    }
    return true;
}

/* Whether the object's class defines its own iteration, so that its items need not be the numbers of the buffer. */
static bool has_own_walk(PyObject *object)
{
    static const char *const names[] = {"__iter__", "__getitem__"};
    bool is_own = false;
    for (int at = 0; at < 2; at++) {
        PyObject *method = PyObject_GetAttrString((PyObject *)Py_TYPE(object), names[at]);
        /* If there is no memory to look for one, there may be one. */
        bool may_be_own = method ? Py_TYPE(method) != &PyWrapperDescr_Type : !PyErr_ExceptionMatches(PyExc_AttributeError);
        is_own = is_own || may_be_own;
        Py_XDECREF(method);
        PyErr_Clear();
    }
    return is_own;
}

/* Inserts the numbers of a contiguous buffer, such as an array's or NumPy's. NO_NUMBER if it is not one. */
static enum reading put_buffer(PyObject *self, PyObject *object)
{
    bool is_signed;
    const void *bytes;
    Py_ssize_t length;
    PyObject *view = has_own_walk(object) ? NULL : PyMemoryView_FromObject(object);
    if (!view) {
        PyErr_Clear();
        return NO_NUMBER;
    }
    enum reading done = NO_NUMBER;
    size_t width = (size_t)size_attribute(view, "itemsize");
    bool is_row = width && size_attribute(view, "ndim") == 1 && size_attribute(view, "c_contiguous");
    if (is_row && read_format(view, &is_signed)) {
        done = FAILED;
        if (!PyObject_AsReadBuffer(view, &bytes, &length)
            && put_numbers(self, bytes, (size_t)length / width, width, is_signed))
            done = NUMBER;
    }
    Py_DECREF(view);
    return done;
}

/* Inserts the members of a Roaring bitmap into a set. */
static bool put_bitmap(PyObject *self, PyObject *bitmap)
{
    bit_set *made = NULL;
    bool found = bit_set_from_roaring(&made, bitmap_of(bitmap)) && bit_set_union_with(set_of(self), made);
    bit_set_free(made);
    if (!found)
        PyErr_NoMemory();
    return found;
}

/* Inserts the items of an iterable into a set. Those before one that cannot be inserted are inserted. */
bool put_all(PyObject *self, PyObject *members)
{
    if (is_bitmap(members))
        return put_bitmap(self, members);
    if (!is_bit_set(members))
        return put_each(self, members);
    bool found = members == self || bit_set_union_with(set_of(self), set_of(members));
    if (!found)
        PyErr_NoMemory();
    return found;
}

/* Inserts the items of an iterable that is no set of this module. */
bool put_each(PyObject *self, PyObject *members)
{
    if (PyList_CheckExact(members) || PyTuple_CheckExact(members))
        return put_items(self, members);
    if (PyAnySet_CheckExact(members))
        return put_walk(self, members);
    enum reading done = put_buffer(self, members);
    return done == NO_NUMBER ? each_item(PyObject_GetIter(members), put_item, self) == 1 : done == NUMBER;
}

int set_init(PyObject *self, PyObject *arguments, PyObject *named)
{
    PyObject *members = NULL;
    static char *names[] = {"members", NULL};
    if (!PyArg_ParseTupleAndKeywords(arguments, named, "|O:BitSet", names, &members))
        return -1;
    bit_set_reset(set_of(self));
    if (!members || members == self)
        return 0;
    if (!is_bit_set(members))
        return put_all(self, members) ? 0 : -1;
    if (bit_set_copy(set_of(self), set_of(members)))
        return 0;
    PyErr_NoMemory();
    return -1;
}

/* A bit set of the items of an iterable, which is itself if it is one. A new reference. */
PyObject *as_bit_set(PyObject *members)
{
    if (is_bit_set(members)) {
        Py_INCREF(members);
        return members;
    }
    PyObject *made = set_new(bit_set_type, NULL, NULL);
    if (made && !put_all(made, members))
        Py_CLEAR(made);
    return made;
}

PyObject *set_add(PyObject *self, PyObject *member)
{
    if (!put(self, member))
        return NULL;
    return reference_to(Py_None);
}

int set_contains(PyObject *self, PyObject *member)
{
    size_t number;
    enum reading reading = read_equal(self, member, &number);
    return reading == NUMBER ? bit_set_contains(set_of(self), number) : (int)reading;
}

/* Removes a member. NUMBER if it was present. */
enum reading take_out(PyObject *self, PyObject *member)
{
    size_t number;
    enum reading reading = read_equal(self, member, &number);
    if (reading == NUMBER && !bit_set_remove(set_of(self), number))
        return NO_NUMBER;
    return reading;
}

PyObject *set_discard(PyObject *self, PyObject *member)
{
    if (take_out(self, member) == FAILED)
        return NULL;
    return reference_to(Py_None);
}

/* None if the member was removed, and else NULL with a KeyError. */
PyObject *removed(enum reading done, PyObject *member)
{
    /* A bare tuple would be taken for all arguments of the exception. */
    PyObject *arguments = done == NO_NUMBER ? PyTuple_Pack(1, member) : NULL;
    if (arguments)
        PyErr_SetObject(PyExc_KeyError, arguments);
    Py_XDECREF(arguments);
    return done == NUMBER ? none_if(true) : NULL;
}

PyObject *set_remove(PyObject *self, PyObject *member)
{
    return removed(take_out(self, member), member);
}
