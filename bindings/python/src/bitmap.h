/* The calls of Roaring bitmaps but for merges, of the kind that kind.h names. The file that includes this one has before:
 *
 *   min_of, max_of, next_of, previous_of, select_of     write a member, and return whether there is one
 *   rank_of, count_of, has_stretch                      read those from a first to a last number, or up to one
 *   put_stretch, take_stretch, flip_stretch             change these, and return whether they could
 *   count_kinds, bytes_of                               of a whole bitmap
 *   fault_of                                            what is wrong with bytes
 *
 * and the function of the kind that puts the items of an iterable in. */
#include "kind.h"

/* ---- Making and freeing. */

PyObject *OF(new)(PyTypeObject *type, PyObject *Py_UNUSED(positional), PyObject *Py_UNUSED(named))
{
    PyObject *made = blank(type);
    return made ? made_if(CALL(new)(&((object *)made)->bitmap), made) : NULL;
}

void OF(dealloc)(PyObject *self)
{
    PyTypeObject *type = Py_TYPE(self);
    if (((object *)self)->weak_references)
        PyObject_ClearWeakRefs(self);
    CALL(free)(OF(of)(self));
    ((freefunc)PyType_GetSlot(type, Py_tp_free))(self);
    Py_DECREF(type);
}

PyObject *OF(copy)(PyObject *self, PyObject *Py_UNUSED(none))
{
    PyObject *made = blank(Py_TYPE(self));
    return made ? made_if(CALL(clone)(&((object *)made)->bitmap, OF(of)(self)), made) : NULL;
}

/* Gives a bitmap the members of one that was made for it. */
static void becomes(PyObject *self, handle *made)
{
    CALL(free)(OF(of)(self));
    ((object *)self)->bitmap = made;
}

bool OF(merge)(PyObject *self, PyObject *other, OF(change) *call)
{
    if (self == other) {
        if (call == CALL(difference_with) || call == CALL(symmetric_difference_with))
            CALL(clear)(OF(of)(self));
        return true;
    }
    if (call(OF(of)(self), OF(of)(other)) >= 0)
        return true;
    PyErr_NoMemory();
    return false;
}

int OF(init)(PyObject *self, PyObject *arguments, PyObject *named)
{
    PyObject *members = NULL;
    static char *names[] = {"values", NULL};
    if (!PyArg_ParseTupleAndKeywords(arguments, named, "|O:" NAME, names, &members))
        return -1;
    if (members == self)
        return 0;
    CALL(clear)(OF(of)(self));
    return !members || OF(put_all)(self, members) ? 0 : -1;
}

/* A bitmap of the items of an iterable, of a type. */
static PyObject *made_of_type(PyTypeObject *type, PyObject *members)
{
    PyObject *made = OF(new)(type, NULL, NULL);
    if (made && !OF(put_all)(made, members))
        Py_CLEAR(made);
    return made;
}

/* The same, which is the iterable itself if it is a bitmap. A new reference. */
PyObject *OF(of_items)(PyObject *members)
{
    return IS(members) ? reference_to(members) : made_of_type(OF(type), members);
}

PyObject *OF(overwrite)(PyObject *self, PyObject *members)
{
    handle *made = NULL;
    PyObject *other = OF(of_items)(members);
    if (!other)
        return NULL;
    bool found_memory = CALL(clone)(&made, OF(of)(other));
    if (found_memory)
        becomes(self, made);
    Py_DECREF(other);
    return none_if(found_memory);
}

/* ---- Single numbers. */

int OF(contains)(PyObject *self, PyObject *member)
{
    size_t number;
    enum reading reading = READ_EQUAL(self, member, &number);
    return reading == NUMBER ? HAS(self, number) : (int)reading;
}

/* Inserts a number. NUMBER if it is new. */
static enum reading put_in(PyObject *self, PyObject *member)
{
    size_t number;
    if (!READ_MEMBER(member, &number))
        return FAILED;
    if (number > GREATEST) {
        PyErr_Format(PyExc_ValueError, "%R is no member of a Roaring bitmap", member);
        return FAILED;
    }
    int32_t answer = CALL(insert)(OF(of)(self), (number_held)number);
    if (answer < 0)
        PyErr_NoMemory();
    return (enum reading)answer;
}

PyObject *OF(add)(PyObject *self, PyObject *member)
{
    return put_in(self, member) == FAILED ? NULL : reference_to(Py_None);
}

PyObject *OF(add_checked)(PyObject *self, PyObject *member)
{
    return removed(put_in(self, member), member);
}

/* Removes a member. NUMBER if it was present. */
static enum reading take_from(PyObject *self, PyObject *member)
{
    size_t number;
    enum reading reading = READ_EQUAL(self, member, &number);
    if (reading != NUMBER || number > GREATEST)
        return reading == NUMBER ? NO_NUMBER : reading;
    int32_t answer = CALL(remove)(OF(of)(self), (number_held)number);
    if (answer < 0)
        PyErr_NoMemory();
    return (enum reading)answer;
}

PyObject *OF(discard)(PyObject *self, PyObject *member)
{
    return take_from(self, member) == FAILED ? NULL : none_if(true);
}

PyObject *OF(remove)(PyObject *self, PyObject *member)
{
    return removed(take_from(self, member), member);
}

/* ---- Ranges, by their first and last numbers. Those above the greatest are in no bitmap. */

/* Reads a range as `read_stretch` does, of which those are the numbers that may be members. */
static int read_numbers(PyObject *arguments, size_t *first, size_t *last, bool *is_within)
{
    int has_numbers = read_stretch(arguments, first, last, is_within);
    if (has_numbers <= 0 || *last <= GREATEST)
        return has_numbers;
    *is_within = false;
    *last = GREATEST;
    return *first <= GREATEST;
}

/* Changes the numbers of a range, all of which must be such that they may be members. */
static PyObject *change_range(PyObject *self, PyObject *arguments, bool (*change)(handle *, uint64_t, uint64_t))
{
    size_t first, last;
    bool is_within;
    int has_numbers = read_numbers(arguments, &first, &last, &is_within);
    if (has_numbers < 0)
        return NULL;
    if (!is_within) {
        PyErr_SetString(PyExc_ValueError, "a number of the range is no member of a Roaring bitmap");
        return NULL;
    }
    return none_if(!has_numbers || change(OF(of)(self), first, last));
}

PyObject *OF(add_range)(PyObject *self, PyObject *arguments)
{
    return change_range(self, arguments, put_stretch);
}

PyObject *OF(remove_range)(PyObject *self, PyObject *arguments)
{
    size_t first, last;
    bool is_within;
    int has_numbers = read_numbers(arguments, &first, &last, &is_within);
    return has_numbers < 0 ? NULL : none_if(!has_numbers || take_stretch(OF(of)(self), first, last));
}

PyObject *OF(contains_range)(PyObject *self, PyObject *arguments)
{
    size_t first, last;
    bool is_within;
    int has_numbers = read_numbers(arguments, &first, &last, &is_within);
    if (has_numbers < 0)
        return NULL;
    return PyBool_FromLong(is_within && (!has_numbers || has_stretch(OF(of)(self), first, last)));
}

PyObject *OF(range_cardinality)(PyObject *self, PyObject *arguments)
{
    size_t first, last;
    bool is_within;
    int has_numbers = read_numbers(arguments, &first, &last, &is_within);
    return has_numbers < 0 ? NULL : PyLong_FromUnsignedLongLong(has_numbers ? count_of(OF(of)(self), first, last) : 0);
}

PyObject *OF(clamp)(PyObject *self, PyObject *arguments)
{
    size_t first, last;
    bool is_within;
    int has_numbers = read_numbers(arguments, &first, &last, &is_within);
    PyObject *made = has_numbers < 0 ? NULL : has_numbers ? OF(copy)(self, NULL) : OF(new)(Py_TYPE(self), NULL, NULL);
    if (!made || !has_numbers)
        return made;
    bool is_done = (!first || take_stretch(OF(of)(made), 0, first - 1))
        && (last == GREATEST || take_stretch(OF(of)(made), last + 1, GREATEST));
    return made_if(is_done, made);
}

PyObject *OF(flip_inplace)(PyObject *self, PyObject *arguments)
{
    return change_range(self, arguments, flip_stretch);
}

PyObject *OF(flip)(PyObject *self, PyObject *arguments)
{
    PyObject *made = OF(copy)(self, NULL), *done = made ? OF(flip_inplace)(made, arguments) : NULL;
    if (!done)
        Py_CLEAR(made);
    Py_XDECREF(done);
    return made;
}

/* ---- Ends and searches. */

static PyObject *found_or_none(bool is_found, uint64_t member)
{
    return is_found ? PyLong_FromUnsignedLongLong(member) : reference_to(Py_None);
}

static PyObject *found_or_error(bool is_found, uint64_t member, PyObject *error, const char *text)
{
    if (is_found)
        return PyLong_FromUnsignedLongLong(member);
    PyErr_SetString(error, text);
    return NULL;
}

PyObject *OF(min)(PyObject *self, PyObject *Py_UNUSED(none))
{
    uint64_t member = 0;
    bool is_found = min_of(OF(of)(self), &member);
    return found_or_error(is_found, member, PyExc_ValueError, "the bitmap has no member");
}

PyObject *OF(max)(PyObject *self, PyObject *Py_UNUSED(none))
{
    uint64_t member = 0;
    bool is_found = max_of(OF(of)(self), &member);
    return found_or_error(is_found, member, PyExc_ValueError, "the bitmap has no member");
}

PyObject *OF(pop)(PyObject *self, PyObject *Py_UNUSED(none))
{
    uint64_t member = 0;
    bool is_found = min_of(OF(of)(self), &member);
    if (is_found && CALL(remove)(OF(of)(self), (number_held)member) < 0)
        return PyErr_NoMemory();
    return found_or_error(is_found, member, PyExc_KeyError, "pop from an empty Roaring bitmap");
}

PyObject *OF(next)(PyObject *self, PyObject *from)
{
    size_t bound;
    int outside = 0;
    uint64_t member = 0;
    if (!read_bound(from, &bound, &outside))
        return NULL;
    bool is_found = outside <= 0 && next_of(OF(of)(self), bound, &member);
    return found_or_none(is_found, member);
}

PyObject *OF(next_set_bit)(PyObject *self, PyObject *from)
{
    PyObject *member = OF(next)(self, from);
    if (member != Py_None)
        return member;
    Py_DECREF(member);
    PyErr_SetString(PyExc_ValueError, "no member is at or above that number");
    return NULL;
}

PyObject *OF(iter_equal_or_larger)(PyObject *self, PyObject *from)
{
    size_t bound;
    int outside = 0;
    return read_bound(from, &bound, &outside) ? walk_from(self, bound, outside > 0) : NULL;
}

PyObject *OF(previous)(PyObject *self, PyObject *end)
{
    size_t bound;
    int outside = 0;
    uint64_t member = 0;
    if (!read_bound(end, &bound, &outside))
        return NULL;
    uint64_t last = outside > 0 ? UINT64_MAX : bound - 1;
    bool is_found = (outside > 0 || bound > 0) && previous_of(OF(of)(self), last, &member);
    return found_or_none(is_found, member);
}

PyObject *OF(rank)(PyObject *self, PyObject *value)
{
    size_t bound;
    int outside = 0;
    if (!read_bound(value, &bound, &outside))
        return NULL;
    if (outside < 0)
        return PyLong_FromLong(0);
    return PyLong_FromUnsignedLongLong(CALL(rank)(OF(of)(self), outside || bound > GREATEST ? GREATEST : (number_held)bound));
}

/* The bitmap of those members that a slice of them in ascending order has. */
static PyObject *part_of(PyObject *self, PyObject *slice)
{
    PyObject *array = OF(to_array)(self, NULL), *part = array ? PyObject_GetItem(array, slice) : NULL;
    PyObject *made = part ? made_of_type(Py_TYPE(self), part) : NULL;
    Py_XDECREF(array);
    Py_XDECREF(part);
    return made;
}

/* The member with this many others below it, or from the back for a number below 0, as the item of a list. */
PyObject *OF(subscript)(PyObject *self, PyObject *index)
{
    uint64_t member = 0;
    if (PySlice_Check(index))
        return part_of(self, index);
    long long place = PyLong_AsLongLong(index);
    Py_ssize_t size = OF(length)(self);
    if (size < 0 || (place == -1 && PyErr_Occurred()))
        return NULL;
    place += place < 0 ? size : 0;
    bool is_found = place >= 0 && place < size && select_of(OF(of)(self), (uint64_t)place, &member);
    return found_or_error(is_found, member, PyExc_IndexError, "the index is out of range");
}

/* ---- A whole bitmap. */

Py_ssize_t OF(length)(PyObject *self)
{
    uint64_t length = CALL(len)(OF(of)(self));
    if (length <= PY_SSIZE_T_MAX)
        return (Py_ssize_t)length;
    PyErr_SetString(PyExc_OverflowError, "the bitmap has too many members for len");
    return -1;
}

int OF(bool)(PyObject *self)
{
    return !CALL(is_empty)(OF(of)(self));
}

PyObject *OF(clear)(PyObject *self, PyObject *Py_UNUSED(none))
{
    CALL(clear)(OF(of)(self));
    return none_if(true);
}

static PyObject *truth_of(int32_t answer)
{
    return answer < 0 ? PyErr_NoMemory() : PyBool_FromLong(answer);
}

PyObject *OF(run_optimize)(PyObject *self, PyObject *Py_UNUSED(none))
{
    return truth_of(CALL(optimize)(OF(of)(self)));
}

PyObject *OF(remove_runs)(PyObject *self, PyObject *Py_UNUSED(none))
{
    return truth_of(CALL(remove_runs)(OF(of)(self)));
}

PyObject *OF(shrink_to_fit)(PyObject *self, PyObject *Py_UNUSED(none))
{
    CALL(shrink_to_fit)(OF(of)(self));
    return none_if(true);
}

/* The members as an array of numbers as long as those of the kind, which NumPy reads without a copy. */
PyObject *OF(to_array)(PyObject *self, PyObject *Py_UNUSED(none))
{
    void *place;
    Py_ssize_t length, count;
    PyObject *array = NULL;
    /* Making the array may run code that changes the bitmap. */
    do {
        Py_XDECREF(array);
        count = OF(length)(self);
        array = count < 0 ? NULL : zeros(ARRAY_KIND, count);
    } while (array && OF(length)(self) != count);
    if (array && PyObject_AsWriteBuffer(array, &place, &length))
        Py_CLEAR(array);
    if (array)
        CALL(copy_members)(OF(of)(self), 0, place, (size_t)length / sizeof(number_held));
    return array;
}

PyObject *OF(get_statistics)(PyObject *self, PyObject *Py_UNUSED(none))
{
    bit_roaring_kinds all = {{0, 0, 0}, {0, 0, 0}, {0, 0, 0}};
    if (!count_kinds(OF(of)(self), &all))
        return PyErr_NoMemory();
    return Py_BuildValue("{sksksksksKsKsKsKsKsKsK}",
        "n_containers", (unsigned long)all.lists.containers + all.blocks.containers + all.runs.containers,
        "n_array_containers", (unsigned long)all.lists.containers, "n_bitset_containers", (unsigned long)all.blocks.containers,
        "n_run_containers", (unsigned long)all.runs.containers,
        "n_values_array_containers", all.lists.members, "n_values_bitset_containers", all.blocks.members,
        "n_values_run_containers", all.runs.members, "n_bytes_array_containers", all.lists.bytes,
        "n_bytes_bitset_containers", all.blocks.bytes, "n_bytes_run_containers", all.runs.bytes,
        "cardinality", CALL(len)(OF(of)(self)));
}

/* ---- Bytes. */

PyObject *OF(serialize)(PyObject *self, PyObject *Py_UNUSED(none))
{
    return bytes_of(OF(of)(self));
}

static PyObject *put_bytes(PyObject *self, PyObject *bytes)
{
    const void *start;
    Py_ssize_t length;
    size_t used;
    handle *made = NULL;
    PyObject *view = PyMemoryView_FromObject(bytes);
    if (!view || PyObject_AsReadBuffer(view, &start, &length)) {
        Py_XDECREF(view);
        return NULL;
    }
    /* A buffer of no bytes may have no address, but the library requires one. */
    int32_t answer = CALL(deserialize)(&made, start ? start : "", (size_t)length, &used);
    Py_DECREF(view);
    if (answer == BIT_ROARING_YES) {
        becomes(self, made);
        return none_if(true);
    }
    if (answer == BIT_ROARING_NO_MEMORY)
        return PyErr_NoMemory();
    PyErr_SetString(PyExc_ValueError, fault_of(answer));
    return NULL;
}

PyObject *OF(deserialize)(PyObject *type, PyObject *bytes)
{
    return made_by(type, bytes, put_bytes);
}

/* A pickle has the portable bytes. */
PyObject *OF(reduce)(PyObject *self, PyObject *Py_UNUSED(none))
{
    PyObject *call = PyObject_GetAttrString((PyObject *)Py_TYPE(self), "deserialize");
    PyObject *bytes = call ? OF(serialize)(self, NULL) : NULL, *state = bytes ? state_of(self) : NULL;
    if (state)
        return Py_BuildValue("N(N)N", call, bytes, state);
    Py_XDECREF(call);
    Py_XDECREF(bytes);
    return NULL;
}
