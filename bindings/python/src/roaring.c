/* Roaring bitmaps: sets of numbers below 2^32 that stay small if their members are few and far apart. */
#include "kind.h"

#define PAST ((size_t)1 << 32)

/* ---- What the calls of both kinds do by those of the library. */

static bool found(uint64_t answer, uint64_t *member)
{
    if (answer != BIT_ROARING_NONE)
        *member = answer;
    return answer != BIT_ROARING_NONE;
}

static bool min_of(const bit_roaring *bitmap, uint64_t *member)
{
    return found(bit_roaring_min(bitmap), member);
}

static bool max_of(const bit_roaring *bitmap, uint64_t *member)
{
    return found(bit_roaring_max(bitmap), member);
}

static bool next_of(const bit_roaring *bitmap, uint64_t from, uint64_t *member)
{
    return found(bit_roaring_next(bitmap, from), member);
}

static bool previous_of(const bit_roaring *bitmap, uint64_t last, uint64_t *member)
{
    return found(bit_roaring_previous(bitmap, last < PAST ? last + 1 : PAST), member);
}

static bool select_of(const bit_roaring *bitmap, uint64_t place, uint64_t *member)
{
    return found(bit_roaring_select(bitmap, (uint32_t)place), member);
}

static uint64_t count_of(const bit_roaring *bitmap, uint64_t first, uint64_t last)
{
    return bit_roaring_range_cardinality(bitmap, first, last + 1);
}

static bool has_stretch(const bit_roaring *bitmap, uint64_t first, uint64_t last)
{
    return bit_roaring_contains_range(bitmap, first, last + 1);
}

static bool put_stretch(bit_roaring *bitmap, uint64_t first, uint64_t last)
{
    return bit_roaring_insert_range(bitmap, first, last + 1) >= 0;
}

static bool take_stretch(bit_roaring *bitmap, uint64_t first, uint64_t last)
{
    return bit_roaring_remove_range(bitmap, first, last + 1) >= 0;
}

static bool flip_stretch(bit_roaring *bitmap, uint64_t first, uint64_t last)
{
    return bit_roaring_flip(bitmap, first, last + 1);
}

static bool count_kinds(const bit_roaring *bitmap, bit_roaring_kinds *all)
{
    bit_roaring_statistics(bitmap, all);
    return true;
}

static PyObject *bytes_of(const bit_roaring *bitmap)
{
    size_t size = bit_roaring_serialized_size(bitmap);
    PyObject *bytes = PyBytes_FromStringAndSize(NULL, (Py_ssize_t)size);
    if (!bytes)
        return NULL;
    return made_if(bit_roaring_serialize(bitmap, (uint8_t *)PyBytes_AsString(bytes), size) == BIT_ROARING_YES, bytes);
}

/* What is wrong with the bytes, from BIT_ROARING_SHORT down. */
static const char *fault_of(int32_t answer)
{
    static const char *const faults[] = {
        "the bytes end too early", "the first bytes are not those of a bitmap", "there are too many containers",
        "the keys do not ascend", "a container is elsewhere", "a count is not that of its members",
        "the numbers of a list do not ascend", "the runs of a container are not apart",
    };
    return faults[BIT_ROARING_SHORT - answer];
}

#include "bitmap.h"

/* ---- What bitmaps of 32-bit numbers have alone. */

/* The bitmap of a bit set. NULL with an exception if it has none. */
static bit_roaring *from_bits(PyObject *bits)
{
    bit_roaring *made = NULL;
    int32_t answer = bit_set_to_roaring(&made, set_of(bits));
    if (answer == BIT_SET_NO_ELEMENT)
        PyErr_SetString(PyExc_ValueError, "a member of the bit set is above 4294967295");
    else if (answer < 0)
        PyErr_NoMemory();
    return made;
}

/* Inserts numbers up to the first that cannot be inserted, and returns how many were. Those that ascend past the members go
 * in at the end. */
size_t put_in_bitmap(PyObject *self, const size_t *group, size_t count)
{
    uint32_t members[GROUP];
    size_t fit = 0, done = 0;
    for (; fit < count && group[fit] < PAST; fit++)
        members[fit] = (uint32_t)group[fit];
    if (bit_roaring_append_members(bitmap_of(self), members, fit, &done) != BIT_ROARING_NOT_SORTED)
        return done;
    return done + bit_roaring_insert_members(bitmap_of(self), members + done, fit - done);
}

/* Inserts the items of an iterable. Those before one that cannot be inserted are inserted. */
bool bitmap_put_all(PyObject *self, PyObject *members)
{
    if (is_bitmap(members))
        return bitmap_merge(self, members, bit_roaring_union_with);
    if (!is_bit_set(members))
        return put_each(self, members);
    bit_roaring *made = from_bits(members);
    bool found = made && bit_roaring_union_with(bitmap_of(self), made) >= 0;
    bit_roaring_free(made);
    if (made && !found)
        PyErr_NoMemory();
    return found;
}

/* The bitmap of each member plus a number, but for those that would be no members. */
PyObject *bitmap_shift(PyObject *self, PyObject *offset)
{
    int outside;
    PyObject *index = PyNumber_Index(offset);
    if (!index)
        return NULL;
    int64_t distance = PyLong_AsLongLongAndOverflow(index, &outside);
    Py_DECREF(index);
    if (outside)
        distance = outside > 0 ? INT64_MAX : INT64_MIN;
    PyObject *made = blank(Py_TYPE(self));
    return made ? made_if(bit_roaring_add_offset(&((Bitmap *)made)->bitmap, bitmap_of(self), distance), made) : NULL;
}

PyObject *bitmap_repr(PyObject *self)
{
    PyObject *text = NULL, *name = type_name(self), *list = PySequence_List(self);
    if (name && list)
        text = PyUnicode_FromFormat("%S(%R)", name, list);
    Py_XDECREF(name);
    Py_XDECREF(list);
    return text;
}
