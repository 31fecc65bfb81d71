/* Roaring bitmaps of numbers below 2^64. Each number may be a member, so numbers are read here with all 64 bits. */
#define WIDE
#include "kind.h"

/* Python's hash of an int that is not below 0 is its remainder by this, where a hash has 64 bits. */
#define MODULUS (((uint64_t)1 << 61) - 1)

/* ---- Numbers. Only FAILED leaves an exception set. */

static enum reading read_wide_int(PyObject *object, size_t *number)
{
    *number = PyLong_AsUnsignedLongLong(object);
    if (*number != UINT64_MAX || !PyErr_Occurred())
        return NUMBER;
    PyErr_Clear();
    return NO_NUMBER;
}

static enum reading read_wide(PyObject *object, size_t *number)
{
    if (PyLong_Check(object))
        return read_wide_int(object, number);
    if (!PyIndex_Check(object))
        return NO_NUMBER;
    PyObject *index = PyNumber_Index(object);
    if (!index)
        return FAILED;
    enum reading reading = read_wide_int(index, number);
    Py_DECREF(index);
    return reading;
}

/* Reads a number, with an exception if there is none. */
bool read_wide_member(PyObject *object, size_t *number)
{
    enum reading reading = read_wide(object, number);
    if (reading == NO_NUMBER && PyIndex_Check(object))
        PyErr_Format(PyExc_ValueError, "%R is no member of a Roaring bitmap", object);
    else if (reading == NO_NUMBER)
        PyErr_SetString(PyExc_TypeError, "a member of a Roaring bitmap is an int");
    return reading == NUMBER;
}

/* Reads the number that an object equals, as for a bit set: an object that is no index is compared with each member of its
 * hash. */
enum reading read_wide_equal(PyObject *self, PyObject *object, size_t *number)
{
    if (PyIndex_Check(object))
        return read_wide(object, number);
    Py_hash_t hash = PyObject_Hash(object);
    if (hash < 0)
        return hash == -1 ? FAILED : NO_NUMBER;
    int is_equal = 0;
    uint64_t left = (UINT64_MAX - (uint64_t)hash) / MODULUS;
    for (*number = (uint64_t)hash;; *number += MODULUS, left--) {
        if (bit_roaring64_contains(wide_of(self), *number)) {
            PyObject *member = PyLong_FromUnsignedLongLong(*number);
            is_equal = member ? PyObject_RichCompareBool(object, member, Py_EQ) : -1;
            Py_XDECREF(member);
        }
        if (is_equal || !left)
            return (enum reading)is_equal;
    }
}

/* ---- What the calls of both kinds do by those of the library. Its ranges lack the greatest number. */

#define min_of bit_roaring64_min
#define max_of bit_roaring64_max
#define next_of bit_roaring64_next
#define previous_of bit_roaring64_previous
#define select_of bit_roaring64_select

/* One past a number, or that number if it is the greatest. */
static uint64_t past(uint64_t last)
{
    return last < UINT64_MAX ? last + 1 : last;
}

static bool has_greatest(const bit_roaring64 *bitmap, uint64_t last)
{
    return last == UINT64_MAX && bit_roaring64_contains(bitmap, last);
}

static uint64_t count_of(const bit_roaring64 *bitmap, uint64_t first, uint64_t last)
{
    return bit_roaring64_range_cardinality(bitmap, first, past(last)) + has_greatest(bitmap, last);
}

static bool has_stretch(const bit_roaring64 *bitmap, uint64_t first, uint64_t last)
{
    return (last < UINT64_MAX || has_greatest(bitmap, last)) && bit_roaring64_contains_range(bitmap, first, past(last));
}

static bool put_stretch(bit_roaring64 *bitmap, uint64_t first, uint64_t last)
{
    return bit_roaring64_insert_range(bitmap, first, past(last))
        && (last < UINT64_MAX || bit_roaring64_insert(bitmap, last) >= 0);
}

static bool take_stretch(bit_roaring64 *bitmap, uint64_t first, uint64_t last)
{
    return bit_roaring64_remove_range(bitmap, first, past(last))
        && (last < UINT64_MAX || bit_roaring64_remove(bitmap, last) >= 0);
}

/* With the greatest number the others are merged in one call, so that nothing changes if memory runs out. */
static bool flip_stretch(bit_roaring64 *bitmap, uint64_t first, uint64_t last)
{
    if (last < UINT64_MAX)
        return bit_roaring64_flip(bitmap, first, last + 1);
    bit_roaring64 *numbers = NULL;
    bool is_done = bit_roaring64_new(&numbers) && put_stretch(numbers, first, last)
        && bit_roaring64_symmetric_difference_with(bitmap, numbers) >= 0;
    bit_roaring64_free(numbers);
    return is_done;
}

static PyObject *bytes_of(const bit_roaring64 *bitmap)
{
    size_t size = bit_roaring64_serialized_size(bitmap);
    PyObject *bytes = PyBytes_FromStringAndSize(NULL, (Py_ssize_t)size);
    if (!bytes)
        return NULL;
    uint8_t *place = (uint8_t *)PyBytes_AsString(bytes);
    return made_if(bit_roaring64_serialize(bitmap, place, size, &size) == BIT_ROARING_YES, bytes);
}

static void add_kind(bit_roaring_kind *all, const bit_roaring_kind *more)
{
    all->containers += more->containers;
    all->members += more->members;
    all->bytes += more->bytes;
}

/* Adds the containers of the bitmap that bytes begin with, and returns how many these are, or 0 if memory runs out. */
static size_t add_kinds(const uint8_t *bytes, size_t count, bit_roaring_kinds *all)
{
    size_t used = 0;
    bit_roaring *bitmap = NULL;
    bit_roaring_kinds more;
    if (bit_roaring_deserialize(&bitmap, bytes, count, &used) != BIT_ROARING_YES)
        return 0;
    bit_roaring_statistics(bitmap, &more);
    bit_roaring_free(bitmap);
    add_kind(&all->lists, &more.lists);
    add_kind(&all->blocks, &more.blocks);
    add_kind(&all->runs, &more.runs);
    return used;
}

/* The bytes have 8 for the number of bitmaps, and before each bitmap 4 for its key. */
static bool count_kinds(const bit_roaring64 *bitmap, bit_roaring_kinds *all)
{
    PyObject *bytes = bytes_of(bitmap);
    size_t size = bytes ? (size_t)PyBytes_Size(bytes) : 0, at = 8, used = bytes ? 1 : 0;
    for (; used && at < size; at += 4 + used)
        used = add_kinds((const uint8_t *)PyBytes_AsString(bytes) + at + 4, size - at - 4, all);
    Py_XDECREF(bytes);
    return used;
}

static const char *fault_of(int32_t answer)
{
    switch (answer) {
    case BIT_ROARING64_SHORT:
    case BIT_ROARING_SHORT: return "the bytes end too early";
    case BIT_ROARING64_BAD_KEYS: return "the keys of the bitmaps do not ascend";
    case BIT_ROARING64_EMPTY_BITMAP: return "a bitmap has no members";
    default: return "the bytes of a bitmap are not those of one";
    }
}

#include "bitmap.h"

/* Inserts the items of an iterable. Those before one that cannot be inserted are inserted. */
bool wide_put_all(PyObject *self, PyObject *members)
{
    if (is_wide(members))
        return wide_merge(self, members, bit_roaring64_union_with);
    return is_bit_set(members) || is_bitmap(members) ? put_walk(self, members) : put_each(self, members);
}
