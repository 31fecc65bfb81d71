/* Matrices of bits. Rows and columns are checked first, since the library's calls require them to be in bounds. */
#include "set.h"

static bit_matrix *matrix_of(PyObject *object)
{
    return ((BitMatrix *)object)->matrix;
}

static bool is_matrix(PyObject *object)
{
    return PyObject_TypeCheck(object, matrix_type);
}

/* Reads a number below `count`, of rows or of columns; an IndexError if it is out of bounds. */
static bool read_place(PyObject *object, size_t count, const char *what, size_t *place)
{
    int outside;
    if (!read_bound(object, place, &outside))
        return false;
    if (!outside && *place < count)
        return true;
    PyErr_Format(PyExc_IndexError, "there is no %s %R", what, object);
    return false;
}

static bool read_row(PyObject *self, PyObject *object, size_t *row)
{
    return read_place(object, bit_matrix_rows(matrix_of(self)), "row", row);
}

static bool read_column(PyObject *self, PyObject *object, size_t *column)
{
    return read_place(object, bit_matrix_columns(matrix_of(self)), "column", column);
}

/* Reads the two arguments of a call as a row and a column, or as two rows. */
static bool read_cell(PyObject *self, PyObject *arguments, size_t *row, size_t *column)
{
    PyObject *first, *second;
    return PyArg_ParseTuple(arguments, "OO", &first, &second) && read_row(self, first, row)
        && read_column(self, second, column);
}

static bool read_rows(PyObject *self, PyObject *arguments, size_t *first, size_t *second)
{
    PyObject *one, *other;
    return PyArg_ParseTuple(arguments, "OO", &one, &other) && read_row(self, one, first) && read_row(self, other, second);
}

/* Reads how many rows or columns a matrix is to have. */
static bool read_count(PyObject *object, size_t *count)
{
    int outside;
    if (!read_bound(object, count, &outside))
        return false;
    if (outside < 0)
        PyErr_SetString(PyExc_ValueError, "a number of rows or columns is not below 0");
    else if (outside > 0)
        PyErr_NoMemory();
    return !outside;
}

PyObject *matrix_new(PyTypeObject *type, PyObject *arguments, PyObject *named)
{
    PyObject *rows_object, *columns_object;
    size_t rows, columns;
    static char *names[] = {"rows", "columns", NULL};
    if (!PyArg_ParseTupleAndKeywords(arguments, named, "OO:BitMatrix", names, &rows_object, &columns_object)
        || !read_count(rows_object, &rows) || !read_count(columns_object, &columns))
        return NULL;
    PyObject *made = blank(type);
    return made ? made_if(bit_matrix_new(&((BitMatrix *)made)->matrix, rows, columns), made) : NULL;
}

/* Whether a derived class made a matrix of these rows and columns, which it may fail to do, and did not insert greater
 * members into the set meanwhile. */
static bool is_as_asked(PyObject *made, bit_set *row, size_t rows, size_t columns)
{
    if (!is_matrix(made))
        PyErr_SetString(PyExc_TypeError, "the class makes no bit matrix");
    else if (bit_matrix_rows(matrix_of(made)) != rows || bit_matrix_columns(matrix_of(made)) != columns
             || (!bit_set_is_empty(row) && bit_set_last(row) >= columns))
        PyErr_SetString(PyExc_ValueError, "the class makes a matrix of other rows or columns");
    else
        return true;
    return false;
}

/* The same for a derived class, which makes a matrix by its own call. */
static PyObject *from_row_by(PyObject *type, bit_set *row, size_t rows)
{
    size_t columns = bit_set_length(row);
    PyObject *made = PyObject_CallFunction(type, "NN", PyLong_FromSize_t(rows), PyLong_FromSize_t(columns));
    if (made && !is_as_asked(made, row, rows, columns))
        Py_CLEAR(made);
    for (size_t at = 0; made && at < rows; at++)
        bit_matrix_union_row_with(matrix_of(made), row, at);
    return made;
}

PyObject *matrix_from_row(PyObject *type, PyObject *arguments)
{
    PyObject *members, *rows_object;
    size_t rows;
    if (!PyArg_ParseTuple(arguments, "OO", &members, &rows_object) || !read_count(rows_object, &rows))
        return NULL;
    PyObject *row = as_bit_set(members);
    if (!row)
        return NULL;
    bool is_own = type == (PyObject *)matrix_type;
    PyObject *made = is_own ? blank(matrix_type) : from_row_by(type, set_of(row), rows);
    if (made && is_own)
        made = made_if(bit_matrix_from_set(&((BitMatrix *)made)->matrix, set_of(row), rows), made);
    Py_DECREF(row);
    return made;
}

void matrix_dealloc(PyObject *self)
{
    PyTypeObject *type = Py_TYPE(self);
    if (((BitMatrix *)self)->weak_references)
        PyObject_ClearWeakRefs(self);
    bit_matrix_free(matrix_of(self));
    ((freefunc)PyType_GetSlot(type, Py_tp_free))(self);
    Py_DECREF(type);
}

static PyObject *made_of(PyObject *self, bool (*call)(bit_matrix **, const bit_matrix *))
{
    PyObject *made = blank(Py_TYPE(self));
    return made ? made_if(call(&((BitMatrix *)made)->matrix, matrix_of(self)), made) : NULL;
}

PyObject *matrix_copy(PyObject *self, PyObject *Py_UNUSED(none))
{
    return made_of(self, bit_matrix_clone);
}

PyObject *matrix_transpose(PyObject *self, PyObject *Py_UNUSED(none))
{
    return made_of(self, bit_matrix_transpose);
}

PyObject *matrix_dominators(PyObject *self, PyObject *entry_object)
{
    size_t entry;
    if (!read_row(self, entry_object, &entry))
        return NULL;
    PyObject *made = blank(Py_TYPE(self));
    return made ? made_if(bit_matrix_dominators(&((BitMatrix *)made)->matrix, matrix_of(self), entry), made) : NULL;
}

PyObject *matrix_transitive_closure(PyObject *self, PyObject *Py_UNUSED(none))
{
    bit_matrix_transitive_closure(matrix_of(self));
    return reference_to(Py_None);
}

PyObject *matrix_reflexive_transitive_closure(PyObject *self, PyObject *Py_UNUSED(none))
{
    bit_matrix_reflexive_transitive_closure(matrix_of(self));
    return reference_to(Py_None);
}

PyObject *matrix_rows(PyObject *self, void *Py_UNUSED(closure))
{
    return PyLong_FromSize_t(bit_matrix_rows(matrix_of(self)));
}

PyObject *matrix_columns(PyObject *self, void *Py_UNUSED(closure))
{
    return PyLong_FromSize_t(bit_matrix_columns(matrix_of(self)));
}

/* Whether the column of a pair is in its row. Any other object is not. */
int matrix_contains(PyObject *self, PyObject *pair)
{
    size_t row, column;
    if (!PyTuple_Check(pair) || PyTuple_Size(pair) != 2)
        return 0;
    enum reading reading = read_number(PyTuple_GetItem(pair, 0), &row);
    if (reading == NUMBER)
        reading = read_number(PyTuple_GetItem(pair, 1), &column);
    if (reading != NUMBER)
        return (int)reading;
    return row < bit_matrix_rows(matrix_of(self)) && column < bit_matrix_columns(matrix_of(self))
        && bit_matrix_contains(matrix_of(self), row, column);
}

/* Makes a call on a row and a column, or on two rows, that `read` reads from the arguments. Returns its truth value. */
#define PAIR_METHOD(name, read, call)                                          \
    PyObject *matrix_##name(PyObject *self, PyObject *arguments)               \
    {                                                                          \
        size_t first, second;                                                  \
        if (!read(self, arguments, &first, &second))                           \
            return NULL;                                                       \
        return PyBool_FromLong(call(matrix_of(self), first, second));          \
    }
PAIR_METHOD(add, read_cell, bit_matrix_insert)
PAIR_METHOD(discard, read_cell, bit_matrix_remove)
PAIR_METHOD(union_rows, read_rows, bit_matrix_union_rows)
PAIR_METHOD(intersect_rows, read_rows, bit_matrix_intersect_rows)
PAIR_METHOD(difference_rows, read_rows, bit_matrix_difference_rows)
PAIR_METHOD(is_subset_row, read_rows, bit_matrix_is_subset_row)
PAIR_METHOD(is_disjoint_row, read_rows, bit_matrix_is_disjoint_row)

PyObject *matrix_count(PyObject *self, PyObject *row_object)
{
    size_t row;
    return read_row(self, row_object, &row) ? PyLong_FromSize_t(bit_matrix_count(matrix_of(self), row)) : NULL;
}

PyObject *matrix_count_all(PyObject *self, PyObject *Py_UNUSED(none))
{
    return PyLong_FromSize_t(bit_matrix_count_all(matrix_of(self)));
}

PyObject *matrix_row(PyObject *self, PyObject *row_object)
{
    size_t row;
    if (!read_row(self, row_object, &row))
        return NULL;
    PyObject *made = blank(bit_set_type);
    return made ? made_if(bit_matrix_row_to_set(&((BitSet *)made)->set, matrix_of(self), row), made) : NULL;
}

/* Whether each member of a set is a column; an IndexError if one is not. */
static bool are_columns(PyObject *self, PyObject *set)
{
    size_t last = bit_set_last(set_of(set));
    if (last == NO_MEMBER || last < bit_matrix_columns(matrix_of(self)))
        return true;
    PyErr_Format(PyExc_IndexError, "there is no column %zu", last);
    return false;
}

PyObject *matrix_union_row_with(PyObject *self, PyObject *arguments)
{
    PyObject *members, *row_object;
    size_t row;
    if (!PyArg_ParseTuple(arguments, "OO", &members, &row_object))
        return NULL;
    PyObject *set = as_bit_set(members), *changed = NULL;
    if (set && read_row(self, row_object, &row) && are_columns(self, set))
        changed = PyBool_FromLong(bit_matrix_union_row_with(matrix_of(self), set_of(set), row));
    Py_XDECREF(set);
    return changed;
}

PyObject *matrix_add_range(PyObject *self, PyObject *arguments)
{
    PyObject *row_object, *start_object, *stop_object;
    size_t row, start, stop;
    bool is_within;
    if (!PyArg_ParseTuple(arguments, "OOO", &row_object, &start_object, &stop_object)
        || !read_row(self, row_object, &row))
        return NULL;
    int has_numbers = read_bounds(start_object, stop_object, &start, &stop, &is_within);
    if (has_numbers < 0)
        return NULL;
    if (has_numbers && (!is_within || stop > bit_matrix_columns(matrix_of(self)))) {
        PyErr_SetString(PyExc_IndexError, "a number of the range is no column");
        return NULL;
    }
    if (has_numbers)
        bit_matrix_insert_range(matrix_of(self), row, start, stop);
    return reference_to(Py_None);
}

static PyObject *change_row(PyObject *self, PyObject *row_object, void (*call)(bit_matrix *, size_t))
{
    size_t row;
    if (!read_row(self, row_object, &row))
        return NULL;
    call(matrix_of(self), row);
    return reference_to(Py_None);
}

PyObject *matrix_fill_row(PyObject *self, PyObject *row_object)
{
    return change_row(self, row_object, bit_matrix_fill_row);
}

PyObject *matrix_clear_row(PyObject *self, PyObject *row_object)
{
    return change_row(self, row_object, bit_matrix_clear_row);
}

PyObject *matrix_compare(PyObject *self, PyObject *other, int operation)
{
    if (!is_matrix(other) || (operation != Py_EQ && operation != Py_NE))
        return reference_to(Py_NotImplemented);
    bool are_equal = bit_matrix_equals(matrix_of(self), matrix_of(other));
    return PyBool_FromLong(are_equal == (operation == Py_EQ));
}

/* The rows as a list of sets, or NULL. */
static PyObject *list_of_rows(PyObject *self)
{
    size_t count = bit_matrix_rows(matrix_of(self));
    PyObject *rows = PyList_New(0);
    for (size_t row = 0; rows && row < count; row++) {
        PyObject *number = PyLong_FromSize_t(row);
        PyObject *set = number ? matrix_row(self, number) : NULL;
        Py_XDECREF(number);
        if (!set || PyList_Append(rows, set))
            Py_CLEAR(rows);
        Py_XDECREF(set);
    }
    return rows;
}

PyObject *matrix_repr(PyObject *self)
{
    size_t rows = bit_matrix_rows(matrix_of(self)), columns = bit_matrix_columns(matrix_of(self));
    PyObject *name = type_name(self);
    PyObject *text = name ? PyUnicode_FromFormat("<%S of %zu rows and %zu columns>", name, rows, columns) : NULL;
    Py_XDECREF(name);
    return text;
}

PyObject *matrix_reduce(PyObject *self, PyObject *Py_UNUSED(none))
{
    PyObject *rows = list_of_rows(self), *state = rows ? state_of(self) : NULL;
    if (!state) {
        Py_XDECREF(rows);
        return NULL;
    }
    /* If there are no attributes, the state is only the rows. */
    const char *form = state == Py_None ? "O(NN)N" : "O(NN)(NN)";
    if (state == Py_None)
        Py_DECREF(state);
    return Py_BuildValue(form, (PyObject *)Py_TYPE(self), matrix_rows(self, NULL), matrix_columns(self, NULL), rows, state);
}

/* Restores the rows from `__reduce__`, and the attributes if there are any. */
PyObject *matrix_setstate(PyObject *self, PyObject *state)
{
    bool has_attributes = PyTuple_Check(state) && PyTuple_Size(state) == 2;
    PyObject *rows = has_attributes ? PyTuple_GetItem(state, 0) : state;
    if (!PyList_Check(rows)) {
        PyErr_SetString(PyExc_TypeError, "the state of a matrix is a list of its rows");
        return NULL;
    }
    for (Py_ssize_t at = 0; at < PyList_Size(rows); at++) {
        PyObject *arguments = Py_BuildValue("On", PyList_GetItem(rows, at), at);
        PyObject *changed = arguments ? matrix_union_row_with(self, arguments) : NULL;
        Py_XDECREF(arguments);
        if (!changed)
            return NULL;
        Py_DECREF(changed);
    }
    if (has_attributes && !put_attributes(self, PyTuple_GetItem(state, 1)))
        return NULL;
    return reference_to(Py_None);
}

PyObject *matrix_sizeof(PyObject *self, PyObject *Py_UNUSED(none))
{
    size_t bits = 8 * sizeof(bit_set_block), columns = bit_matrix_columns(matrix_of(self));
    size_t blocks = bit_matrix_rows(matrix_of(self)) * (columns / bits + (columns % bits > 0));
    return PyLong_FromSize_t(sizeof(BitMatrix) + blocks * sizeof(bit_set_block));
}
