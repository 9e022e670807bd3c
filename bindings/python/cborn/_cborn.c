/* The calls of cborn.h for CPython 3.8 and later, by its stable ABI.
 *
 * An input is read where it lies. Of an answer one copy is made at most. The interpreter's lock is released while an
 * input of MUCH bytes or more is worked on. The classes stand in __init__.py, which hands them to begin().
 */
#define PY_SSIZE_T_CLEAN
#define Py_LIMITED_API 0x03080000
#include <Python.h>
#include <string.h>
#include "cborn.h"

/* The stable ABI has buffers from 3.11 on, and METH_FASTCALL from 3.10 on. Both were the same before, back to 3.8, whose
 * limited headers only leave them out. */
typedef struct {
    void *buf;
    PyObject *obj;
    Py_ssize_t len, itemsize;
    int readonly, ndim;
    char *format;
    Py_ssize_t *shape, *strides, *suboffsets;
    void *internal;
} lent_buffer;

#if Py_LIMITED_API >= 0x030b0000
#error "Python.h declares buffers itself: use its Py_buffer"
#endif
extern int PyObject_GetBuffer(PyObject *lender, lent_buffer *lent, int flags);
extern void PyBuffer_Release(lent_buffer *lent);

#ifndef METH_FASTCALL
#define METH_FASTCALL 0x0080
#endif

enum {
    MUCH = 4096,  /* bytes of input from which on the lock is released */
    SMALL = 1024, /* bytes of output that are kept on the stack */
    MOST_ARGUMENTS = 6
};

/* What __init__.py passes to begin: two classes, and two functions that make an exception and a Defect of a number and a place. */
typedef struct {
    PyObject *kind, *order, *fault, *defect;
} classes;

/* The arguments of a function. The first ones have no default. */
typedef struct {
    const char *name;
    int required, most;
    const char *arguments[MOST_ARGUMENTS];
} signature;

/* An input, which is borrowed from its object. */
typedef struct {
    const uint8_t *bytes;
    size_t length;
    lent_buffer lent; /* obj is NULL where nothing has to be released */
} input;

/* The numbers of a call, at first the defaults. number and place are those of a fault or defect that is to be explained. */
typedef struct {
    uint32_t from, to, order;
    uint64_t depth;
    uint32_t number;
    uint64_t place;
    int one; /* an input has to hold exactly one item */
} options;

static const options usual = {CBORN_WIRE, CBORN_WIRE, CBORN_BYTEWISE, CBORN_USUAL_DEPTH, 0, 0, 0};

static int place_of_argument(const signature *of, PyObject *name)
{
    for (int i = 0; i < of->most; i++)
        if (PyUnicode_CompareWithASCIIString(name, of->arguments[i]) == 0)
            return i;
    PyErr_Format(PyExc_TypeError, "%s() got an unexpected keyword argument %R", of->name, name);
    return -1;
}

/* Puts each argument at the index of its name. NULL: it isn't given. */
static int are_bound(const signature *of, PyObject *const *given, Py_ssize_t count, PyObject *keywords, PyObject **bound)
{
    Py_ssize_t named = keywords == NULL ? 0 : PyTuple_Size(keywords);
    if (count > of->most) {
        PyErr_Format(PyExc_TypeError, "%s() takes at most %d arguments (%zd given)", of->name, of->most, count + named);
        return 0;
    }
    for (int i = 0; i < of->most; i++)
        bound[i] = i < count ? given[i] : NULL;
    for (Py_ssize_t n = 0; n < named; n++) {
        int i = place_of_argument(of, PyTuple_GetItem(keywords, n));
        if (i < 0)
            return 0;
        if (bound[i] != NULL) {
            PyErr_Format(PyExc_TypeError, "%s() got multiple values for argument '%s'", of->name, of->arguments[i]);
            return 0;
        }
        bound[i] = given[count + n];
    }
    for (int i = 0; i < of->required; i++)
        if (bound[i] == NULL) {
            PyErr_Format(PyExc_TypeError, "%s() missing required argument '%s'", of->name, of->arguments[i]);
            return 0;
        }
    return 1;
}

static int is_lent(PyObject *data, const char *name, input *it)
{
    it->lent.obj = NULL;
    if (PyBytes_CheckExact(data)) {
        it->bytes = (const uint8_t *)PyBytes_AsString(data);
        it->length = (size_t)PyBytes_Size(data);
        return 1;
    }
    if (PyUnicode_Check(data)) {
        PyErr_Format(PyExc_TypeError,
                     "%s must be bytes or lend its bytes (the buffer protocol), not str: notation is given as "
                     "text.encode(), and hexadecimal as bytes.fromhex(text)", name);
        return 0;
    }
    if (PyObject_GetBuffer(data, &it->lent, 0) != 0) {
        if (PyErr_ExceptionMatches(PyExc_TypeError)) {
            PyErr_Clear();
            PyErr_Format(PyExc_TypeError, "%s must be bytes or lend its bytes (the buffer protocol), not %R", name, (PyObject *)Py_TYPE(data));
        }
        return 0;
    }
    it->bytes = it->lent.buf;
    it->length = (size_t)it->lent.len;
    return 1;
}

static void give_back(input *it)
{
    if (it->lent.obj != NULL)
        PyBuffer_Release(&it->lent);
}

/* Whether an argument is a member of an enum, or its number. Sets *number. */
static int is_member(PyObject *value, PyObject *of, const char *name, const char *members, long end, uint32_t *number)
{
    if ((PyObject *)Py_TYPE(value) != of && !PyLong_CheckExact(value)) {
        PyErr_Format(PyExc_TypeError, "%s must be one of %s, not %R", name, members, value);
        return 0;
    }
    int is_beyond;
    long found = PyLong_AsLongAndOverflow(value, &is_beyond);
    if (is_beyond || found < 0 || found >= end) {
        PyErr_Format(PyExc_ValueError, "%s must be one of %s, not %R", name, members, value);
        return 0;
    }
    *number = (uint32_t)found;
    return 1;
}

/* Whether an argument is a format, or isn't given; then the number stays as it is. */
static int is_kind(PyObject *module, PyObject *value, const char *name, uint32_t *number)
{
    if (value == NULL)
        return 1;
    classes *known = PyModule_GetState(module);
    return is_member(value, known->kind, name, "Kind.WIRE, Kind.NOTATION and Kind.NOTATION_2", 3, number);
}

/* Whether an argument is an order of keys, or isn't given; then the number stays as it is. */
static int is_order(PyObject *module, PyObject *value, uint32_t *number)
{
    if (value == NULL)
        return 1;
    classes *known = PyModule_GetState(module);
    return is_member(value, known->order, "order", "Order.BYTEWISE and Order.LENGTH_FIRST", 2, number);
}

static int is_depth(PyObject *value, uint64_t *depth)
{
    if (value == NULL)
        return 1;
    if (!PyLong_Check(value) || PyBool_Check(value)) {
        PyErr_Format(PyExc_TypeError, "depth must be an int from 1 to %d, not %R", CBORN_MOST_DEPTH, value);
        return 0;
    }
    int is_beyond;
    long found = PyLong_AsLongAndOverflow(value, &is_beyond);
    if (is_beyond || found < 1 || found > CBORN_MOST_DEPTH) {
        PyErr_Format(PyExc_ValueError, "depth must be from 1 to %d, not %R", CBORN_MOST_DEPTH, value);
        return 0;
    }
    *depth = (uint64_t)found;
    return 1;
}

static int is_flag(PyObject *value, int *one)
{
    if (value == NULL)
        return 1;
    if (!PyBool_Check(value)) {
        PyErr_Format(PyExc_TypeError, "one must be True or False, not %R", value);
        return 0;
    }
    *one = value == Py_True;
    return 1;
}

static PyObject *not_begun(void)
{
    PyErr_SetString(PyExc_SystemError, "begin() was not called");
    return NULL;
}

/* Raises the exception for the number of a fault. It keeps the input's format and the depth. */
static PyObject *raised(PyObject *module, uint32_t code, uint64_t place, uint32_t from, uint64_t depth)
{
    classes *known = PyModule_GetState(module);
    if (code == CBORN_OUT_OF_MEMORY) {
        PyErr_SetString(PyExc_MemoryError, "cborn: out of memory");
        return NULL;
    }
    if (code == CBORN_BAD_ARGUMENT) {
        /* only explain gets here, and item_at with a wrong start: the other calls pass valid arguments alone */
        PyErr_SetString(PyExc_ValueError, "no input of this format is refused for this reason");
        return NULL;
    }
    if (known->fault == NULL)
        return not_begun();
    PyObject *why = PyObject_CallFunction(known->fault, "IKIK", code, (unsigned long long)place, from, (unsigned long long)depth);
    if (why != NULL) {
        PyErr_SetObject((PyObject *)Py_TYPE(why), why);
        Py_DECREF(why);
    }
    return NULL;
}

/* A call that writes an answer. */
typedef uint32_t writer(const options *how, const input *from, uint8_t *out, size_t room, cborn_told *told);

static uint32_t normalise_into(const options *how, const input *from, uint8_t *out, size_t room, cborn_told *told)
{
    return (how->one ? cborn_normalise_one : cborn_normalise)(how->from, how->to, how->order, how->depth, from->bytes, from->length, out,
                                                              room, told);
}

static uint32_t show_into(const options *how, const input *from, uint8_t *out, size_t room, cborn_told *told)
{
    return (how->one ? cborn_show_one : cborn_show)(how->from, how->to, how->depth, from->bytes, from->length, out, room, told);
}

static uint32_t written(writer *call, const options *how, const input *from, uint8_t *out, size_t room, cborn_told *told)
{
    if (from->length < MUCH)
        return call(how, from, out, room, told);
    uint32_t code;
    Py_BEGIN_ALLOW_THREADS
    code = call(how, from, out, room, told);
    Py_END_ALLOW_THREADS
    return code;
}

/* So much room that a second call is rare. Of bytes, most answers are no longer than the input, and one that is as long,
 * as that of a deterministic input, needs no copy. */
static size_t room_for(const options *how, const input *from)
{
    return how->to == CBORN_WIRE ? from->length : 3 * from->length + 64;
}

static PyObject *made(int is_text, const char *bytes, uint64_t length)
{
    if (is_text)
        return PyUnicode_DecodeUTF8(bytes, (Py_ssize_t)length, NULL);
    return PyBytes_FromStringAndSize(bytes, (Py_ssize_t)length);
}

/* The answer, written into a bytes object. Where the answer fills it, the object itself is returned. */
static PyObject *long_answer(PyObject *module, writer *call, const options *how, const input *from, int is_text, size_t room)
{
    cborn_told told = {0, 0};
    uint32_t code = CBORN_TOO_SMALL;
    PyObject *out = NULL;
    while (code == CBORN_TOO_SMALL) {
        Py_XDECREF(out);
        out = room > (size_t)PY_SSIZE_T_MAX / 2 ? PyErr_NoMemory() : PyBytes_FromStringAndSize(NULL, (Py_ssize_t)room);
        if (out == NULL)
            return NULL;
        code = written(call, how, from, (uint8_t *)PyBytes_AsString(out), room, &told);
        if (code == CBORN_TOO_SMALL)
            room = (size_t)told.length;
    }
    if (code == CBORN_OK && !is_text && told.length == room)
        return out;
    PyObject *answer = code == CBORN_OK ? made(is_text, PyBytes_AsString(out), told.length)
                                        : raised(module, code, told.place, how->from, how->depth);
    Py_DECREF(out);
    return answer;
}

/* `room` is a guess at the length of the answer. */
static PyObject *answered(PyObject *module, writer *call, const options *how, const input *from, int is_text, size_t room)
{
    uint8_t out[SMALL];
    if (room > sizeof out)
        return long_answer(module, call, how, from, is_text, room);
    cborn_told told = {0, 0};
    uint32_t code = written(call, how, from, out, sizeof out, &told);
    if (code == CBORN_TOO_SMALL)
        return long_answer(module, call, how, from, is_text, (size_t)told.length);
    return code == CBORN_OK ? made(is_text, (const char *)out, told.length) : raised(module, code, told.place, how->from, how->depth);
}

#define DOCUMENTED(name, arguments, text) static const char name##_doc[] = #name arguments "\n--\n\n" text
/* what each docstring ends with */
#define DEPTH "\n`depth` is the maximum nesting depth. "
#define RAISED "TypeError or ValueError for an invalid argument, and MemoryError."
#define OF_ONE DEPTH "With `one`, `data` has to hold exactly one item.\n\nRaises CbornError if `data` is refused, " RAISED
#define OF_BOTH                                                                                                                    \
    DEPTH "With `one`, each has to hold exactly one item.\n\n"                                                                     \
          "Raises CbornError if one is refused (its `input` is 0 for the first, 1 for the second),\n" RAISED

DOCUMENTED(normalise, "($module, data, source=Kind.WIRE, to=Kind.WIRE, order=Order.BYTEWISE, depth=128, one=False)",
           "Return the canonical form of the items in `data`: their deterministic encodings, or these in notation (UTF-8).\n\n"
           "`source` is the format of `data`, `to` that of the answer, and `order` the sort order of map keys." OF_ONE);
static const signature of_normalise = {"normalise", 1, 6, {"data", "source", "to", "order", "depth", "one"}};

static PyObject *normalise(PyObject *module, PyObject *const *given, Py_ssize_t count, PyObject *keywords)
{
    PyObject *of[MOST_ARGUMENTS];
    options how = usual;
    input from;
    if (!are_bound(&of_normalise, given, count, keywords, of) || !is_kind(module, of[1], "source", &how.from) ||
        !is_kind(module, of[2], "to", &how.to) || !is_order(module, of[3], &how.order) || !is_depth(of[4], &how.depth) ||
        !is_flag(of[5], &how.one) || !is_lent(of[0], "data", &from))
        return NULL;
    PyObject *out = answered(module, normalise_into, &how, &from, 0, room_for(&how, &from));
    give_back(&from);
    return out;
}

static PyObject *shown(PyObject *module, const signature *called, options how, PyObject *const *given, Py_ssize_t count,
                       PyObject *keywords)
{
    PyObject *of[MOST_ARGUMENTS];
    input from;
    if (!are_bound(called, given, count, keywords, of) || !is_kind(module, of[1], "source", &how.from) ||
        !is_depth(of[2], &how.depth) || !is_flag(of[3], &how.one) || !is_lent(of[0], "data", &from))
        return NULL;
    PyObject *out = answered(module, show_into, &how, &from, how.to == CBORN_NOTATION, room_for(&how, &from));
    give_back(&from);
    return out;
}

DOCUMENTED(show, "($module, data, source=Kind.WIRE, depth=128, one=False)",
           "Return the items in `data` as they are encoded, in diagnostic notation.\n\n"
           "It shows each width, order and indefinite length, and input with a validity error too, unless that is a text string\n"
           "that isn't UTF-8. `source` is the format of `data`." OF_ONE);
static const signature of_show = {"show", 1, 4, {"data", "source", "depth", "one"}};

static PyObject *show(PyObject *module, PyObject *const *given, Py_ssize_t count, PyObject *keywords)
{
    options how = usual;
    how.to = CBORN_NOTATION;
    return shown(module, &of_show, how, given, count, keywords);
}

DOCUMENTED(spell, "($module, data, source=Kind.NOTATION, depth=128, one=False)",
           "Return the bytes that the notation in `data` stands for: the inverse of `show`.\n\n"
           "Each width, order and indefinite length is kept, and a validity error is accepted. `source` is the format of `data`." OF_ONE);
static const signature of_spell = {"spell", 1, 4, {"data", "source", "depth", "one"}};

static PyObject *spell(PyObject *module, PyObject *const *given, Py_ssize_t count, PyObject *keywords)
{
    options how = usual;
    how.from = CBORN_NOTATION;
    return shown(module, &of_spell, how, given, count, keywords);
}

/* Whether the input is valid: the number is CBORN_OK or that of a defect. */
static int is_checked(PyObject *module, const signature *called, PyObject *const *given, Py_ssize_t count,
                      PyObject *keywords, uint32_t *code, uint64_t *place)
{
    PyObject *of[MOST_ARGUMENTS];
    options how = usual;
    input from;
    if (!are_bound(called, given, count, keywords, of) || !is_order(module, of[1], &how.order) ||
        !is_depth(of[2], &how.depth) || !is_flag(of[3], &how.one) || !is_lent(of[0], "data", &from))
        return 0;
    if (from.length < MUCH) {
        *code = (how.one ? cborn_check_one : cborn_check)(how.order, how.depth, from.bytes, from.length, place);
    } else {
        Py_BEGIN_ALLOW_THREADS
        *code = (how.one ? cborn_check_one : cborn_check)(how.order, how.depth, from.bytes, from.length, place);
        Py_END_ALLOW_THREADS
    }
    give_back(&from);
    if (*code == CBORN_OK || *code >> 8 == CBORN_DEFECT_LONG_HEAD >> 8)
        return 1;
    raised(module, *code, *place, how.from, how.depth);
    return 0;
}

DOCUMENTED(check, "($module, data, order=Order.BYTEWISE, depth=128, one=False)",
           "Return None if `data` is deterministic, else its first Defect: so a truthy answer means that it isn't.\n\n"
           "None means that `normalise` would return the same bytes; `is_deterministic` is the call for a yes. The contents of\n"
           "byte strings aren't checked. `order` is the sort order of map keys." OF_ONE);
static const signature of_check = {"check", 1, 4, {"data", "order", "depth", "one"}};

static PyObject *check(PyObject *module, PyObject *const *given, Py_ssize_t count, PyObject *keywords)
{
    classes *known = PyModule_GetState(module);
    uint32_t code;
    uint64_t place = 0;
    if (!is_checked(module, &of_check, given, count, keywords, &code, &place))
        return NULL;
    if (code == CBORN_OK)
        Py_RETURN_NONE;
    if (known->defect == NULL)
        return not_begun();
    return PyObject_CallFunction(known->defect, "IK", code, (unsigned long long)place);
}

DOCUMENTED(is_deterministic, "($module, data, order=Order.BYTEWISE, depth=128, one=False)",
           "Return whether `data` is deterministic: whether `normalise` would return the same bytes.\n\n"
           "Input that is refused is neither. The contents of byte strings aren't checked. `order` is the sort order of map keys." OF_ONE);
static const signature of_is_deterministic = {"is_deterministic", 1, 4, {"data", "order", "depth", "one"}};

static PyObject *is_deterministic(PyObject *module, PyObject *const *given, Py_ssize_t count, PyObject *keywords)
{
    uint32_t code;
    uint64_t place = 0;
    if (!is_checked(module, &of_is_deterministic, given, count, keywords, &code, &place))
        return NULL;
    return PyBool_FromLong(code == CBORN_OK);
}

/* A call over two inputs: cborn_compare, cborn_same or cborn_compare_one. */
typedef uint32_t comparer(uint32_t from_a, uint32_t from_b, uint64_t depth, const uint8_t *first, size_t first_len,
                          const uint8_t *second, size_t second_len, uint64_t *place);

/* The formats of the first and the second input are `from` and `to` of the options. */
static uint32_t compared(comparer *call, const options *how, const input *a, const input *b, uint64_t *place)
{
    if (a->length < MUCH && b->length < MUCH)
        return call(how->from, how->to, how->depth, a->bytes, a->length, b->bytes, b->length, place);
    uint32_t code;
    Py_BEGIN_ALLOW_THREADS
    code = call(how->from, how->to, how->depth, a->bytes, a->length, b->bytes, b->length, place);
    Py_END_ALLOW_THREADS
    return code;
}

/* Whether both inputs are valid: the number is CBORN_OK or CBORN_DIFFERENT. */
static int are_compared(PyObject *module, const signature *called, comparer *call, PyObject *const *given, Py_ssize_t count,
                        PyObject *keywords, uint32_t *code, uint64_t *place)
{
    PyObject *of[MOST_ARGUMENTS];
    options how = usual;
    input a, b;
    if (!are_bound(called, given, count, keywords, of) || !is_kind(module, of[2], "source_a", &how.from) ||
        !is_kind(module, of[3], "source_b", &how.to) || !is_depth(of[4], &how.depth) || !is_flag(of[5], &how.one) ||
        !is_lent(of[0], "first", &a))
        return 0;
    if (!is_lent(of[1], "second", &b)) {
        give_back(&a);
        return 0;
    }
    *code = compared(how.one ? cborn_compare_one : call, &how, &a, &b, place);
    give_back(&b);
    give_back(&a);
    if (*code == CBORN_OK || *code == CBORN_DIFFERENT)
        return 1;
    raised(module, *code, *place, *code < CBORN_OF_SECOND ? how.from : how.to, how.depth);
    return 0;
}

DOCUMENTED(compare, "($module, first, second, source_a=Kind.WIRE, source_b=Kind.WIRE, depth=128, one=False)",
           "Return None if both hold the same items, else the index, from 0, of the first item that differs.\n\n"
           "0 is falsy, as None is, and means that the first items differ: `same` is the call for a yes. `source_a` and\n"
           "`source_b` are the formats of the inputs." OF_BOTH);
static const signature of_compare = {"compare", 2, 6, {"first", "second", "source_a", "source_b", "depth", "one"}};

static PyObject *compare(PyObject *module, PyObject *const *given, Py_ssize_t count, PyObject *keywords)
{
    uint32_t code;
    uint64_t place = 0;
    if (!are_compared(module, &of_compare, cborn_compare, given, count, keywords, &code, &place))
        return NULL;
    if (code == CBORN_OK)
        Py_RETURN_NONE;
    return PyLong_FromUnsignedLongLong(place);
}

DOCUMENTED(same, "($module, first, second, source_a=Kind.WIRE, source_b=Kind.WIRE, depth=128, one=False)",
           "Return whether both hold the same items: whether their canonical forms are equal.\n\n"
           "`source_a` and `source_b` are the formats of the inputs." OF_BOTH);
static const signature of_same = {"same", 2, 6, {"first", "second", "source_a", "source_b", "depth", "one"}};

static PyObject *same(PyObject *module, PyObject *const *given, Py_ssize_t count, PyObject *keywords)
{
    uint32_t code;
    uint64_t place = 0;
    if (!are_compared(module, &of_same, cborn_same, given, count, keywords, &code, &place))
        return NULL;
    return PyBool_FromLong(code == CBORN_OK);
}

static uint32_t explain_into(const options *how, const input *from, uint8_t *out, size_t room, cborn_told *told)
{
    return cborn_explain(how->from, how->depth, from->bytes, from->length, how->number, how->place, (char *)out, room, told);
}

/* explain(data, number, place, source, depth) -> str */
static const signature of_explain = {"explain", 5, 5, {"data", "number", "place", "source", "depth"}};

static PyObject *explain(PyObject *module, PyObject *const *given, Py_ssize_t count, PyObject *keywords)
{
    PyObject *of[MOST_ARGUMENTS];
    options how = usual;
    input from;
    if (!are_bound(&of_explain, given, count, keywords, of) || !is_kind(module, of[3], "source", &how.from) ||
        !is_depth(of[4], &how.depth))
        return NULL;
    unsigned long number = PyLong_AsUnsignedLong(of[1]);
    if (PyErr_Occurred())
        return NULL;
    how.place = PyLong_AsUnsignedLongLong(of[2]);
    if (PyErr_Occurred())
        return NULL;
    how.number = number > UINT32_MAX ? 0 : (uint32_t)number;
    if (!is_lent(of[0], "data", &from))
        return NULL;
    PyObject *out = answered(module, explain_into, &how, &from, 1, SMALL);
    give_back(&from);
    return out;
}

static uint32_t explain_comparison_into(const options *how, const input *from, uint8_t *out, size_t room, cborn_told *told)
{
    return cborn_explain_comparison(how->from, how->to, how->order, how->depth, from[0].bytes, from[0].length, from[1].bytes,
                                    from[1].length, (char *)out, room, told);
}

/* explain_comparison(first, second, source_a, source_b, order, depth) -> str */
static const signature of_explain_comparison = {
    "explain_comparison", 6, 6, {"first", "second", "source_a", "source_b", "order", "depth"}};

static PyObject *explain_comparison(PyObject *module, PyObject *const *given, Py_ssize_t count, PyObject *keywords)
{
    PyObject *of[MOST_ARGUMENTS];
    options how = usual;
    input from[2];
    if (!are_bound(&of_explain_comparison, given, count, keywords, of) || !is_kind(module, of[2], "source_a", &how.from) ||
        !is_kind(module, of[3], "source_b", &how.to) || !is_order(module, of[4], &how.order) || !is_depth(of[5], &how.depth) ||
        !is_lent(of[0], "first", &from[0]))
        return NULL;
    if (!is_lent(of[1], "second", &from[1])) {
        give_back(&from[0]);
        return NULL;
    }
    PyObject *out = answered(module, explain_comparison_into, &how, from, 1, SMALL);
    give_back(&from[1]);
    give_back(&from[0]);
    return out;
}

/* The bytes of an item: of a memoryview of bytes a part of it, else a copy. */
static PyObject *part_of(PyObject *data, const input *from, uint64_t start, uint64_t end)
{
    if (PyMemoryView_Check(data))
        return PySequence_GetSlice(data, (Py_ssize_t)start, (Py_ssize_t)end);
    return PyBytes_FromStringAndSize((const char *)from->bytes + start, (Py_ssize_t)(end - start));
}

/* item_at(data, start, depth): the item that starts there. None at the end of the data, and where start is None. The lock
 * is kept, since an item is walked over quickly, and to take the lock back can take long. */
static const signature of_item_at = {"items", 3, 3, {"data", "start", "depth"}};

static PyObject *item_at(PyObject *module, PyObject *const *given, Py_ssize_t count, PyObject *keywords)
{
    PyObject *of[MOST_ARGUMENTS], *item;
    options how = usual;
    input from;
    if (!are_bound(&of_item_at, given, count, keywords, of) || !is_depth(of[2], &how.depth) || !is_lent(of[0], "data", &from))
        return NULL;
    uint64_t end = 0, start = of[1] == Py_None ? from.length : PyLong_AsUnsignedLongLong(of[1]);
    uint32_t code = cborn_item_end(how.depth, from.bytes, from.length, start, &end);
    if (code == CBORN_OK)
        item = part_of(of[0], &from, start, end);
    else if (code == CBORN_NO_ITEM)
        item = Py_BuildValue("");
    else
        item = raised(module, code, end, how.from, how.depth);
    give_back(&from);
    return item;
}

/* words(number) -> str */
static PyObject *words(PyObject *module, PyObject *value)
{
    char out[CBORN_MOST_WORDS];
    unsigned long number = PyLong_AsUnsignedLong(value);
    (void)module;
    if (PyErr_Occurred())
        return NULL;
    if (number > UINT32_MAX || cborn_words((uint32_t)number, out, sizeof out) != CBORN_OK)
        return PyErr_Format(PyExc_ValueError, "no fault and no defect has the number %R", value);
    return PyUnicode_FromString(out);
}

/* version() -> int */
static PyObject *version(PyObject *module, PyObject *nothing)
{
    (void)module, (void)nothing;
    return PyLong_FromUnsignedLong(cborn_version());
}

/* begin(Kind, Order, fault, defect): two classes, which the signatures name, and two functions that make an exception and a Defect */
static PyObject *begin(PyObject *module, PyObject *given)
{
    classes *known = PyModule_GetState(module);
    PyObject *kind, *order, *fault, *defect;
    if (!PyArg_ParseTuple(given, "OOOO", &kind, &order, &fault, &defect) ||
        PyObject_SetAttrString(module, "Kind", kind) != 0 || PyObject_SetAttrString(module, "Order", order) != 0)
        return NULL;
    classes old = *known;
    Py_INCREF(kind), Py_INCREF(order), Py_INCREF(fault), Py_INCREF(defect);
    *known = (classes){kind, order, fault, defect};
    Py_XDECREF(old.kind), Py_XDECREF(old.order), Py_XDECREF(old.fault), Py_XDECREF(old.defect);
    Py_RETURN_NONE;
}

#define PUBLIC(name) {#name, (PyCFunction)(void (*)(void))name, METH_FASTCALL | METH_KEYWORDS, name##_doc}
static PyMethodDef methods[] = {
    PUBLIC(normalise), PUBLIC(show), PUBLIC(spell), PUBLIC(check), PUBLIC(is_deterministic), PUBLIC(compare), PUBLIC(same),
    {"begin", begin, METH_VARARGS, NULL},
    {"explain", (PyCFunction)(void (*)(void))explain, METH_FASTCALL | METH_KEYWORDS, NULL},
    {"explain_comparison", (PyCFunction)(void (*)(void))explain_comparison, METH_FASTCALL | METH_KEYWORDS, NULL},
    {"item_at", (PyCFunction)(void (*)(void))item_at, METH_FASTCALL | METH_KEYWORDS, NULL},
    {"words", words, METH_O, NULL},
    {"version", version, METH_NOARGS, NULL},
    {NULL, NULL, 0, NULL},
};

static int visited(PyObject *module, visitproc visit, void *arg)
{
    classes *known = PyModule_GetState(module);
    if (known == NULL)
        return 0;
    Py_VISIT(known->kind);
    Py_VISIT(known->order);
    Py_VISIT(known->fault);
    Py_VISIT(known->defect);
    return 0;
}

static int cleared(PyObject *module)
{
    classes *known = PyModule_GetState(module);
    if (known == NULL)
        return 0;
    Py_CLEAR(known->kind);
    Py_CLEAR(known->order);
    Py_CLEAR(known->fault);
    Py_CLEAR(known->defect);
    return 0;
}

static void freed(void *module)
{
    cleared(module);
}

static PyModuleDef_Slot slots[] = {{0, NULL}};

static struct PyModuleDef definition = {
    PyModuleDef_HEAD_INIT, "cborn._cborn", NULL, sizeof(classes), methods, slots, visited, cleared, freed,
};

PyMODINIT_FUNC PyInit__cborn(void)
{
    return PyModuleDef_Init(&definition);
}
