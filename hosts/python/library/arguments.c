/* Arguments of Python as the library takes them: each length of a text and of a list of attributes is in this file. */
#include "library.h"

#include <stdlib.h>
#include <string.h>

int has_count(Run *run, Py_ssize_t given, Py_ssize_t wanted) {
    if (given == wanted) {
        return 1;
    }
    refuse_with(run, WRONG_TYPE, PyUnicode_FromFormat("%zd arguments, not %zd", wanted, given));
    return 0;
}

/* A whole number; on which side of 64 bits it is, 0 where it is inside. */
static int read_whole(Run *run, PyObject *given, int64_t *value, int *outside) {
    if (!PyLong_Check(given)) {
        refuse_type(run, "a whole number", given);
        return 0;
    }
    *value = PyLong_AsLongLongAndOverflow(given, outside);
    return 1;
}

/* What is outside of 64 bits is in no range. */
int read_value(Run *run, PyObject *given, int64_t *value) {
    int outside;
    if (!read_whole(run, given, value, &outside)) {
        return 0;
    }
    if (outside != 0) {
        refuse(run, WORMWEEKLY_VALUE_RANGE);
    }
    return outside == 0;
}

/* The same of what is recorded as the greatest value of a range where it is above. */
int read_measured(Run *run, PyObject *given, int64_t *value) {
    int outside;
    if (!read_whole(run, given, value, &outside)) {
        return 0;
    }
    if (outside < 0) {
        refuse(run, WORMWEEKLY_VALUE_RANGE);
    } else if (outside > 0) {
        *value = INT64_MAX;
    }
    return outside >= 0;
}

int read_unsigned(Run *run, PyObject *given, uint64_t *value, uint32_t refusal) {
    if (!PyLong_Check(given)) {
        refuse_type(run, "a whole number", given);
        return 0;
    }
    *value = PyLong_AsUnsignedLongLong(given);
    if (*value != UINT64_MAX || !PyErr_Occurred()) {
        return 1;
    }
    PyErr_Clear();
    refuse(run, refusal);
    return 0;
}

/* What is handed in may be of another run than what is called, and of one before a fork. */
Seat *read_seat(Run *run, PyObject *given, PyTypeObject *type, const char *wanted) {
    if (!PyObject_TypeCheck(given, type)) {
        refuse_type(run, wanted, given);
        return NULL;
    }
    return is_whole(((Seat *)given)->run) ? (Seat *)given : NULL;
}

Bound *read_bound(Run *run, PyObject *given) {
    if (Py_TYPE(given) != run->state->bound) {
        refuse_type(run, "a bound set of attributes", given);
        return NULL;
    }
    return is_whole(((Bound *)given)->run) ? (Bound *)given : NULL;
}

/* Attributes */

static void begin_given(Given *given) {
    given->own = (Attributes){ 0 };
    given->bytes = given->few_bytes;
    given->all = given->few;
    given->room = FEW_BYTES;
}

void free_given(Given *given) {
    if (given->bytes != given->few_bytes) {
        free(given->bytes);
    }
    if (given->all != given->few) {
        free(given->all);
    }
}

static int has_room(Given *given, size_t more) {
    size_t room = 2 * (given->own.length + more);
    uint8_t *bytes;
    if (more <= given->room - given->own.length) {
        return 1;
    }
    bytes = malloc(room);
    if (bytes == NULL) {
        PyErr_NoMemory();
        return 0;
    }
    memcpy(bytes, given->bytes, given->own.length);
    if (given->bytes != given->few_bytes) {
        free(given->bytes);
    }
    given->bytes = bytes;
    given->room = room;
    return 1;
}

/* Half of a surrogate pair is no text, and is refused as the library refuses what is no UTF-8. */
int read_text(Run *run, PyObject *given, Text *text) {
    if (!PyUnicode_Check(given)) {
        refuse_type(run, "a text", given);
        return 0;
    }
    text->bytes = PyUnicode_AsUTF8AndSize(given, &text->length);
    if (text->bytes == NULL && PyErr_ExceptionMatches(PyExc_UnicodeEncodeError)) {
        PyErr_Clear();
        refuse(run, WORMWEEKLY_NO_TEXT);
    }
    return text->bytes != NULL;
}

static int add_text(Run *run, Given *given, PyObject *text, size_t *length) {
    Text own;
    if (!read_text(run, text, &own) || !has_room(given, (size_t)own.length)) {
        return 0;
    }
    *length = (size_t)own.length;
    memcpy(given->bytes + given->own.length, own.bytes, *length);
    given->own.length += *length;
    return 1;
}

static int add_attribute(Run *run, Given *given, PyObject *key, PyObject *value) {
    wormweekly_attribute *own = &given->all[given->own.count];
    int outside;
    *own = (wormweekly_attribute){ 0 };
    if (!PyUnicode_Check(key)) {
        refuse_type(run, "a text as a key", key);
        return 0;
    }
    if (!add_text(run, given, key, &own->key)) {
        return 0;
    }
    given->own.count++;
    if (PyUnicode_Check(value)) {
        own->kind = WORMWEEKLY_TEXT;
        return add_text(run, given, value, &own->text);
    }
    if (PyBool_Check(value)) {
        own->kind = value == Py_True ? WORMWEEKLY_YES : WORMWEEKLY_NO;
        return 1;
    }
    if (!PyLong_Check(value)) {
        refuse_type(run, "a text, a whole number or a flag as a value", value);
        return 0;
    }
    own->kind = WORMWEEKLY_WHOLE;
    if (!read_whole(run, value, &own->whole, &outside)) {
        return 0;
    }
    if (outside != 0) {
        refuse(run, WORMWEEKLY_UNKNOWN_VALUE);
    }
    return outside == 0;
}

static int has_places(Given *given, size_t count) {
    wormweekly_attribute *all;
    if (count <= FEW_ATTRIBUTES) {
        return 1;
    }
    all = malloc(count * sizeof *all);
    if (all == NULL) {
        PyErr_NoMemory();
        return 0;
    }
    given->all = all;
    return 1;
}

/* The keys are compared with one another, so no more than 65 are read. Of so many a key is unknown, and a resource has
   fewer: what follows could not mend that. */
static int read_dict(Run *run, PyObject *dict, Given *given) {
    PyObject *key, *value;
    Py_ssize_t at = 0;
    size_t count = (size_t)PyDict_Size(dict);
    count = count < MOST_ATTRIBUTES ? count : MOST_ATTRIBUTES;
    if (!has_places(given, count)) {
        return 0;
    }
    while (given->own.count < count && PyDict_Next(dict, &at, &key, &value)) {
        if (!add_attribute(run, given, key, value)) {
            return 0;
        }
    }
    given->own.bytes = given->bytes;
    given->own.all = given->all;
    return 1;
}

/* A mapping that is no dict is made one, by code of its own, which may fork. */
int read_attributes(Run *run, PyObject *mapping, Given *given) {
    PyObject *dict;
    int is_read;
    begin_given(given);
    if (mapping == NULL) {
        return 1;
    }
    if (PyDict_Check(mapping)) {
        return read_dict(run, mapping, given);
    }
    if (!PyObject_HasAttrString(mapping, "keys")) {
        refuse_type(run, "a mapping of attributes", mapping);
        return 0;
    }
    dict = PyDict_New();
    is_read = dict != NULL && PyDict_Update(dict, mapping) == 0 && is_whole(run) && read_dict(run, dict, given);
    Py_XDECREF(dict);
    return is_read;
}

/* Nothing of Python runs between the first pair and the last. */
int read_pairs(Run *run, PyObject *pairs, Given *given) {
    size_t count;
    begin_given(given);
    if (!PyList_Check(pairs)) {
        refuse_type(run, "a list of pairs", pairs);
        return 0;
    }
    count = (size_t)PyList_Size(pairs);
    if (!has_places(given, count)) {
        return 0;
    }
    for (size_t at = 0; at < count; at++) {
        PyObject *pair = PyList_GetItem(pairs, (Py_ssize_t)at);
        if (!PyTuple_Check(pair) || PyTuple_Size(pair) != 2) {
            refuse_type(run, "a pair of a key and a value", pair);
            return 0;
        }
        if (!add_attribute(run, given, PyTuple_GetItem(pair, 0), PyTuple_GetItem(pair, 1))) {
            return 0;
        }
    }
    given->own.bytes = given->bytes;
    given->own.all = given->all;
    return 1;
}
