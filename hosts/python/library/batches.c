/* Batches, point by point, as tuples that `_batches.py` names. */
#include "library.h"

#include <stdlib.h>

static uint32_t batch_text(void *handle, size_t at, size_t number, uint8_t *out, size_t room, size_t *length) {
    (void)at;
    (void)number;
    return wormweekly_text(handle, out, room, length);
}

static uint32_t stream_text(void *handle, size_t at, size_t kind, uint8_t *out, size_t room, size_t *length) {
    return wormweekly_stream_text(handle, at, (uint32_t)kind, out, room, length);
}

static uint32_t key_text(void *handle, size_t at, size_t key, uint8_t *out, size_t room, size_t *length) {
    return wormweekly_key(handle, at, key, out, room, length);
}

/* A tuple of so many objects, which `make` makes by their numbers; what it refuses ends it. */
typedef PyObject *(*Make)(Run *run, wormweekly_reader *reader, size_t stream, size_t number);

static PyObject *tuple_of(Run *run, wormweekly_reader *reader, size_t stream, size_t count, Make make) {
    PyObject *made = PyTuple_New((Py_ssize_t)count);
    for (size_t at = 0; made != NULL && at < count; at++) {
        PyObject *own = make(run, reader, stream, at);
        if (own == NULL || PyTuple_SetItem(made, (Py_ssize_t)at, own) < 0) {
            Py_CLEAR(made);
        }
    }
    return made;
}

static PyObject *numbers_of(const int64_t *all, size_t count) {
    PyObject *made = PyTuple_New((Py_ssize_t)count);
    for (size_t at = 0; made != NULL && at < count; at++) {
        PyObject *own = PyLong_FromLongLong(all[at]);
        if (own == NULL || PyTuple_SetItem(made, (Py_ssize_t)at, own) < 0) {
            Py_CLEAR(made);
        }
    }
    return made;
}

static PyObject *boundaries_of(Run *run, wormweekly_reader *reader, size_t stream, size_t count) {
    int64_t *all = calloc(count + 1, sizeof *all);
    uint32_t answer = all == NULL ? WORMWEEKLY_MEMORY : wormweekly_boundaries(reader, stream, all, count);
    PyObject *made = answer == WORMWEEKLY_DONE ? numbers_of(all, count) : refuse(run, answer);
    free(all);
    return made;
}

/* Counts are below 2^63, since budgets are. */
static PyObject *counts_of(Run *run, wormweekly_reader *reader, size_t stream, size_t point, size_t count) {
    int64_t *all = calloc(count + 1, sizeof *all);
    uint32_t answer =
        all == NULL ? WORMWEEKLY_MEMORY : wormweekly_buckets(reader, stream, point, (uint64_t *)all, count);
    PyObject *made = answer == WORMWEEKLY_DONE ? numbers_of(all, count) : refuse(run, answer);
    free(all);
    return made;
}

static PyObject *value_from(const wormweekly_attribute *value, const uint8_t *text) {
    switch (value->kind) {
    case WORMWEEKLY_TEXT:
        return PyUnicode_DecodeUTF8((const char *)text, (Py_ssize_t)value->text, "replace");
    case WORMWEEKLY_WHOLE:
        return PyLong_FromLongLong(value->whole);
    default:
        return PyBool_FromLong(value->kind == WORMWEEKLY_YES);
    }
}

/* The value that a key has in a point. It is asked for once more where its text is longer than the room. */
static PyObject *value_of(Run *run, wormweekly_reader *reader, size_t stream, size_t key, uint16_t entry) {
    uint8_t few[64], *out = few;
    wormweekly_attribute value = { 0 };
    uint32_t answer = wormweekly_value(reader, stream, key, entry, &value, few, sizeof few);
    PyObject *made;
    if (answer == WORMWEEKLY_TOO_SHORT) {
        size_t room = value.text;
        out = malloc(room);
        answer = out == NULL ? WORMWEEKLY_MEMORY : wormweekly_value(reader, stream, key, entry, &value, out, room);
    }
    made = answer == WORMWEEKLY_DONE ? value_from(&value, out) : refuse(run, answer);
    if (out != few) {
        free(out);
    }
    return made;
}

static PyObject *attributes_of(Run *run, wormweekly_reader *reader, size_t stream, const uint16_t *set) {
    PyObject *made = PyDict_New();
    for (size_t key = 0; made != NULL && key < FEW_ATTRIBUTES; key++) {
        PyObject *name, *value;
        if (set[key] == 0) {
            continue;
        }
        name = ask_text(run, key_text, reader, stream, key);
        value = name == NULL ? NULL : value_of(run, reader, stream, key, set[key]);
        if (value == NULL || PyDict_SetItem(made, name, value) < 0) {
            Py_CLEAR(made);
        }
        Py_XDECREF(name);
        Py_XDECREF(value);
    }
    return made;
}

/* (attributes, is the overflow point, value or None, count, least, greatest, counts of buckets) */
static PyObject *point_of(Run *run, wormweekly_reader *reader, size_t stream, size_t number) {
    wormweekly_point_out out;
    uint32_t answer = wormweekly_point(reader, stream, number, &out);
    PyObject *attributes, *counts, *value;
    if (answer != WORMWEEKLY_DONE) {
        return refuse(run, answer);
    }
    attributes = attributes_of(run, reader, stream, out.set);
    counts = attributes == NULL ? NULL : counts_of(run, reader, stream, number, out.buckets);
    value = counts == NULL ? NULL : out.has_value ? PyLong_FromLongLong(out.value) : Py_NewRef(Py_None);
    if (value == NULL) {
        Py_XDECREF(attributes);
        Py_XDECREF(counts);
        return NULL;
    }
    return Py_BuildValue("(NNNKLLN)", attributes, PyBool_FromLong(out.is_series == 0), value,
                         (unsigned long long)out.count, (long long)out.least, (long long)out.greatest, counts);
}

static PyObject *text_of(Run *run, wormweekly_reader *reader, size_t stream, size_t kind) {
    return ask_text(run, stream_text, reader, stream, kind);
}

/* (texts, kind, aggregation, is delta, boundaries, points) */
static PyObject *stream_of(Run *run, wormweekly_reader *reader, size_t unused, size_t number) {
    enum { TEXTS = 6 };
    wormweekly_stream_out out;
    uint32_t answer = wormweekly_stream(reader, number, &out);
    PyObject *texts, *boundaries, *points;
    (void)unused;
    if (answer != WORMWEEKLY_DONE) {
        return refuse(run, answer);
    }
    texts = tuple_of(run, reader, number, TEXTS, text_of);
    boundaries = texts == NULL ? NULL : boundaries_of(run, reader, number, out.boundaries);
    points = boundaries == NULL ? NULL : tuple_of(run, reader, number, out.points, point_of);
    if (points == NULL) {
        Py_XDECREF(texts);
        Py_XDECREF(boundaries);
        return NULL;
    }
    return Py_BuildValue("(NKKNNN)", texts, (unsigned long long)out.kind, (unsigned long long)out.aggregation,
                         PyBool_FromLong(out.delta == 1), boundaries, points);
}

PyObject *batch_text_of(Run *run, wormweekly_reader *reader) { return ask_long_text(run, batch_text, reader); }

PyObject *batch_of(Run *run, wormweekly_reader *reader) {
    wormweekly_batch_out out;
    uint32_t answer = wormweekly_batch(reader, &out);
    PyObject *streams, *text;
    if (answer == WORMWEEKLY_UNKNOWN) {
        return Py_NewRef(Py_None);
    }
    if (answer != WORMWEEKLY_DONE) {
        return refuse(run, answer);
    }
    streams = tuple_of(run, reader, 0, out.streams, stream_of);
    text = streams == NULL ? NULL : batch_text_of(run, reader);
    if (text == NULL) {
        Py_XDECREF(streams);
        return NULL;
    }
    return Py_BuildValue("(KKKNN)", (unsigned long long)out.instrument, (unsigned long long)out.start,
                         (unsigned long long)out.time, streams, text);
}
