/* Refusals. */
#include "library.h"

PyObject *refuse_with(Run *run, uint32_t answer, PyObject *told) {
    PyObject *made;
    if (told == NULL) {
        return NULL;
    }
    made = PyObject_CallFunction(run->state->refusal, "IO", answer, told);
    if (made != NULL) {
        PyErr_SetObject((PyObject *)Py_TYPE(made), made);
        Py_DECREF(made);
    }
    Py_DECREF(told);
    return NULL;
}

PyObject *refuse(Run *run, uint32_t answer) { return refuse_with(run, answer, Py_NewRef(Py_None)); }

PyObject *refuse_told(Run *run, uint32_t answer, const uint8_t *text, size_t length, size_t room) {
    length = length < room ? length : room;
    return refuse_with(run, answer, PyUnicode_DecodeUTF8((const char *)text, (Py_ssize_t)length, "replace"));
}

/* Attributes and a value, as a recorder on an instrument has them. */
typedef struct {
    wormweekly_recorder *recorder;
    size_t instrument;
    const Attributes *given;
    int64_t value;
} Said;

static uint32_t explain(void *handle, size_t at, size_t number, uint8_t *out, size_t room, size_t *length) {
    const Said *said = handle;
    (void)at;
    (void)number;
    return wormweekly_explain(said->recorder, (uint32_t)said->instrument, said->given->bytes, said->given->length,
                              said->given->all, said->given->count, said->value, out, room, length);
}

/* Whether a refusal is for what a recording says. */
static int is_of_said(uint32_t answer) {
    switch (answer) {
    case WORMWEEKLY_DUPLICATE_KEY:
    case WORMWEEKLY_UNKNOWN_KEY:
    case WORMWEEKLY_UNKNOWN_VALUE:
    case WORMWEEKLY_MISSING_KEY:
    case WORMWEEKLY_COMBINATION:
    case WORMWEEKLY_VALUE_RANGE:
        return 1;
    default:
        return 0;
    }
}

PyObject *refuse_said(Run *run, uint32_t answer, size_t recorder, size_t instrument, const Attributes *given,
                      int64_t value) {
    PyObject *told = NULL;
    if (is_of_said(answer)) {
        Said said = { handles_lend_recorder(&run->handles, recorder), instrument, given, value };
        told = ask_text(run, explain, &said, 0, 0);
        handles_take_recorder(&run->handles, recorder);
        PyErr_Clear();
    }
    if (told != NULL && PyUnicode_GetLength(told) > 0) {
        return refuse_with(run, answer, told);
    }
    Py_XDECREF(told);
    return refuse(run, answer);
}

/* A metaclass may answer what is no text where the name of its type is asked for, or raise. */
static PyObject *name_of_type(PyObject *given) {
    PyObject *name = PyObject_GetAttrString((PyObject *)Py_TYPE(given), "__name__");
    if (name != NULL && PyUnicode_Check(name)) {
        return name;
    }
    if (name == NULL && !PyErr_ExceptionMatches(PyExc_Exception)) {
        return NULL;
    }
    PyErr_Clear();
    Py_XDECREF(name);
    return PyUnicode_FromString("a value whose type has no name");
}

PyObject *refuse_type(Run *run, const char *wanted, PyObject *given) {
    PyObject *name = name_of_type(given);
    PyObject *told = name == NULL ? NULL : PyUnicode_FromFormat("%s, not %U", wanted, name);
    Py_XDECREF(name);
    return refuse_with(run, WRONG_TYPE, told);
}

PyObject *done(Run *run, uint32_t answer) {
    return answer == WORMWEEKLY_DONE ? Py_NewRef(Py_None) : refuse(run, answer);
}

/* One more of this name on an instrument: whether it is the first. No other thread comes between what is read and what
   is written. */
static int count_refusal(Run *run, size_t instrument, PyObject *refusal) {
    PyObject *counts = PyList_GetItem(run->refused, (Py_ssize_t)instrument);
    PyObject *name = PyObject_GetAttrString(refusal, "name");
    PyObject *before, *after = NULL;
    int is_first = 0;
    if (counts != NULL && name != NULL) {
        before = PyDict_GetItemWithError(counts, name);
        is_first = before == NULL;
        after = PyLong_FromLongLong(is_first ? 1 : PyLong_AsLongLong(before) + 1);
    }
    if (after == NULL || PyDict_SetItem(counts, name, after) < 0) {
        PyErr_Clear();
    }
    Py_XDECREF(name);
    Py_XDECREF(after);
    return is_first;
}

/* What tells it may fail, but that is no fault of who records. */
static void tell(Run *run, size_t instrument, PyObject *refusal) {
    PyObject *told = PyObject_CallFunction(run->tell, "nO", (Py_ssize_t)instrument, refusal);
    if (told == NULL) {
        PyErr_WriteUnraisable(run->tell);
    }
    Py_XDECREF(told);
}

PyObject *settled(Run *run, size_t instrument, PyObject *answer) {
    PyObject *kind, *refusal, *trace;
    int is_first;
    if (answer != NULL || !PyErr_ExceptionMatches(run->state->refusals)) {
        return answer;
    }
    PyErr_Fetch(&kind, &refusal, &trace);
    PyErr_NormalizeException(&kind, &refusal, &trace);
    is_first = count_refusal(run, instrument, refusal);
    if (run->is_strict) {
        PyErr_Restore(kind, refusal, trace);
        return NULL;
    }
    if (is_first) {
        tell(run, instrument, refusal);
    }
    Py_XDECREF(kind);
    Py_XDECREF(refusal);
    Py_XDECREF(trace);
    return Py_NewRef(Py_None);
}

int is_whole(Run *run) {
    if (!handles_are_whole(&run->handles)) {
        refuse(run, FORKED);
        return 0;
    }
    return 1;
}
