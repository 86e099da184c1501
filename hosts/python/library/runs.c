/* Runs, which own all handles, and make the seats over them. */
#include "library.h"

#include <stdlib.h>
#include <structmember.h>

typedef uint32_t (*Open)(Handles *own, const Texts *texts, uint8_t *fault, size_t room, size_t *length);

static PyObject *opened(Run *run, const Texts *texts, Open open) {
    uint8_t fault[4096];
    size_t length = 0;
    uint32_t answer;
    Py_BEGIN_ALLOW_THREADS
    answer = open(&run->handles, texts, fault, sizeof fault, &length);
    Py_END_ALLOW_THREADS
    return answer == WORMWEEKLY_FAULT ? refuse_told(run, answer, fault, length, sizeof fault) : done(run, answer);
}

static int read_texts(Run *run, PyObject *const given[4], Texts *texts) {
    return read_text(run, given[0], &texts->catalogue) && read_text(run, given[1], &texts->config) &&
           (given[2] == Py_None || read_text(run, given[2], &texts->certificate)) &&
           read_unsigned(run, given[3], &texts->start, WRONG_CLOCK);
}

/* A run that has nothing yet, NULL with an exception. */
static Run *empty_run(PyTypeObject *type) {
    Run *run = (Run *)PyType_GenericAlloc(type, 0);
    if (run == NULL) {
        return NULL;
    }
    run->module = Py_XNewRef(PyType_GetModule(type));
    run->state = run->module == NULL ? NULL : PyModule_GetState(run->module);
    if (run->state == NULL) {
        Py_CLEAR(run);
    }
    return run;
}

/* What is kept beside the library, with a dict for the refusals of each instrument. */
static int has_beside(Run *run) {
    size_t count = run->handles.lists.counts.instruments;
    run->beside = calloc(count + 1, sizeof *run->beside);
    run->refused = run->beside == NULL ? PyErr_NoMemory() : PyList_New(0);
    for (size_t at = 0; run->refused != NULL && at < count; at++) {
        PyObject *own = PyDict_New();
        if (own == NULL || PyList_Append(run->refused, own) < 0) {
            Py_CLEAR(run->refused);
        }
        Py_XDECREF(own);
    }
    return run->refused != NULL;
}

/* The greatest value of each instrument, that of all numbers where nobody records. The run is only just opened. */
static void read_ranges(Run *run) {
    const Lists *lists = &run->handles.lists;
    for (size_t at = 0; at < lists->counts.instruments; at++) {
        wormweekly_range_out out = { INT64_MIN, INT64_MAX };
        if (lists->counts.recorders > 0) {
            wormweekly_range(&lists->recorders[0], (uint32_t)at, &out);
        }
        run->beside[at].greatest = out.greatest;
    }
}

/* Run(catalogue, config, certificate or None, start, is strict, what tells a refusal) */
static PyObject *run_new(PyTypeObject *type, PyObject *args, PyObject *keywords) {
    PyObject *given[4], *tell, *made = NULL;
    Texts texts = { 0 };
    Run *run = empty_run(type);
    (void)keywords;
    if (run == NULL) {
        return NULL;
    }
    if (PyArg_ParseTuple(args, "OOOOpO", &given[0], &given[1], &given[2], &given[3], &run->is_strict, &tell) &&
        read_texts(run, given, &texts)) {
        run->tell = Py_NewRef(tell);
        made = opened(run, &texts, handles_open);
    }
    if (made == NULL || !has_beside(run)) {
        Py_XDECREF(made);
        Py_DECREF(run);
        return NULL;
    }
    read_ranges(run);
    Py_DECREF(made);
    return (PyObject *)run;
}

/* Run.open_anew(catalogue, config, certificate or None, start): in the child of a fork, the run that the parent opened
   of them */
static PyObject *open_anew(Run *self, PyObject *args) {
    PyObject *given[4];
    Texts texts = { 0 };
    if (!PyArg_ParseTuple(args, "OOOO", &given[0], &given[1], &given[2], &given[3]) || !read_texts(self, given, &texts)) {
        return NULL;
    }
    return handles_are_whole(&self->handles) ? Py_NewRef(Py_None) : opened(self, &texts, handles_open_anew);
}

/* What is asked of two texts, and the answer. */
typedef struct {
    const Texts *texts;
    uint32_t answer;
} Linted;

/* Remarks or, in their place, a fault: either is asked for until there is room for all of it. */
static uint32_t remarks_of(void *handle, size_t at, size_t number, uint8_t *out, size_t room, size_t *length) {
    Linted *own = handle;
    const Text *catalogue = &own->texts->catalogue, *config = &own->texts->config;
    (void)at;
    (void)number;
    own->answer = wormweekly_lint((const uint8_t *)catalogue->bytes, (size_t)catalogue->length,
                                  (const uint8_t *)config->bytes, (size_t)config->length, out, room, length);
    if (own->answer != WORMWEEKLY_FAULT) {
        return own->answer;
    }
    return *length > room ? WORMWEEKLY_TOO_SHORT : WORMWEEKLY_DONE;
}

/* Run.lint(catalogue, config): a line for each remark */
static PyObject *lint(PyTypeObject *type, PyObject *args) {
    PyObject *catalogue, *config, *told = NULL;
    Texts texts = { 0 };
    Linted own = { &texts, WORMWEEKLY_DONE };
    Run *run = empty_run(type);
    if (run == NULL) {
        return NULL;
    }
    if (PyArg_ParseTuple(args, "OO", &catalogue, &config) && read_text(run, catalogue, &texts.catalogue) &&
        read_text(run, config, &texts.config)) {
        told = ask_long_text(run, remarks_of, &own);
    }
    if (told != NULL && own.answer == WORMWEEKLY_FAULT) {
        told = refuse_with(run, own.answer, told);
    }
    Py_DECREF(run);
    return told;
}

static void run_free(Run *run) {
    PyTypeObject *type = Py_TYPE(run);
    PyObject_ClearWeakRefs((PyObject *)run);
    handles_free(&run->handles);
    Py_XDECREF(run->module);
    Py_XDECREF(run->tell);
    Py_XDECREF(run->refused);
    free(run->beside);
    ((freefunc)PyType_GetSlot(type, Py_tp_free))(run);
    Py_DECREF(type);
}

static PyObject *counts(Run *self, PyObject *unused) {
    const wormweekly_counts *own = &self->handles.lists.counts;
    (void)unused;
    return Py_BuildValue("(nnn)", (Py_ssize_t)own->instruments, (Py_ssize_t)own->recorders, (Py_ssize_t)own->readers);
}

/* What the first recorder tells of the plan. */
static PyObject *ask_recorder(Run *self, Ask ask, size_t kind, size_t number) {
    PyObject *made = ask_text(self, ask, handles_lend_recorder(&self->handles, 0), kind, number);
    handles_take_recorder(&self->handles, 0);
    return made;
}

static uint32_t name_of(void *handle, size_t kind, size_t number, uint8_t *out, size_t room, size_t *length) {
    return wormweekly_name(handle, (uint32_t)kind, (uint32_t)number, out, room, length);
}

static uint32_t reader_name_of(void *handle, size_t kind, size_t number, uint8_t *out, size_t room, size_t *length) {
    return wormweekly_reader_name(handle, (uint32_t)kind, (uint32_t)number, out, room, length);
}

static uint32_t warnings_of(void *handle, size_t at, size_t number, uint8_t *out, size_t room, size_t *length) {
    (void)at;
    (void)number;
    return wormweekly_warnings(handle, out, room, length);
}

/* A name of the plan, "" where there is neither a recorder nor a reader to ask. The run is only just opened. */
static PyObject *name(Run *self, PyObject *args) {
    const Lists *lists = &self->handles.lists;
    unsigned int kind, number;
    if (!PyArg_ParseTuple(args, "II", &kind, &number) || !is_whole(self)) {
        return NULL;
    }
    if (lists->counts.recorders > 0) {
        return ask_recorder(self, name_of, kind, number);
    }
    return lists->counts.readers > 0 ? ask_text(self, reader_name_of, &lists->readers[0], kind, number)
                                     : PyUnicode_FromString("");
}

static PyObject *warnings(Run *self, PyObject *unused) {
    (void)unused;
    if (!is_whole(self)) {
        return NULL;
    }
    return self->handles.lists.counts.recorders > 0 ? ask_recorder(self, warnings_of, 0, 0) : PyUnicode_FromString("");
}

/* The seat of a number, as an instance of a class below the type of its kind. */
static PyObject *new_seat(Run *self, PyObject *args, PyTypeObject *below, size_t count) {
    PyObject *given;
    Py_ssize_t number;
    Seat *made;
    if (!PyArg_ParseTuple(args, "O!n", &PyType_Type, &given, &number)) {
        return NULL;
    }
    if (!PyType_IsSubtype((PyTypeObject *)given, below)) {
        return refuse_type(self, "a class of such seats", given);
    }
    if (number < 0 || (size_t)number >= count) {
        return refuse(self, WORMWEEKLY_UNKNOWN);
    }
    made = (Seat *)PyType_GenericAlloc((PyTypeObject *)given, 0);
    if (made != NULL) {
        made->run = (Run *)Py_NewRef((PyObject *)self);
        made->number = (size_t)number;
    }
    return (PyObject *)made;
}

static PyObject *instrument(Run *self, PyObject *args) {
    return new_seat(self, args, self->state->instrument, self->handles.lists.counts.instruments);
}

static PyObject *recorder(Run *self, PyObject *args) {
    return new_seat(self, args, self->state->recorder, self->handles.lists.counts.recorders);
}

static PyObject *reader(Run *self, PyObject *args) {
    return new_seat(self, args, self->state->reader, self->handles.lists.counts.readers);
}

static PyObject *compared(Run *self, uint32_t number, uint32_t kind, const Attributes *own, uint32_t optional) {
    uint8_t fault[4096];
    size_t length = 0;
    uint32_t answer = wormweekly_expect(handles_lend_recorder(&self->handles, 0), number, kind, own->bytes, own->length,
                                        own->all, own->count, optional, fault, sizeof fault, &length);
    handles_take_recorder(&self->handles, 0);
    return answer == WORMWEEKLY_FAULT ? refuse_told(self, OTHER_MEANING, fault, length, sizeof fault)
                                      : done(self, answer);
}

/* expect(number, kind, pairs of a key and a value, bits of keys that may be left out) */
static PyObject *expect(Run *self, PyObject *args) {
    unsigned int number, kind, optional;
    PyObject *pairs, *made = NULL;
    Given given;
    if (!PyArg_ParseTuple(args, "IIOI", &number, &kind, &pairs, &optional) || !is_whole(self)) {
        return NULL;
    }
    if (self->handles.lists.counts.recorders == 0) {
        return refuse(self, WORMWEEKLY_UNKNOWN_RECORDER);
    }
    if (read_pairs(self, pairs, &given)) {
        made = compared(self, number, kind, &given.own, optional);
    }
    free_given(&given);
    return made;
}

static PyObject *total_of(const wormweekly_total *total) {
    return Py_BuildValue("(KNKK)", (unsigned long long)total->count, PyBool_FromLong(total->negative == 1),
                         (unsigned long long)total->high, (unsigned long long)total->low);
}

/* (count, is negative, high, low) of an instrument */
static PyObject *settle(Run *self, PyObject *args) {
    Py_ssize_t number;
    wormweekly_total total;
    uint32_t answer;
    if (!PyArg_ParseTuple(args, "n", &number) || !is_whole(self)) {
        return NULL;
    }
    if (number < 0 || (size_t)number >= self->handles.lists.counts.instruments) {
        return refuse(self, WORMWEEKLY_UNKNOWN);
    }
    Py_BEGIN_ALLOW_THREADS
    answer = handles_settle(&self->handles, (size_t)number, &total);
    Py_END_ALLOW_THREADS
    return answer == WORMWEEKLY_DONE ? total_of(&total) : refuse(self, answer);
}

static PyObject *totals_of(const wormweekly_total *totals, size_t count) {
    PyObject *made = PyTuple_New((Py_ssize_t)count);
    for (size_t at = 0; made != NULL && at < count; at++) {
        PyObject *own = total_of(&totals[at]);
        if (own == NULL || PyTuple_SetItem(made, (Py_ssize_t)at, own) < 0) {
            Py_CLEAR(made);
        }
    }
    return made;
}

/* A run that tells as this one does, in which one that ended may stand. */
static Run *run_beside(Run *self) {
    Run *made = empty_run(Py_TYPE((PyObject *)self));
    if (made == NULL) {
        return NULL;
    }
    made->is_strict = self->is_strict;
    made->tell = Py_NewRef(self->tell);
    made->handles.lists.counts = self->handles.lists.counts;
    if (!has_beside(made)) {
        Py_CLEAR(made);
        return NULL;
    }
    for (size_t at = 0; at < made->handles.lists.counts.instruments; at++) {
        made->beside[at].greatest = self->beside[at].greatest;
    }
    return made;
}

static PyObject *roll_into(Run *self, uint64_t start, Run *ended, wormweekly_total *totals) {
    uint32_t answer;
    Py_BEGIN_ALLOW_THREADS
    answer = handles_roll_over(&self->handles, start, totals, &ended->handles);
    Py_END_ALLOW_THREADS
    return answer == WORMWEEKLY_DONE
               ? Py_BuildValue("(ON)", ended, totals_of(totals, self->handles.lists.counts.instruments))
               : refuse(self, answer);
}

/* (the run that ended, its totals, as `settle` tells one); what is recorded from then on is of the next run. */
static PyObject *roll_over(Run *self, PyObject *start) {
    uint64_t from;
    wormweekly_total *totals;
    Run *ended;
    PyObject *made = NULL;
    if (!read_unsigned(self, start, &from, WRONG_CLOCK) || !is_whole(self)) {
        return NULL;
    }
    totals = calloc(self->handles.lists.counts.instruments + 1, sizeof *totals);
    if (totals == NULL) {
        return PyErr_NoMemory();
    }
    ended = run_beside(self);
    if (ended != NULL) {
        made = roll_into(self, from, ended, totals);
    }
    Py_XDECREF((PyObject *)ended);
    free(totals);
    return made;
}

static PyMethodDef methods[] = {
    { "lint", (PyCFunction)lint, METH_VARARGS | METH_CLASS, NULL },
    { "open_anew", (PyCFunction)open_anew, METH_VARARGS, NULL },
    { "counts", (PyCFunction)counts, METH_NOARGS, NULL },
    { "name", (PyCFunction)name, METH_VARARGS, NULL },
    { "warnings", (PyCFunction)warnings, METH_NOARGS, NULL },
    { "instrument", (PyCFunction)instrument, METH_VARARGS, NULL },
    { "recorder", (PyCFunction)recorder, METH_VARARGS, NULL },
    { "reader", (PyCFunction)reader, METH_VARARGS, NULL },
    { "expect", (PyCFunction)expect, METH_VARARGS, NULL },
    { "settle", (PyCFunction)settle, METH_VARARGS, NULL },
    { "roll_over", (PyCFunction)roll_over, METH_O, NULL },
    { NULL, NULL, 0, NULL },
};

static PyMemberDef members[] = {
    { "__weaklistoffset__", T_PYSSIZET, offsetof(Run, weak), READONLY, NULL }, { NULL, 0, 0, 0, NULL }
};

static PyType_Slot slots[] = {
    { Py_tp_new, run_new }, { Py_tp_dealloc, run_free }, { Py_tp_methods, methods }, { Py_tp_members, members }, { 0, NULL }
};

PyType_Spec run_spec = { "wormweekly._library.Run", sizeof(Run), 0, Py_TPFLAGS_DEFAULT, slots };
