/* Instruments, and sets of attributes that are bound to one. */
#include "library.h"

static PyObject *new_bound(Run *run, size_t instrument, const wormweekly_prepared *prepared) {
    Bound *made = (Bound *)PyType_GenericAlloc(run->state->bound, 0);
    if (made != NULL) {
        made->run = (Run *)Py_NewRef((PyObject *)run);
        made->instrument = instrument;
        made->prepared = *prepared;
    }
    return (PyObject *)made;
}

int prepare_set(Seat *on, PyObject *attributes, wormweekly_prepared *prepared) {
    Run *run = on->run;
    Given given;
    int is_found = 0;
    if (!is_whole(run)) {
        return 0;
    }
    if (read_attributes(run, attributes, &given)) {
        uint32_t answer = handles_prepare(&run->handles, on->number, &given.own, prepared);
        is_found = answer == WORMWEEKLY_DONE;
        if (!is_found) {
            refuse_said(run, answer, 0, on->number, &given.own, 0);
        }
    }
    free_given(&given);
    return is_found;
}

static PyObject *bind(Seat *self, PyObject *attributes) {
    wormweekly_prepared prepared = { { 0 }, 0 };
    return prepare_set(self, attributes, &prepared) ? new_bound(self->run, self->number, &prepared) : NULL;
}

/* Recordings by any recorder, which any thread may make. */

PyObject *made_of(Run *run, size_t instrument, Recording *what) {
    uint32_t answer = handles_record_shared(&run->handles, instrument, what);
    if (answer == WORMWEEKLY_DONE || what->given == NULL) {
        return done(run, answer);
    }
    return refuse_said(run, answer, 0, instrument, what->given, what->prepared.value);
}

static PyObject *record_given(Seat *self, PyObject *value, PyObject *attributes) {
    Run *run = self->run;
    Given given;
    Recording what = { .given = &given.own };
    PyObject *made = NULL;
    if (!is_whole(run) || !read_value(run, value, &what.prepared.value)) {
        return NULL;
    }
    if (read_attributes(run, attributes, &given)) {
        made = made_of(run, self->number, &what);
    }
    free_given(&given);
    return made;
}

/* add(value), add(value, attributes) */
static PyObject *add(Seat *self, PyObject *const *args, Py_ssize_t count) {
    if (count != 2 && !has_count(self->run, count, 1)) {
        return NULL;
    }
    return settled(self->run, self->number, record_given(self, args[0], count == 2 ? args[1] : NULL));
}

PyObject *made_clamped(Run *run, size_t instrument, Recording *what) {
    Beside *beside = &run->beside[instrument];
    int is_above = what->prepared.value > beside->greatest;
    PyObject *made;
    if (is_above) {
        what->prepared.value = beside->greatest;
    }
    made = is_whole(run) ? made_of(run, instrument, what) : NULL;
    if (made != NULL && is_above) {
        beside->clamped++;
    }
    return settled(run, instrument, made);
}

/* record_clamped(value), record_clamped(value, attributes) */
static PyObject *record_clamped(Seat *self, PyObject *const *args, Py_ssize_t count) {
    Run *run = self->run;
    Given given;
    Recording what = { .given = &given.own };
    PyObject *made = NULL;
    if (count != 2 && !has_count(run, count, 1)) {
        return NULL;
    }
    if (!read_measured(run, args[0], &what.prepared.value)) {
        return settled(run, self->number, NULL);
    }
    made = read_attributes(run, count == 2 ? args[1] : NULL, &given) ? made_clamped(run, self->number, &what)
                                                                     : settled(run, self->number, NULL);
    free_given(&given);
    return made;
}

static PyObject *refused(Seat *self, PyObject *unused) {
    PyObject *counts = PyList_GetItem(self->run->refused, (Py_ssize_t)self->number);
    (void)unused;
    return counts == NULL ? NULL : PyDict_Copy(counts);
}

static PyObject *add_bound(Bound *self, PyObject *value) {
    Run *run = self->run;
    Recording what = { .prepared = self->prepared };
    PyObject *made = NULL;
    if (is_whole(run) && read_value(run, value, &what.prepared.value)) {
        made = made_of(run, self->instrument, &what);
    }
    return settled(run, self->instrument, made);
}

static PyObject *grant(Seat *self, PyObject *const *args, Py_ssize_t count) {
    Run *run = self->run;
    Seat *recorder;
    uint64_t amount;
    if (!has_count(run, count, 2) || !is_whole(run)) {
        return NULL;
    }
    recorder = read_seat(run, args[0], run->state->recorder, "a recorder");
    if (recorder == NULL || !read_unsigned(run, args[1], &amount, WORMWEEKLY_NO_SPARE)) {
        return NULL;
    }
    if (recorder->run != run) {
        return refuse(run, WORMWEEKLY_STRANGER);
    }
    return done(run, handles_grant(&run->handles, self->number, recorder->number, amount));
}

/* (declared, granted, left) */
static PyObject *spare(Seat *self, PyObject *unused) {
    Run *run = self->run;
    wormweekly_spare_out out;
    uint32_t answer;
    (void)unused;
    if (!is_whole(run)) {
        return NULL;
    }
    answer = handles_spare(&run->handles, self->number, &out);
    if (answer != WORMWEEKLY_DONE) {
        return refuse(run, answer);
    }
    return Py_BuildValue("(KKK)", (unsigned long long)out.declared, (unsigned long long)out.granted,
                         (unsigned long long)out.left);
}

static PyObject *close_it(Seat *self, PyObject *unused) {
    (void)unused;
    return is_whole(self->run) ? done(self->run, handles_close(&self->run->handles, self->number)) : NULL;
}

static PyObject *clamped(Seat *self, PyObject *unused) {
    (void)unused;
    return PyLong_FromUnsignedLongLong(self->run->beside[self->number].clamped);
}

/* What the library answers to a key with a value alone; that it is done where no recording can tell more. */
static int answer_of(Seat *self, PyObject *key, PyObject *value, uint32_t *answer) {
    Run *run = self->run;
    Given given;
    wormweekly_prepared unused;
    PyObject *one = PyDict_New();
    if (one == NULL || PyDict_SetItem(one, key, value) < 0) {
        Py_XDECREF(one);
        return 0;
    }
    *answer = WORMWEEKLY_DONE;
    if (!handles_are_whole(&run->handles)) {
        Py_DECREF(one);
        return 1;
    }
    if (read_attributes(run, one, &given)) {
        *answer = handles_prepare(&run->handles, self->number, &given.own, &unused);
    } else {
        PyErr_Clear();
    }
    free_given(&given);
    Py_DECREF(one);
    return 1;
}

/* known_or(key, value, other) */
static PyObject *known_or(Seat *self, PyObject *const *args, Py_ssize_t count) {
    uint32_t answer;
    if (!has_count(self->run, count, 3) || !answer_of(self, args[0], args[1], &answer)) {
        return NULL;
    }
    if (answer != WORMWEEKLY_UNKNOWN_VALUE) {
        return Py_NewRef(args[1]);
    }
    self->run->beside[self->number].replaced++;
    return Py_NewRef(args[2]);
}

static PyObject *declares(Seat *self, PyObject *key) {
    uint32_t answer;
    return answer_of(self, key, Py_False, &answer) ? PyBool_FromLong(answer != WORMWEEKLY_UNKNOWN_KEY) : NULL;
}

static PyObject *replaced(Seat *self, PyObject *unused) {
    (void)unused;
    return PyLong_FromUnsignedLongLong(self->run->beside[self->number].replaced);
}

static PyMethodDef methods[] = {
    { "known_or", (PyCFunction)(void (*)(void))known_or, METH_FASTCALL, NULL },
    { "declares", (PyCFunction)declares, METH_O, NULL },
    { "_replaced", (PyCFunction)replaced, METH_NOARGS, NULL },
    { "add", (PyCFunction)(void (*)(void))add, METH_FASTCALL, NULL },
    { "record", (PyCFunction)(void (*)(void))add, METH_FASTCALL, NULL },
    { "_refused", (PyCFunction)refused, METH_NOARGS, NULL },
    { "record_clamped", (PyCFunction)(void (*)(void))record_clamped, METH_FASTCALL, NULL },
    { "time", (PyCFunction)(void (*)(void))time_blocks, METH_VARARGS | METH_KEYWORDS,
      "time($self, /, attributes=None, unit=1000000)\n--\n\nA `with` that records how long its block took." },
    { "in_flight", (PyCFunction)(void (*)(void))count_blocks, METH_VARARGS | METH_KEYWORDS,
      "in_flight($self, /, attributes=None)\n--\n\nA `with` that counts its block in and out." },
    { "bind", (PyCFunction)bind, METH_O, NULL },
    { "grant", (PyCFunction)(void (*)(void))grant, METH_FASTCALL, NULL },
    { "_spare", (PyCFunction)spare, METH_NOARGS, NULL },
    { "_clamped", (PyCFunction)clamped, METH_NOARGS, NULL },
    { "close", (PyCFunction)close_it, METH_NOARGS, NULL },
    { NULL, NULL, 0, NULL },
};

static PyType_Slot slots[] = {
    { Py_tp_new, no_new }, { Py_tp_dealloc, seat_free }, { Py_tp_methods, methods }, { 0, NULL }
};

PyType_Spec instrument_spec = { "wormweekly._library.Instrument", sizeof(Seat), 0,
                                Py_TPFLAGS_DEFAULT | Py_TPFLAGS_BASETYPE, slots };

static PyMethodDef bound_methods[] = {
    { "add", (PyCFunction)add_bound, METH_O, NULL },
    { "record", (PyCFunction)add_bound, METH_O, NULL },
    { "time", (PyCFunction)(void (*)(void))time_bound, METH_VARARGS | METH_KEYWORDS,
      "time($self, /, unit=1000000)\n--\n\nA `with` that records how long its block took." },
    { "in_flight", (PyCFunction)count_bound, METH_NOARGS,
      "in_flight($self, /)\n--\n\nA `with` that counts its block in and out." },
    { NULL, NULL, 0, NULL },
};

static PyType_Slot bound_slots[] = {
    { Py_tp_new, no_new }, { Py_tp_dealloc, seat_free }, { Py_tp_methods, bound_methods }, { 0, NULL }
};

PyType_Spec bound_spec = { "wormweekly._library.Bound", sizeof(Bound), 0, Py_TPFLAGS_DEFAULT, bound_slots };
