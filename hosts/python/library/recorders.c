/* Recorders: each belongs to the first thread that records with it, until another takes it over. */
#include "library.h"

#include <stdlib.h>

enum { FEW_ITEMS = 32 };

static int is_own(Seat *recorder) {
    unsigned long self = PyThread_get_thread_ident();
    if (recorder->owner == 0) {
        recorder->owner = self;
    }
    if (recorder->owner != self) {
        refuse(recorder->run, OTHER_THREAD);
        return 0;
    }
    return is_whole(recorder->run);
}

static Work work_on(Seat *recorder, Run *of, size_t instrument) {
    return (Work){ &recorder->run->handles, recorder->number, &of->handles, instrument };
}

static PyObject *take_over(Seat *self, PyObject *unused) {
    (void)unused;
    self->owner = PyThread_get_thread_ident();
    return Py_NewRef(Py_None);
}

static PyObject *record(Seat *self, PyObject *const *args, Py_ssize_t count) {
    Run *run = self->run;
    Seat *on;
    Given given;
    int64_t value;
    PyObject *made = NULL;
    if (!has_count(run, count, 3) || !is_own(self)) {
        return NULL;
    }
    on = read_seat(run, args[0], run->state->instrument, "an instrument");
    if (on == NULL || !read_value(run, args[2], &value)) {
        return NULL;
    }
    if (read_attributes(run, args[1], &given)) {
        Work work = work_on(self, on->run, on->number);
        uint32_t answer = handles_record(&work, &given.own, value);
        made = answer == WORMWEEKLY_DONE ? done(run, answer)
                                         : refuse_said(run, answer, self->number, on->number, &given.own, value);
    }
    free_given(&given);
    return made;
}

static PyObject *add(Seat *self, PyObject *const *args, Py_ssize_t count) {
    Run *run = self->run;
    Bound *bound;
    wormweekly_prepared own;
    Work work;
    if (!has_count(run, count, 2) || !is_own(self)) {
        return NULL;
    }
    bound = read_bound(run, args[0]);
    if (bound == NULL) {
        return NULL;
    }
    own = bound->prepared;
    if (!read_value(run, args[1], &own.value)) {
        return NULL;
    }
    work = work_on(self, bound->run, bound->instrument);
    return done(run, handles_add(&work, &own));
}

static Bound *read_item(Run *run, PyObject *item, wormweekly_prepared *own) {
    Bound *bound;
    if (!PyTuple_Check(item) || PyTuple_Size(item) != 2) {
        refuse_type(run, "a pair of a bound set and a value", item);
        return NULL;
    }
    bound = read_bound(run, PyTuple_GetItem(item, 0));
    if (bound == NULL) {
        return NULL;
    }
    *own = bound->prepared;
    return read_value(run, PyTuple_GetItem(item, 1), &own->value) ? bound : NULL;
}

/* Reads the items before one of another instrument, and answers how many these are. */
static Py_ssize_t read_items(Run *run, PyObject *items, Py_ssize_t count, wormweekly_prepared *list, Bound **first) {
    for (Py_ssize_t at = 0; at < count; at++) {
        Bound *bound = read_item(run, PyList_GetItem(items, at), &list[at]);
        if (bound == NULL) {
            return -1;
        }
        if (at == 0) {
            *first = bound;
        } else if (bound->run != (*first)->run || bound->instrument != (*first)->instrument) {
            return at;
        }
    }
    return count;
}

static PyObject *add_items(Seat *self, PyObject *items, Py_ssize_t count, wormweekly_prepared *list) {
    Run *run = self->run;
    Bound *first = NULL;
    Work work;
    size_t made = 0;
    uint32_t answer;
    Py_ssize_t read = read_items(run, items, count, list, &first);
    if (read <= 0) {
        return read < 0 ? NULL : PyLong_FromLong(0);
    }
    /* the list may let go of it while this thread waits for a mutex */
    Py_INCREF(first);
    work = work_on(self, first->run, first->instrument);
    answer = handles_add_all(&work, list, (size_t)read, &made);
    Py_DECREF(first);
    if (answer == WORMWEEKLY_DONE && read < count) {
        answer = WORMWEEKLY_UNKNOWN_INSTRUMENT;
    }
    return answer == WORMWEEKLY_DONE ? PyLong_FromSize_t(made) : refuse_with(run, answer, PyLong_FromSize_t(made));
}

static PyObject *add_all(Seat *self, PyObject *items) {
    wormweekly_prepared few[FEW_ITEMS], *list = few;
    Py_ssize_t count;
    PyObject *answer;
    if (!is_own(self)) {
        return NULL;
    }
    if (!PyList_Check(items)) {
        return refuse_type(self->run, "a list of pairs", items);
    }
    count = PyList_Size(items);
    if (count > FEW_ITEMS) {
        list = malloc((size_t)count * sizeof *list);
        if (list == NULL) {
            return PyErr_NoMemory();
        }
    }
    answer = add_items(self, items, count, list);
    if (list != few) {
        free(list);
    }
    return answer;
}

/* (declared, granted, spent, left) on an instrument: any thread may ask. */
static PyObject *budget(Seat *self, PyObject *instrument) {
    Run *run = self->run;
    Seat *on = read_seat(run, instrument, run->state->instrument, "an instrument");
    wormweekly_budget_out out;
    Work work;
    uint32_t answer;
    if (on == NULL || !is_whole(run)) {
        return NULL;
    }
    work = work_on(self, on->run, on->number);
    answer = handles_budget(&work, &out);
    if (answer != WORMWEEKLY_DONE) {
        return refuse(run, answer);
    }
    return Py_BuildValue("(KKKK)", (unsigned long long)out.declared, (unsigned long long)out.granted,
                         (unsigned long long)out.spent, (unsigned long long)out.left);
}

static PyObject *ask(Seat *self, PyObject *const *args, Py_ssize_t count) {
    Run *run = self->run;
    Seat *on;
    uint64_t amount;
    Work work;
    if (!has_count(run, count, 2) || !is_whole(run)) {
        return NULL;
    }
    on = read_seat(run, args[0], run->state->instrument, "an instrument");
    if (on == NULL || !read_unsigned(run, args[1], &amount, WORMWEEKLY_NO_SPARE)) {
        return NULL;
    }
    work = work_on(self, on->run, on->number);
    return done(run, handles_ask(&work, amount));
}

static PyMethodDef methods[] = {
    { "record", (PyCFunction)(void (*)(void))record, METH_FASTCALL, NULL },
    { "add", (PyCFunction)(void (*)(void))add, METH_FASTCALL, NULL },
    { "add_all", (PyCFunction)add_all, METH_O, NULL },
    { "ask", (PyCFunction)(void (*)(void))ask, METH_FASTCALL, NULL },
    { "_budget", (PyCFunction)budget, METH_O, NULL },
    { "take_over", (PyCFunction)take_over, METH_NOARGS, NULL },
    { NULL, NULL, 0, NULL },
};

static PyType_Slot slots[] = {
    { Py_tp_new, no_new }, { Py_tp_dealloc, seat_free }, { Py_tp_methods, methods }, { 0, NULL }
};

PyType_Spec recorder_spec = { "wormweekly._library.Recorder", sizeof(Seat), 0, Py_TPFLAGS_DEFAULT | Py_TPFLAGS_BASETYPE,
                              slots };
