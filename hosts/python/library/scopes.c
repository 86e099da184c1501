/* Blocks that are timed, or counted in and out, by any recorder. */
#include "library.h"

#include <stdlib.h>
#include <string.h>
#include <time.h>

/* A block under way: which thread entered it, and when, or where it is counted in, if it is. */
typedef struct {
    unsigned long thread;
    int64_t began;
    int is_counted;
    Place place;
} Block;

/* What blocks are entered for, one in another or by several threads. A thread leaves its own last one; where it entered
   none, that of another. Where the attributes were refused, nothing is recorded. */
typedef struct {
    PyObject_HEAD
    Run *run;
    size_t instrument;
    wormweekly_prepared prepared;
    int is_bound;
    int64_t unit;
    Block *blocks;
    size_t count, room;
} Scope;

_Static_assert(offsetof(Scope, run) == offsetof(Seat, run), "a scope is freed as a seat is");

static void scope_free(Scope *self) {
    free(self->blocks);
    seat_free((Seat *)self);
}

/* For blocks on an instrument. Where something was refused before, that is settled. */
static PyObject *new_scope(PyTypeObject *type, Run *run, size_t instrument, const wormweekly_prepared *prepared,
                           int64_t unit) {
    PyObject *refused = prepared == NULL ? settled(run, instrument, NULL) : NULL;
    Scope *made;
    if (prepared == NULL && refused == NULL) {
        return NULL;
    }
    Py_XDECREF(refused);
    made = (Scope *)PyType_GenericAlloc(type, 0);
    if (made != NULL) {
        made->run = (Run *)Py_NewRef((PyObject *)run);
        made->instrument = instrument;
        made->is_bound = prepared != NULL;
        made->prepared = prepared == NULL ? (wormweekly_prepared){ 0 } : *prepared;
        made->unit = unit;
    }
    return (PyObject *)made;
}

static PyObject *mapping_of(PyObject *attributes) { return attributes == Py_None ? NULL : attributes; }

static int read_unit(Run *run, PyObject *given, int64_t *unit) {
    if (given == NULL) {
        *unit = 1000000;
        return 1;
    }
    if (!read_measured(run, given, unit)) {
        return 0;
    }
    if (*unit < 1) {
        refuse_with(run, WRONG_TYPE, PyUnicode_FromFormat("a unit of so many nanoseconds, not %S", given));
    }
    return *unit > 0;
}

PyObject *time_blocks(Seat *self, PyObject *args, PyObject *keywords) {
    static char *names[] = { "attributes", "unit", NULL };
    PyObject *attributes = NULL, *given = NULL;
    wormweekly_prepared own = { 0 };
    int64_t unit = 1;
    int is_found;
    if (!PyArg_ParseTupleAndKeywords(args, keywords, "|OO:time", names, &attributes, &given)) {
        return NULL;
    }
    is_found = read_unit(self->run, given, &unit) && prepare_set(self, mapping_of(attributes), &own);
    return new_scope(self->run->state->timer, self->run, self->number, is_found ? &own : NULL, unit);
}

PyObject *count_blocks(Seat *self, PyObject *args, PyObject *keywords) {
    static char *names[] = { "attributes", NULL };
    PyObject *attributes = NULL;
    wormweekly_prepared own = { 0 };
    int is_found;
    if (!PyArg_ParseTupleAndKeywords(args, keywords, "|O:in_flight", names, &attributes)) {
        return NULL;
    }
    is_found = prepare_set(self, mapping_of(attributes), &own);
    return new_scope(self->run->state->in_flight, self->run, self->number, is_found ? &own : NULL, 1);
}

PyObject *time_bound(Bound *self, PyObject *args, PyObject *keywords) {
    static char *names[] = { "unit", NULL };
    PyObject *given = NULL;
    int64_t unit = 1;
    int is_read;
    if (!PyArg_ParseTupleAndKeywords(args, keywords, "|O:time", names, &given)) {
        return NULL;
    }
    is_read = read_unit(self->run, given, &unit);
    return new_scope(self->run->state->timer, self->run, self->instrument, is_read ? &self->prepared : NULL, unit);
}

PyObject *count_bound(Bound *self, PyObject *unused) {
    (void)unused;
    return new_scope(self->run->state->in_flight, self->run, self->instrument, &self->prepared, 1);
}

static int push(Scope *self, Block block) {
    if (self->count == self->room) {
        size_t room = 2 * self->room + 1;
        Block *blocks = realloc(self->blocks, room * sizeof *blocks);
        if (blocks == NULL) {
            PyErr_NoMemory();
            return 0;
        }
        self->blocks = blocks;
        self->room = room;
    }
    block.thread = PyThread_get_thread_ident();
    self->blocks[self->count++] = block;
    return 1;
}

static int pop(Scope *self, Block *block) {
    unsigned long thread = PyThread_get_thread_ident();
    size_t at = self->count;
    if (at == 0) {
        PyErr_SetString(PyExc_RuntimeError, "the block was not entered");
        return 0;
    }
    while (at > 0 && self->blocks[at - 1].thread != thread) {
        at--;
    }
    at = at > 0 ? at - 1 : self->count - 1;
    *block = self->blocks[at];
    self->count--;
    memmove(&self->blocks[at], &self->blocks[at + 1], (self->count - at) * sizeof *self->blocks);
    return 1;
}

/* A block was left, with an exception or None as the second argument: that is told, and not a refusal that came after
   it. */
static PyObject *left(Scope *self, PyObject *const *args, PyObject *answer) {
    if (answer == NULL && args[1] != Py_None && PyErr_ExceptionMatches(self->run->state->refusals)) {
        PyErr_Clear();
        return Py_NewRef(Py_None);
    }
    return answer;
}

/* Timers */

static int64_t nanoseconds(void) {
    struct timespec now;
    clock_gettime(CLOCK_MONOTONIC, &now);
    return (int64_t)now.tv_sec * 1000000000 + now.tv_nsec;
}

static PyObject *timer_enter(Scope *self, PyObject *unused) {
    const Block block = { .began = nanoseconds() };
    (void)unused;
    return push(self, block) ? Py_NewRef((PyObject *)self) : NULL;
}

static PyObject *timer_exit(Scope *self, PyObject *const *args, Py_ssize_t count) {
    int64_t now = nanoseconds();
    Recording what = { .prepared = self->prepared };
    Block block;
    if (!has_count(self->run, count, 3) || !pop(self, &block)) {
        return NULL;
    }
    if (!self->is_bound) {
        return Py_NewRef(Py_None);
    }
    what.prepared.value = (now - block.began) / self->unit;
    return left(self, args, made_clamped(self->run, self->instrument, &what));
}

/* Blocks in flight */

static PyObject *count_out(Scope *self, const Place *place) {
    Run *run = self->run;
    wormweekly_prepared own = self->prepared;
    PyObject *made = NULL;
    own.value = -1;
    if (is_whole(run)) {
        made = done(run, handles_count_out(&run->handles, self->instrument, &own, place));
    }
    return settled(run, self->instrument, made);
}

static PyObject *in_flight_enter(Scope *self, PyObject *unused) {
    Run *run = self->run;
    Recording what = { .prepared = self->prepared, .is_counted_in = 1 };
    Block block = { 0 };
    (void)unused;
    if (self->is_bound) {
        PyObject *made;
        what.prepared.value = 1;
        made = is_whole(run) ? made_of(run, self->instrument, &what) : NULL;
        block.is_counted = made != NULL;
        block.place = what.place;
        made = settled(run, self->instrument, made);
        if (made == NULL) {
            return NULL;
        }
        Py_DECREF(made);
    }
    if (push(self, block)) {
        return Py_NewRef((PyObject *)self);
    }
    if (block.is_counted) {
        Py_XDECREF(count_out(self, &block.place));
        PyErr_NoMemory();
    }
    return NULL;
}

static PyObject *in_flight_exit(Scope *self, PyObject *const *args, Py_ssize_t count) {
    Block block;
    if (!has_count(self->run, count, 3) || !pop(self, &block)) {
        return NULL;
    }
    return block.is_counted ? left(self, args, count_out(self, &block.place)) : Py_NewRef(Py_None);
}

static PyObject *is_counted(Scope *self, void *unused) {
    (void)unused;
    for (size_t at = 0; at < self->count; at++) {
        if (self->blocks[at].is_counted) {
            return Py_NewRef(Py_True);
        }
    }
    return Py_NewRef(Py_False);
}

static PyMethodDef timer_methods[] = {
    { "__enter__", (PyCFunction)timer_enter, METH_NOARGS, NULL },
    { "__exit__", (PyCFunction)(void (*)(void))timer_exit, METH_FASTCALL, NULL },
    { NULL, NULL, 0, NULL },
};

static PyType_Slot timer_slots[] = {
    { Py_tp_new, no_new }, { Py_tp_dealloc, scope_free }, { Py_tp_methods, timer_methods }, { 0, NULL }
};

PyType_Spec timer_spec = { "wormweekly._library.Timer", sizeof(Scope), 0, Py_TPFLAGS_DEFAULT, timer_slots };

static PyMethodDef in_flight_methods[] = {
    { "__enter__", (PyCFunction)in_flight_enter, METH_NOARGS, NULL },
    { "__exit__", (PyCFunction)(void (*)(void))in_flight_exit, METH_FASTCALL, NULL },
    { NULL, NULL, 0, NULL },
};

static PyGetSetDef in_flight_members[] = { { "is_counted", (getter)is_counted, NULL, NULL, NULL },
                                           { NULL, NULL, NULL, NULL, NULL } };

static PyType_Slot in_flight_slots[] = { { Py_tp_new, no_new },
                                         { Py_tp_dealloc, scope_free },
                                         { Py_tp_methods, in_flight_methods },
                                         { Py_tp_getset, in_flight_members },
                                         { 0, NULL } };

PyType_Spec in_flight_spec = { "wormweekly._library.InFlight", sizeof(Scope), 0, Py_TPFLAGS_DEFAULT, in_flight_slots };
