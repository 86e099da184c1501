/* The module `wormweekly._library`, and what its types share. */
#include "library.h"

PyObject *no_new(PyTypeObject *type, PyObject *args, PyObject *keywords) {
    (void)type;
    (void)args;
    (void)keywords;
    PyErr_SetString(PyExc_TypeError, "Metrics.open makes it");
    return NULL;
}

_Static_assert(offsetof(Seat, run) == offsetof(Bound, run), "a bound set is freed as a seat is");

void seat_free(Seat *self) {
    PyTypeObject *type = Py_TYPE(self);
    Py_XDECREF((PyObject *)self->run);
    ((freefunc)PyType_GetSlot(type, Py_tp_free))(self);
    Py_DECREF(type);
}

static PyTypeObject *new_type(PyObject *module, PyType_Spec *spec) {
    PyTypeObject *made = (PyTypeObject *)PyType_FromModuleAndSpec(module, spec, NULL);
    if (made != NULL && PyModule_AddType(module, made) < 0) {
        Py_CLEAR(made);
    }
    return made;
}

static int fill(PyObject *module) {
    State *state = PyModule_GetState(module);
    PyObject *refusals = PyImport_ImportModule("wormweekly._refusals");
    state->refusal = refusals == NULL ? NULL : PyObject_GetAttrString(refusals, "refusal_of");
    state->refusals = refusals == NULL ? NULL : PyObject_GetAttrString(refusals, "Refusal");
    Py_XDECREF(refusals);
    state->run = new_type(module, &run_spec);
    state->instrument = new_type(module, &instrument_spec);
    state->recorder = new_type(module, &recorder_spec);
    state->reader = new_type(module, &reader_spec);
    state->bound = new_type(module, &bound_spec);
    state->timer = new_type(module, &timer_spec);
    state->in_flight = new_type(module, &in_flight_spec);
    return PyErr_Occurred() ? -1 : 0;
}

static int visit_all(PyObject *module, visitproc visit, void *arg) {
    State *state = PyModule_GetState(module);
    Py_VISIT(state->refusal);
    Py_VISIT(state->refusals);
    Py_VISIT(state->run);
    Py_VISIT(state->instrument);
    Py_VISIT(state->recorder);
    Py_VISIT(state->reader);
    Py_VISIT(state->bound);
    Py_VISIT(state->timer);
    Py_VISIT(state->in_flight);
    return 0;
}

static int clear(PyObject *module) {
    State *state = PyModule_GetState(module);
    Py_CLEAR(state->refusal);
    Py_CLEAR(state->refusals);
    Py_CLEAR(state->run);
    Py_CLEAR(state->instrument);
    Py_CLEAR(state->recorder);
    Py_CLEAR(state->reader);
    Py_CLEAR(state->bound);
    Py_CLEAR(state->timer);
    Py_CLEAR(state->in_flight);
    return 0;
}

static PyModuleDef_Slot slots[] = { { Py_mod_exec, fill }, { 0, NULL } };

static PyModuleDef library = {
    PyModuleDef_HEAD_INIT,
    .m_name = "wormweekly._library",
    .m_size = sizeof(State),
    .m_slots = slots,
    .m_traverse = visit_all,
    .m_clear = clear,
};

PyMODINIT_FUNC PyInit__library(void) { return PyModuleDef_Init(&library); }
