/* The types of the package, and what its files share. */
#ifndef LIBRARY_H
#define LIBRARY_H

#define PY_SSIZE_T_CLEAN
#include <Python.h>

#include "handles.h"

/* What this package refuses by itself. The numbers are none of the library's. */
enum {
    WRONG_TYPE = 1000,
    OTHER_THREAD = 1001,
    FORKED = 1002,
    IN_USE = HANDLES_IN_USE,
    WRONG_CLOCK = 1004,
    NOT_EXPOSED = 1005,
    OTHER_MEANING = 1006
};

typedef struct {
    PyTypeObject *run, *instrument, *recorder, *reader, *bound, *timer, *in_flight;
    PyObject *refusal;  /* makes an exception of a number, and of what is told beside it */
    PyObject *refusals; /* the class of all of them */
} State;

/* What is kept of an instrument beside the library: the greatest value of its range; how many values above that were
   recorded as it; how many that it does not declare were replaced. */
typedef struct {
    int64_t greatest;
    unsigned long long clamped, replaced;
} Beside;

/* What instruments are refused is raised where the run is strict; else it is counted, by instrument and by name, and
   each is told once. */
typedef struct {
    PyObject_HEAD
    PyObject *module;
    State *state;
    Handles handles;
    int is_strict;
    PyObject *tell, *refused, *weak;
    Beside *beside; /* of each instrument */
} Run;

/* An instrument, a recorder or a reader of a run. The owner is the thread of a recorder, 0 before there is one. A reader
 * that is `unsent` keeps batches of all instruments that were not told. */
typedef struct {
    PyObject_HEAD
    Run *run;
    size_t number;
    unsigned long owner;
    int unsent;
} Seat;

typedef struct {
    PyObject_HEAD
    Run *run;
    size_t instrument;
    wormweekly_prepared prepared;
} Bound;

/* Refusals: each answers NULL with an exception, `done` None where the answer is 0. What is told is given away. */
PyObject *refuse(Run *run, uint32_t answer);
PyObject *refuse_with(Run *run, uint32_t answer, PyObject *told);
PyObject *refuse_type(Run *run, const char *wanted, PyObject *given);
PyObject *done(Run *run, uint32_t answer);

/* The same with what attributes and a value are refused for, where that is it. No mutex is held. */
PyObject *refuse_said(Run *run, uint32_t answer, size_t recorder, size_t instrument, const Attributes *given,
                      int64_t value);
int is_whole(Run *run);

/* A recording on an instrument was answered so, NULL where it was refused: that is counted, and raised where the run is
   strict. */
PyObject *settled(Run *run, size_t instrument, PyObject *answer);

/* Looks up a set of attributes for recordings on an instrument; that without any, where there is no mapping. */
int prepare_set(Seat *on, PyObject *attributes, wormweekly_prepared *prepared);

/* Makes a recording by any recorder. The second one makes that of a bound set, and of what is above the range as its
   greatest value, and settles it. */
PyObject *made_of(Run *run, size_t instrument, Recording *what);
PyObject *made_clamped(Run *run, size_t instrument, Recording *what);

/* Arguments: each answers 0 or NULL with an exception where it is not what is wanted. */
int has_count(Run *run, Py_ssize_t given, Py_ssize_t wanted);
int read_value(Run *run, PyObject *given, int64_t *value);
int read_measured(Run *run, PyObject *given, int64_t *value);
int read_unsigned(Run *run, PyObject *given, uint64_t *value, uint32_t refusal);
int read_text(Run *run, PyObject *given, Text *text);
Seat *read_seat(Run *run, PyObject *given, PyTypeObject *type, const char *wanted);
Bound *read_bound(Run *run, PyObject *given);

enum { FEW_ATTRIBUTES = 8, FEW_BYTES = 512, MOST_ATTRIBUTES = 65 };

/* Attributes of a mapping, in room of the caller's frame as long as they are few. The caller frees them in any case. */
typedef struct {
    Attributes own;
    uint8_t few_bytes[FEW_BYTES], *bytes;
    wormweekly_attribute few[FEW_ATTRIBUTES], *all;
    size_t room;
} Given;

/* Where there is no mapping, there are none. */
int read_attributes(Run *run, PyObject *mapping, Given *given);

/* Any number of them, in a list of pairs of a key and a value. */
int read_pairs(Run *run, PyObject *pairs, Given *given);
void free_given(Given *given);

/* A text that the library has room to write into, cut to the room. */
PyObject *refuse_told(Run *run, uint32_t answer, const uint8_t *text, size_t length, size_t room);

/* Texts that the library writes: `ask` is called until there is room for all. The second lets other threads go on. */
typedef uint32_t (*Ask)(void *handle, size_t at, size_t number, uint8_t *out, size_t room, size_t *length);
PyObject *ask_text(Run *run, Ask ask, void *handle, size_t at, size_t number);
PyObject *ask_long_text(Run *run, Ask ask, void *handle);
PyObject *ask_long_bytes(Run *run, Ask ask, void *handle, size_t form);

/* (number of the instrument, start, time, streams, text), or None before a batch; and the text alone. */
PyObject *batch_of(Run *run, wormweekly_reader *reader);
PyObject *batch_text_of(Run *run, wormweekly_reader *reader);

/* time(attributes, unit) and in_flight(attributes) of an instrument; time(unit) and in_flight() of a bound set. */
PyObject *time_blocks(Seat *self, PyObject *args, PyObject *keywords);
PyObject *count_blocks(Seat *self, PyObject *args, PyObject *keywords);
PyObject *time_bound(Bound *self, PyObject *args, PyObject *keywords);
PyObject *count_bound(Bound *self, PyObject *unused);

/* Types: what makes none, and what frees a seat or a bound set. */
PyObject *no_new(PyTypeObject *type, PyObject *args, PyObject *keywords);
void seat_free(Seat *self);

extern PyType_Spec run_spec, instrument_spec, recorder_spec, reader_spec, bound_spec, timer_spec, in_flight_spec;

#endif
