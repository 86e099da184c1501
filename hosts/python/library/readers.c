/* Readers. Threads may share one: it is lent to one of them at a time. */
#include "library.h"

static wormweekly_reader *lend(Seat *self) {
    wormweekly_reader *reader;
    if (!is_whole(self->run)) {
        return NULL;
    }
    reader = handles_lend_reader(&self->run->handles, self->number);
    if (reader == NULL) {
        refuse(self->run, IN_USE);
    }
    return reader;
}

static uint32_t collect_on(Seat *on, wormweekly_reader *reader, uint64_t now) {
    uint32_t answer;
    Py_BEGIN_ALLOW_THREADS
    answer = handles_collect(&on->run->handles, on->number, reader, now, 0);
    Py_END_ALLOW_THREADS
    return answer;
}

/* Collects all instruments, behind the batches that are kept or in place of them. Where one is refused, those before it
 * are kept, and come with the next ones. */
static uint32_t collect_all(Seat *self, wormweekly_reader *reader, uint64_t now, int is_behind) {
    Handles *of = &self->run->handles;
    uint32_t answer = WORMWEEKLY_DONE;
    size_t i;
    Py_BEGIN_ALLOW_THREADS
    for (i = 0; i < of->lists.counts.instruments && answer == WORMWEEKLY_DONE; i++) {
        answer = handles_collect(of, i, reader, now, is_behind);
        is_behind = is_behind || answer == WORMWEEKLY_DONE;
    }
    Py_END_ALLOW_THREADS
    self->unsent = self->unsent || is_behind;
    return answer;
}

static PyObject *tell_otlp(Run *run, wormweekly_reader *reader, void *resource);
static PyObject *tell_otlp_line(Run *run, wormweekly_reader *reader, void *resource);
static PyObject *tell_lines(Run *run, wormweekly_reader *reader, void *dialect);

/* Collects an instrument, or for OTLP and pages all (None), at a time, the first two arguments, and answers what `told`
 * makes of it. A page has no batches of before. */
static PyObject *collect_as(Seat *self, PyObject *const *args, PyObject *(*told)(Run *, wormweekly_reader *, void *),
                            void *beside) {
    Run *run = self->run;
    int is_all = args[0] == Py_None && (told == tell_otlp || told == tell_otlp_line || told == tell_lines);
    Seat *on = is_all ? NULL : read_seat(run, args[0], run->state->instrument, "an instrument");
    uint64_t now;
    wormweekly_reader *reader;
    uint32_t answer;
    PyObject *made;
    if ((on == NULL && !is_all) || !read_unsigned(run, args[1], &now, WRONG_CLOCK)) {
        return NULL;
    }
    reader = lend(self);
    if (reader == NULL) {
        return NULL;
    }
    if (is_all) {
        answer = collect_all(self, reader, now, self->unsent && told != tell_lines);
    } else {
        answer = collect_on(on, reader, now);
    }
    made = answer == WORMWEEKLY_DONE ? told(run, reader, beside) : refuse(run, answer);
    if (made != NULL) {
        self->unsent = 0;
    }
    handles_take_reader(&run->handles, self->number);
    return made;
}

static PyObject *tell_batch(Run *run, wormweekly_reader *reader, void *unused) {
    (void)unused;
    return batch_of(run, reader);
}

static PyObject *tell_text(Run *run, wormweekly_reader *reader, void *unused) {
    (void)unused;
    return batch_text_of(run, reader);
}

static PyObject *collect(Seat *self, PyObject *const *args, Py_ssize_t count) {
    return has_count(self->run, count, 2) ? collect_as(self, args, tell_batch, NULL) : NULL;
}

static PyObject *collect_text(Seat *self, PyObject *const *args, Py_ssize_t count) {
    return has_count(self->run, count, 2) ? collect_as(self, args, tell_text, NULL) : NULL;
}

/* Batches in OTLP, of a resource: a reader with what is told beside. */
typedef struct {
    wormweekly_reader *reader;
    const Attributes *resource;
} Told;

static uint32_t otlp_bytes(void *told, size_t at, size_t json, uint8_t *out, size_t room, size_t *length) {
    const Told *own = told;
    const Attributes *of = own->resource;
    (void)at;
    return wormweekly_otlp(own->reader, (uint32_t)json, of->bytes, of->length, of->all, of->count, out, room, length);
}

static PyObject *tell_otlp(Run *run, wormweekly_reader *reader, void *resource) {
    Told told = { reader, resource };
    return ask_long_bytes(run, otlp_bytes, &told, 0);
}

static PyObject *tell_otlp_line(Run *run, wormweekly_reader *reader, void *resource) {
    Told told = { reader, resource };
    return ask_long_bytes(run, otlp_bytes, &told, 1);
}

/* Whether the library takes a resource: it is told before a window is collected that would be lost. */
static int takes_resource(Seat *self, const Attributes *resource) {
    wormweekly_reader *reader = lend(self);
    size_t length;
    uint8_t nothing[1];
    uint32_t answer;
    if (reader == NULL) {
        return 0;
    }
    answer = wormweekly_otlp(reader, 0, resource->bytes, resource->length, resource->all, resource->count, nothing, 0,
                             &length);
    handles_take_reader(&self->run->handles, self->number);
    if (answer != WORMWEEKLY_DONE && answer != WORMWEEKLY_TOO_SHORT) {
        refuse(self->run, answer);
        return 0;
    }
    return 1;
}

/* otlp(instrument or None for all, now, attributes of the resource, whether as a line of JSON) */
static PyObject *collect_otlp(Seat *self, PyObject *const *args, Py_ssize_t count) {
    Given given;
    PyObject *made = NULL;
    if (!has_count(self->run, count, 4)) {
        return NULL;
    }
    if (read_attributes(self->run, args[2], &given) && takes_resource(self, &given.own)) {
        made = collect_as(self, args, args[3] == Py_True ? tell_otlp_line : tell_otlp, &given.own);
    }
    free_given(&given);
    return made;
}

/* Pages for Prometheus */

/* Whether the streams can stand in a page. */
static PyObject *expose(Seat *self, PyObject *unused) {
    uint8_t fault[4096];
    size_t length = 0;
    uint32_t answer;
    wormweekly_reader *reader = lend(self);
    (void)unused;
    if (reader == NULL) {
        return NULL;
    }
    answer = wormweekly_expose(reader, fault, sizeof fault, &length);
    handles_take_reader(&self->run->handles, self->number);
    return answer == WORMWEEKLY_FAULT ? refuse_told(self->run, NOT_EXPOSED, fault, length, sizeof fault)
                                      : done(self->run, answer);
}

static uint32_t page_lines(void *reader, size_t at, size_t dialect, uint8_t *out, size_t room, size_t *length) {
    (void)at;
    return wormweekly_prometheus(reader, (uint32_t)dialect, out, room, length);
}

static PyObject *tell_lines(Run *run, wormweekly_reader *reader, void *dialect) {
    return ask_long_bytes(run, page_lines, reader, *(const uint32_t *)dialect);
}

static int read_dialect(Run *run, PyObject *given, uint32_t *dialect) {
    uint64_t number;
    if (!read_unsigned(run, given, &number, WORMWEEKLY_UNKNOWN)) {
        return 0;
    }
    *dialect = number < UINT32_MAX ? (uint32_t)number : UINT32_MAX;
    return 1;
}

/* _collect_page(instrument or None for all, now, dialect) */
static PyObject *collect_page(Seat *self, PyObject *const *args, Py_ssize_t count) {
    uint32_t dialect;
    if (!has_count(self->run, count, 3) || !read_dialect(self->run, args[2], &dialect)) {
        return NULL;
    }
    return collect_as(self, args, tell_lines, &dialect);
}

static uint32_t target_lines(void *resource, size_t at, size_t dialect, uint8_t *out, size_t room, size_t *length) {
    const Attributes *of = resource;
    (void)at;
    return wormweekly_prometheus_target((uint32_t)dialect, of->bytes, of->length, of->all, of->count, out, room,
                                        length);
}

/* _target(attributes of the resource, dialect) */
static PyObject *target(Seat *self, PyObject *const *args, Py_ssize_t count) {
    Given given;
    uint32_t dialect;
    PyObject *made = NULL;
    if (!has_count(self->run, count, 2) || !read_dialect(self->run, args[1], &dialect)) {
        return NULL;
    }
    if (read_attributes(self->run, args[0], &given)) {
        made = ask_long_bytes(self->run, target_lines, &given.own, dialect);
    }
    free_given(&given);
    return made;
}

static PyObject *last(Seat *self, PyObject *unused) {
    wormweekly_reader *reader = lend(self);
    PyObject *made;
    (void)unused;
    if (reader == NULL) {
        return NULL;
    }
    made = batch_of(self->run, reader);
    handles_take_reader(&self->run->handles, self->number);
    return made;
}

static PyMethodDef methods[] = {
    { "_collect", (PyCFunction)(void (*)(void))collect, METH_FASTCALL, NULL },
    { "_collect_text", (PyCFunction)(void (*)(void))collect_text, METH_FASTCALL, NULL },
    { "_collect_otlp", (PyCFunction)(void (*)(void))collect_otlp, METH_FASTCALL, NULL },
    { "_collect_page", (PyCFunction)(void (*)(void))collect_page, METH_FASTCALL, NULL },
    { "_target", (PyCFunction)(void (*)(void))target, METH_FASTCALL, NULL },
    { "expose", (PyCFunction)expose, METH_NOARGS, NULL },
    { "_last", (PyCFunction)last, METH_NOARGS, NULL },
    { NULL, NULL, 0, NULL },
};

static PyType_Slot slots[] = {
    { Py_tp_new, no_new }, { Py_tp_dealloc, seat_free }, { Py_tp_methods, methods }, { 0, NULL }
};

PyType_Spec reader_spec = { "wormweekly._library.Reader", sizeof(Seat), 0, Py_TPFLAGS_DEFAULT | Py_TPFLAGS_BASETYPE,
                            slots };
