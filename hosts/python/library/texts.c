/* Texts that the library writes: each length of a buffer for one is in this file. */
#include "library.h"

#include <stdlib.h>

/* Asks until there is room for all. The caller frees what was written, also where this is refused. */
static uint32_t ask_bytes(Ask ask, void *handle, size_t at, size_t number, uint8_t **out, size_t *length) {
    size_t room = 256;
    uint32_t answer;
    for (;;) {
        *out = malloc(room);
        if (*out == NULL) {
            return WORMWEEKLY_MEMORY;
        }
        *length = 0;
        answer = ask(handle, at, number, *out, room, length);
        if (answer != WORMWEEKLY_TOO_SHORT) {
            return answer;
        }
        free(*out);
        room = *length;
    }
}

static PyObject *told(Run *run, uint32_t answer, uint8_t *out, size_t length) {
    PyObject *made = answer == WORMWEEKLY_DONE ? PyUnicode_DecodeUTF8((const char *)out, (Py_ssize_t)length, "replace")
                                               : refuse(run, answer);
    free(out);
    return made;
}

static PyObject *told_bytes(Run *run, uint32_t answer, uint8_t *out, size_t length) {
    PyObject *made = answer == WORMWEEKLY_DONE ? PyBytes_FromStringAndSize((const char *)out, (Py_ssize_t)length)
                                               : refuse(run, answer);
    free(out);
    return made;
}

PyObject *ask_text(Run *run, Ask ask, void *handle, size_t at, size_t number) {
    uint8_t *out;
    size_t length;
    uint32_t answer = ask_bytes(ask, handle, at, number, &out, &length);
    return told(run, answer, out, length);
}

PyObject *ask_long_text(Run *run, Ask ask, void *handle) {
    uint8_t *out;
    size_t length;
    uint32_t answer;
    Py_BEGIN_ALLOW_THREADS
    answer = ask_bytes(ask, handle, 0, 0, &out, &length);
    Py_END_ALLOW_THREADS
    return told(run, answer, out, length);
}

PyObject *ask_long_bytes(Run *run, Ask ask, void *handle, size_t form) {
    uint8_t *out;
    size_t length;
    uint32_t answer;
    Py_BEGIN_ALLOW_THREADS
    answer = ask_bytes(ask, handle, 0, form, &out, &length);
    Py_END_ALLOW_THREADS
    return told_bytes(run, answer, out, length);
}
