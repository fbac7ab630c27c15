/* The arguments of a call, which are numbers, and arrays that the package has packed. */
#include <string.h>

#include "extension.h"

bool has_words(Py_ssize_t count, Py_ssize_t wanted) {
    if (count != wanted)
        PyErr_Format(PyExc_TypeError, "%zd arguments are wanted, and not %zd", wanted, count);
    return count == wanted;
}

/* The number of an argument that is no int from 0 to 2^64 - 1. The package says what is wrong, or makes an int of it. */
static bool is_read_by_package(struct state *state, PyObject *word, uint64_t *number) {
    PyObject *read = PyObject_CallFunction(state->given.number_in, "iO", BITS, word);
    if (read == NULL)
        return false;
    *number = PyLong_AsUnsignedLongLong(read);
    Py_DECREF(read);
    return *number != UINT64_MAX || PyErr_Occurred() == NULL;
}

bool number_of(struct state *state, PyObject *word, uint64_t *number) {
    if (PyLong_Check(word)) {
        *number = PyLong_AsUnsignedLongLong(word);
        if (*number != UINT64_MAX || PyErr_Occurred() == NULL)
            return true;
        PyErr_Clear();
    }
    return is_read_by_package(state, word, number);
}

bool numbers_of(struct state *state, PyObject *const *words, Py_ssize_t count, uint64_t *numbers, Py_ssize_t wanted) {
    if (!has_words(count, wanted))
        return false;
    for (Py_ssize_t at = 0; at < count; at++)
        if (!number_of(state, words[at], &numbers[at]))
            return false;
    return true;
}

bool items_of(PyObject *word, size_t size, const void **items, size_t *count) {
    char *bytes;
    Py_ssize_t length;
    if (PyBytes_AsStringAndSize(word, &bytes, &length) < 0)
        return false;
    if ((size_t)length % size != 0) {
        PyErr_Format(PyExc_ValueError, "%zd bytes are no items of %zu bytes", length, size);
        return false;
    }
    *items = bytes;
    *count = (size_t)length / size;
    return true;
}

bool limits_of(PyObject *word, const tg_limits **limits) {
    const void *items;
    size_t count;
    if (!items_of(word, sizeof **limits, &items, &count))
        return false;
    if (count != 1) {
        PyErr_SetString(PyExc_ValueError, "a store has one set of limits");
        return false;
    }
    *limits = items;
    return true;
}

bool opening_of(PyObject *const *words, Py_ssize_t count, struct opening *opening) {
    const void *workers, *edges;
    if (!has_words(count, 3) || !items_of(words[0], sizeof *opening->workers, &workers, &opening->worker_count) ||
        !items_of(words[1], sizeof *opening->edges, &edges, &opening->edge_count) || !limits_of(words[2], &opening->limits))
        return false;
    opening->workers = workers;
    opening->edges = edges;
    return true;
}

bool scene_of(PyObject *const *words, struct scene *scene) {
    const void *silent, *as_if;
    if (!items_of(words[0], sizeof *scene->silent, &silent, &scene->silent_count) ||
        !items_of(words[1], sizeof *scene->as_if, &as_if, &scene->as_if_count))
        return false;
    scene->silent = silent;
    scene->as_if = as_if;
    return true;
}

bool form_of(PyObject *const *words, struct form *form) {
    const void *record, *numbers, *edges;
    size_t record_count;
    if (!items_of(words[0], sizeof *form->record, &record, &record_count) ||
        !items_of(words[1], sizeof *form->numbers, &numbers, &form->number_count) ||
        !items_of(words[2], sizeof *form->edges, &edges, &form->edge_count))
        return false;
    if (record_count != 1) {
        PyErr_SetString(PyExc_ValueError, "an entry has one record");
        return false;
    }
    form->record = record;
    form->numbers = numbers;
    form->edges = edges;
    return true;
}

bool store_of(struct state *state, PyObject *word, struct store **store) {
    if (!PyObject_TypeCheck(word, state->store_type)) {
        PyErr_SetString(PyExc_TypeError, "a store of the extension is wanted");
        return false;
    }
    *store = (struct store *)word;
    return true;
}
