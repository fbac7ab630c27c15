/* The answers of calls, as objects of Python. */
#include "extension.h"

/* Raises what a function of the package has made, and returns NULL. */
static PyObject *raised(PyObject *why) {
    if (why != NULL)
        PyErr_SetObject((PyObject *)Py_TYPE(why), why);
    Py_XDECREF(why);
    return NULL;
}

/* A number, or None. */
static PyObject *number_or_none(const uint64_t *number) {
    return number == NULL ? Py_NewRef(Py_None) : PyLong_FromUnsignedLongLong(*number);
}

PyObject *refused(struct state *state, tg_status status, const uint64_t *worker, const uint64_t *right) {
    PyObject *of_worker = number_or_none(worker), *of_right = number_or_none(right), *why = NULL;
    if (of_worker != NULL && of_right != NULL)
        why = PyObject_CallFunction(state->given.refusal, "IOO", status, of_worker, of_right);
    Py_XDECREF(of_worker);
    Py_XDECREF(of_right);
    return raised(why);
}

/* A tuple of numbers. */
static PyObject *tuple_told(const uint64_t *numbers, Py_ssize_t count) {
    PyObject *told = PyTuple_New(count);
    for (Py_ssize_t at = 0; told != NULL && at < count; at++) {
        PyObject *number = PyLong_FromUnsignedLongLong(numbers[at]);
        if (number == NULL || PyTuple_SetItem(told, at, number) < 0)
            Py_CLEAR(told);
    }
    return told;
}

static PyObject *denied(struct state *state, const tg_denial *denial, const uint64_t *asked, Py_ssize_t named) {
    PyObject *vertices = tuple_told(asked, named);
    if (vertices == NULL)
        return NULL;
    unsigned long long from = denial->from, to = denial->to, rights = denial->rights;
    PyObject *why = PyObject_CallFunction(state->given.denied, "(IIKKK)O", denial->rule, denial->cause, from, to, rights,
                                          vertices);
    Py_DECREF(vertices);
    return raised(why);
}

PyObject *decided(struct state *state, tg_status status, const tg_denial *denial, const uint64_t *asked, Py_ssize_t named) {
    if (status == TG_DONE)
        return Py_NewRef(Py_None);
    if (status == TG_DENIED)
        return denied(state, denial, asked, named);
    return refused(state, status, asked, NULL);
}

PyObject *counted(struct state *state, tg_status status, uint64_t number, const uint64_t *worker) {
    if (status != TG_DONE)
        return refused(state, status, worker, NULL);
    return PyLong_FromUnsignedLongLong(number);
}

PyObject *law_told(const tg_vertex_law *law) {
    return law->law == TG_NO_LAW ? Py_NewRef(Py_None) : Py_BuildValue("II", law->law, law->most);
}

PyObject *numbers_told(const uint64_t *numbers, uint64_t count) {
    PyObject *told = PyList_New((Py_ssize_t)count);
    for (uint64_t at = 0; told != NULL && at < count; at++) {
        PyObject *number = PyLong_FromUnsignedLongLong(numbers[at]);
        if (number == NULL || PyList_SetItem(told, (Py_ssize_t)at, number) < 0)
            Py_CLEAR(told);
    }
    return told;
}

PyObject *set_told(const uint64_t *numbers, uint64_t count) {
    PyObject *told = PySet_New(NULL);
    for (uint64_t at = 0; told != NULL && at < count; at++) {
        PyObject *number = PyLong_FromUnsignedLongLong(numbers[at]);
        if (number == NULL || PySet_Add(told, number) < 0)
            Py_CLEAR(told);
        Py_XDECREF(number);
    }
    return told;
}

/* A tuple of a subclass with the items of a tuple, which it takes over and may be NULL. */
static PyObject *tuple_of_type(struct state *state, PyObject *type, PyObject *items) {
    PyObject *words = items == NULL ? NULL : PyTuple_Pack(1, items), *made = NULL;
    if (words != NULL)
        made = state->make_tuple((PyTypeObject *)type, words, NULL);
    Py_XDECREF(words);
    Py_XDECREF(items);
    return made;
}

static PyObject *target_told(struct state *state, const tg_target *edge) {
    PyObject *rights = PyList_GetItem(state->given.rights, (Py_ssize_t)edge->rights);
    PyObject *to = rights == NULL ? NULL : PyLong_FromUnsignedLongLong(edge->to);
    PyObject *items = to == NULL ? NULL : PyTuple_Pack(2, to, rights);
    Py_XDECREF(to);
    return tuple_of_type(state, state->given.target, items);
}

PyObject *targets_told(struct state *state, const tg_target *edges, uint64_t count) {
    PyObject *told = PyList_New((Py_ssize_t)count);
    for (uint64_t at = 0; told != NULL && at < count; at++) {
        PyObject *target = target_told(state, &edges[at]);
        if (target == NULL || PyList_SetItem(told, (Py_ssize_t)at, target) < 0)
            Py_CLEAR(told);
    }
    return told;
}

PyObject *record_told(struct state *state, const tg_record *record) {
    const tg_denial *why = &record->denial;
    unsigned long long numbers[] = { record->worker, record->via, record->target, record->rights, record->value, record->name };
    unsigned long long from = why->from, to = why->to, rights = why->rights;
    PyObject *items = Py_BuildValue("(KIIIIKKKKK(IIKKK))", numbers[0], record->deed, record->reply, record->law, record->most,
                                    numbers[1], numbers[2], numbers[3], numbers[4], numbers[5], why->rule, why->cause, from,
                                    to, rights);
    return tuple_of_type(state, state->given.record, items);
}

PyObject *counts_told(const tg_counts *counts) {
    const uint64_t numbers[] = {
        counts->vertices, counts->payloads, counts->blocks, counts->entries, counts->held, counts->denied,
        counts->vertices_full, counts->workers_full, counts->nursery_collections, counts->full_collections,
    };
    return tuple_told(numbers, sizeof numbers / sizeof *numbers);
}
