/* The type of an auditor. */
#include <stdlib.h>

#include "extension.h"

static PyObject *auditor_open(PyObject *it, PyObject *const *words, Py_ssize_t count) {
    struct auditor *self = (struct auditor *)it;
    struct opening opening;
    if (!opening_of(words, count, &opening) || !begin_long(self->state))
        return NULL;
    tg_status status = self->state->library.auditor_open(&self->place, opening.workers, opening.worker_count, opening.edges,
                                                         opening.edge_count, opening.limits);
    return end_long(self->state) ? decided(self->state, status, NULL, NULL, 0) : NULL;
}

static PyObject *auditor_close(PyObject *it, PyObject *unused) {
    struct auditor *self = (struct auditor *)it;
    (void)unused;
    if (!begin_long(self->state))
        return NULL;
    self->state->library.auditor_close(&self->place);
    return end_long(self->state) ? Py_NewRef(Py_None) : NULL;
}

static void auditor_dealloc(PyObject *it) {
    struct auditor *self = (struct auditor *)it;
    if (self->place.is_open) {
        Py_BEGIN_ALLOW_THREADS
        self->state->library.auditor_close(&self->place);
        Py_END_ALLOW_THREADS
    }
    place_free(it);
}

static PyObject *auditor_is_open(PyObject *it, PyObject *unused) {
    struct auditor *self = (struct auditor *)it;
    (void)unused;
    return openness(self->state, &self->place.is_open);
}

static PyObject *auditor_feed(PyObject *it, PyObject *const *words, Py_ssize_t count) {
    struct auditor *self = (struct auditor *)it;
    struct store *store;
    uint64_t passed = 0;
    if (!has_words(count, 1) || !store_of(self->state, words[0], &store) || !begin_long(self->state))
        return NULL;
    tg_status status = self->state->library.auditor_feed(&self->place, &store->place, &passed);
    return end_long(self->state) ? counted(self->state, status, passed, NULL) : NULL;
}

static PyObject *auditor_at(PyObject *it, PyObject *unused) {
    struct auditor *self = (struct auditor *)it;
    uint64_t at = 0;
    (void)unused;
    if (!wait_for_others(self->state))
        return NULL;
    tg_status status = self->state->library.auditor_at(&self->place, &at);
    return counted(self->state, status, at, NULL);
}

static PyObject *auditor_forget(PyObject *it, PyObject *const *words, Py_ssize_t count) {
    struct auditor *self = (struct auditor *)it;
    struct store *store;
    uint64_t upto;
    if (!has_words(count, 2) || !store_of(self->state, words[0], &store) || !number_of(self->state, words[1], &upto) ||
        !begin_long(self->state))
        return NULL;
    tg_status status = self->state->library.auditor_forget(&self->place, &store->place, upto);
    return end_long(self->state) ? decided(self->state, status, NULL, NULL, 0) : NULL;
}

static PyObject *auditor_sweep(PyObject *it, PyObject *unused) {
    struct auditor *self = (struct auditor *)it;
    (void)unused;
    if (!begin_long(self->state))
        return NULL;
    tg_status status = self->state->library.auditor_sweep(&self->place);
    return end_long(self->state) ? decided(self->state, status, NULL, NULL, 0) : NULL;
}

/* Writes the text of a snapshot to new memory, which is NULL if there is none. */
static tg_status write_text(const struct library *library, tg_snapshot *snapshot, char **text, uint64_t *length) {
    tg_status status = library->snapshot_text(snapshot, NULL, 0, length);
    if (status != TG_DONE)
        return status;
    *text = malloc(*length + 1);
    return *text == NULL ? TG_OUT_OF_MEMORY : library->snapshot_text(snapshot, *text, *length + 1, length);
}

static PyObject *auditor_snapshot(PyObject *it, PyObject *unused) {
    struct auditor *self = (struct auditor *)it;
    const struct library *library = &self->state->library;
    tg_snapshot snapshot = TG_SNAPSHOT_INIT;
    char *text = NULL;
    uint64_t length = 0;
    PyObject *told = NULL;
    (void)unused;
    if (!begin_long(self->state))
        return NULL;
    tg_status status = library->auditor_snapshot(&self->place, &snapshot);
    if (status == TG_DONE) {
        status = write_text(library, &snapshot, &text, &length);
        library->snapshot_close(&snapshot);
    }
    if (end_long(self->state))
        told = status == TG_DONE ? PyBytes_FromStringAndSize(text, (Py_ssize_t)length) : refused(self->state, status, NULL, NULL);
    free(text);
    return told;
}

static PyObject *auditor_reopen(PyObject *it, PyObject *const *words, Py_ssize_t count) {
    struct auditor *self = (struct auditor *)it;
    const struct library *library = &self->state->library;
    tg_snapshot snapshot = TG_SNAPSHOT_INIT;
    const void *text;
    size_t length;
    uint64_t line = 0;
    if (!has_words(count, 1) || !items_of(words[0], 1, &text, &length) || !begin_long(self->state))
        return NULL;
    tg_status status = library->snapshot_read(&snapshot, text, length, &line);
    if (status == TG_DONE) {
        status = library->auditor_reopen(&self->place, &snapshot);
        library->snapshot_close(&snapshot);
    }
    return end_long(self->state) ? decided(self->state, status, NULL, NULL, 0) : NULL;
}

static PyMethodDef auditor_methods[] = {
    WITH_WORDS(auditor, open) WITH_WORDS(auditor, feed) WITH_WORDS(auditor, forget) WITH_WORDS(auditor, reopen)
    ALONE(auditor, close) ALONE(auditor, is_open) ALONE(auditor, at) ALONE(auditor, sweep) ALONE(auditor, snapshot)
    { NULL, NULL, 0, NULL },
};

static PyType_Slot auditor_slots[] = {
    SLOT(Py_tp_new, place_new), SLOT(Py_tp_dealloc, auditor_dealloc), { Py_tp_methods, auditor_methods }, { 0, NULL },
};

PyType_Spec auditor_spec = { "kovshenul._extension.Auditor", sizeof(struct auditor), 0, Py_TPFLAGS_DEFAULT, auditor_slots };
