/* The type of a view. */
#include "extension.h"

static PyObject *view_open(PyObject *it, PyObject *const *words, Py_ssize_t count) {
    struct view *self = (struct view *)it;
    struct store *store;
    struct scene scene;
    if (!has_words(count, 3) || !store_of(self->state, words[0], &store) || !scene_of(words + 1, &scene) ||
        !begin_long(self->state))
        return NULL;
    tg_status status = self->state->library.view_open(&store->place, scene.silent, scene.silent_count, scene.as_if,
                                                      scene.as_if_count, &self->place);
    return end_long(self->state) ? decided(self->state, status, NULL, NULL, 0) : NULL;
}

static PyObject *view_close(PyObject *it, PyObject *unused) {
    struct view *self = (struct view *)it;
    (void)unused;
    if (!begin_long(self->state))
        return NULL;
    self->state->library.view_close(&self->place);
    return end_long(self->state) ? Py_NewRef(Py_None) : NULL;
}

static void view_dealloc(PyObject *it) {
    struct view *self = (struct view *)it;
    if (self->place.is_open) {
        Py_BEGIN_ALLOW_THREADS
        self->state->library.view_close(&self->place);
        Py_END_ALLOW_THREADS
    }
    place_free(it);
}

static PyObject *view_is_open(PyObject *it, PyObject *unused) {
    struct view *self = (struct view *)it;
    (void)unused;
    return openness(self->state, &self->place.is_open);
}

static PyObject *view_could(PyObject *it, PyObject *const *words, Py_ssize_t count) {
    struct view *self = (struct view *)it;
    uint64_t asked[MOST_ASKED], kind = 0;
    if (!numbers_of(self->state, words, count, asked, 3) || !wait_for_others(self->state))
        return NULL;
    tg_status status = self->state->library.view_could(&self->place, asked[0], asked[1], asked[2], &kind);
    return status == TG_DONE ? PyLong_FromUnsignedLongLong(kind) : refused(self->state, status, NULL, &asked[1]);
}

static PyObject *view_could_as_if(PyObject *it, PyObject *const *words, Py_ssize_t count) {
    struct view *self = (struct view *)it;
    const void *as_if;
    size_t as_if_count;
    uint64_t asked[MOST_ASKED], kind = 0;
    if (!has_words(count, 4) || !items_of(words[0], sizeof(tg_edge), &as_if, &as_if_count) ||
        !numbers_of(self->state, words + 1, 3, asked, 3) || !wait_for_others(self->state))
        return NULL;
    tg_status status = self->state->library.view_could_as_if(&self->place, as_if, as_if_count, asked[0], asked[1], asked[2], &kind);
    return status == TG_DONE ? PyLong_FromUnsignedLongLong(kind) : refused(self->state, status, NULL, &asked[1]);
}

static PyObject *view_follow(PyObject *it, PyObject *const *words, Py_ssize_t count) {
    struct view *self = (struct view *)it;
    uint64_t asked[MOST_ASKED], followed = 0;
    if (!numbers_of(self->state, words, count, asked, 3) || !wait_for_others(self->state))
        return NULL;
    const tg_edge edge = { asked[0], asked[1], asked[2] };
    tg_status status = self->state->library.view_follow(&self->place, &edge, &followed);
    return counted(self->state, status, followed, NULL);
}

static PyMethodDef view_methods[] = {
    WITH_WORDS(view, open) WITH_WORDS(view, could) WITH_WORDS(view, could_as_if) WITH_WORDS(view, follow)
    ALONE(view, close) ALONE(view, is_open)
    { NULL, NULL, 0, NULL },
};

static PyType_Slot view_slots[] = {
    SLOT(Py_tp_new, place_new), SLOT(Py_tp_dealloc, view_dealloc), { Py_tp_methods, view_methods }, { 0, NULL },
};

PyType_Spec view_spec = { "kovshenul._extension.View", sizeof(struct view), 0, Py_TPFLAGS_DEFAULT, view_slots };
