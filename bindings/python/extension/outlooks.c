/* A question about the future to a store, and its answer. */
#include "extension.h"

/* A turn of an open answer: its record, and the numbers that a vertex stores at first. */
static PyObject *turn_told(struct state *state, tg_answer *answer, uint64_t at) {
    tg_record record;
    uint64_t numbers[MOST_NUMBERS];
    tg_status status = state->library.answer_turn(answer, at, &record, numbers, MOST_NUMBERS);
    if (status != TG_DONE)
        return refused(state, status, NULL, NULL);
    PyObject *told_record = record_told(state, &record);
    PyObject *told_numbers = told_record == NULL ? NULL : numbers_told(numbers, record.number_count);
    PyObject *told = told_numbers == NULL ? NULL : PyTuple_Pack(2, told_record, told_numbers);
    Py_XDECREF(told_record);
    Py_XDECREF(told_numbers);
    return told;
}

static PyObject *turns_told(struct state *state, tg_answer *answer, uint64_t count) {
    PyObject *told = PyList_New((Py_ssize_t)count);
    for (uint64_t at = 0; told != NULL && at < count; at++) {
        PyObject *turn = turn_told(state, answer, at);
        if (turn == NULL || PyList_SetItem(told, (Py_ssize_t)at, turn) < 0)
            Py_CLEAR(told);
    }
    return told;
}

/* The parts of an open answer. They are its number, how many names are lacking, and the turns. */
static PyObject *outlook_told(struct state *state, tg_answer *answer) {
    uint64_t kind, names, count;
    tg_status status = state->library.answer_kind(answer, &kind);
    if (status == TG_DONE)
        status = state->library.answer_names(answer, &names);
    if (status == TG_DONE)
        status = state->library.answer_turns(answer, &count);
    if (status != TG_DONE)
        return refused(state, status, NULL, NULL);
    PyObject *turns = turns_told(state, answer, count);
    if (turns == NULL)
        return NULL;
    return Py_BuildValue("(KKN)", (unsigned long long)kind, (unsigned long long)names, turns);
}

PyObject *store_could(PyObject *it, PyObject *const *words, Py_ssize_t count) {
    struct store *self = (struct store *)it;
    struct state *state = self->state;
    struct scene scene;
    uint64_t asked[3];
    tg_answer answer = TG_ANSWER_INIT;
    if (!has_words(count, 5) || !scene_of(words, &scene) || !numbers_of(state, words + 2, 3, asked, 3) || !begin_long(state))
        return NULL;
    tg_status status = state->library.could(&self->place, scene.silent, scene.silent_count, scene.as_if, scene.as_if_count,
                                            asked[0], asked[1], asked[2], &answer);
    PyObject *told = NULL;
    if (end_long(state))
        told = status == TG_DONE ? outlook_told(state, &answer) : refused(state, status, NULL, &asked[1]);
    state->library.answer_close(&answer);
    return told;
}

PyObject *store_could_kind(PyObject *it, PyObject *const *words, Py_ssize_t count) {
    struct store *self = (struct store *)it;
    struct state *state = self->state;
    struct scene scene;
    uint64_t asked[3], kind = 0;
    if (!has_words(count, 5) || !scene_of(words, &scene) || !numbers_of(state, words + 2, 3, asked, 3) || !begin_long(state))
        return NULL;
    tg_status status = state->library.could_kind(&self->place, scene.silent, scene.silent_count, scene.as_if, scene.as_if_count,
                                                 asked[0], asked[1], asked[2], &kind);
    if (!end_long(state))
        return NULL;
    return status == TG_DONE ? PyLong_FromUnsignedLongLong(kind) : refused(state, status, NULL, &asked[1]);
}

/* The place of the first breach with its answer, or None. */
static PyObject *breach_told(struct state *state, uint64_t at, tg_answer *answer) {
    if (!answer->is_open)
        return Py_NewRef(Py_None);
    PyObject *told = outlook_told(state, answer);
    return told == NULL ? NULL : Py_BuildValue("(KN)", (unsigned long long)at, told);
}

PyObject *store_could_any(PyObject *it, PyObject *const *words, Py_ssize_t count) {
    struct store *self = (struct store *)it;
    struct state *state = self->state;
    struct scene scene;
    const void *questions;
    size_t asked;
    uint64_t at = 0;
    tg_answer answer = TG_ANSWER_INIT;
    if (!has_words(count, 3) || !scene_of(words, &scene) || !items_of(words[2], sizeof(tg_question), &questions, &asked) ||
        !begin_long(state))
        return NULL;
    tg_status status = state->library.could_any(&self->place, scene.silent, scene.silent_count, scene.as_if, scene.as_if_count,
                                                questions, asked, &at, &answer);
    PyObject *told = NULL;
    if (end_long(state))
        told = status == TG_DONE ? breach_told(state, at, &answer) : refused(state, status, NULL, NULL);
    state->library.answer_close(&answer);
    return told;
}
