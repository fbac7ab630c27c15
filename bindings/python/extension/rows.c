/* Calls whose answer may be long: rows, entries, names and holders. */
#include <stdlib.h>

#include "extension.h"

/* Room for so many items, and at least for one, or NULL with a MemoryError. */
static void *room_for(uint64_t count, size_t size) {
    void *room = count > SIZE_MAX / size ? NULL : PyMem_Malloc(count == 0 ? size : (size_t)count * size);
    if (room == NULL)
        PyErr_NoMemory();
    return room;
}

/* The entry at a place with all of its edges, of which there are so many. */
static PyObject *long_row_told(struct store *self, uint64_t at, uint64_t count, tg_record *record, uint64_t *numbers) {
    tg_target *edges = room_for(count, sizeof *edges);
    if (edges == NULL)
        return NULL;
    tg_status status = self->state->library.entry(&self->place, at, record, numbers, MOST_NUMBERS, edges, (size_t)count);
    PyObject *told = status == TG_DONE ? targets_told(self->state, edges, count) : refused(self->state, status, NULL, NULL);
    PyMem_Free(edges);
    return told;
}

PyObject *row_told(struct store *self, const tg_target *edges, uint64_t count) {
    tg_record record;
    uint64_t numbers[MOST_NUMBERS], entries;
    if (count <= SHORT_ROW)
        return targets_told(self->state, edges, count);
    tg_status status = self->state->library.entries(&self->place, &entries);
    if (status != TG_DONE)
        return refused(self->state, status, NULL, NULL);
    return long_row_told(self, entries - 1, count, &record, numbers);
}

/* The entry at a place. */
static PyObject *entry_told(struct store *self, uint64_t at) {
    struct state *state = self->state;
    uint64_t numbers[MOST_NUMBERS];
    tg_target edges[SHORT_ROW];
    tg_record record;
    tg_status status = state->library.entry(&self->place, at, &record, numbers, MOST_NUMBERS, edges, SHORT_ROW);
    if (status != TG_DONE)
        return refused(state, status, NULL, NULL);
    PyObject *row = record.edge_count <= SHORT_ROW ? targets_told(state, edges, record.edge_count)
                                                   : long_row_told(self, at, record.edge_count, &record, numbers);
    PyObject *told_numbers = row == NULL ? NULL : numbers_told(numbers, record.number_count);
    PyObject *told_record = told_numbers == NULL ? NULL : record_told(state, &record);
    PyObject *told = told_record == NULL ? NULL : PyTuple_Pack(3, told_record, told_numbers, row);
    Py_XDECREF(told_record);
    Py_XDECREF(told_numbers);
    Py_XDECREF(row);
    return told;
}

PyObject *store_entry(PyObject *it, PyObject *const *words, Py_ssize_t count) {
    struct store *self = (struct store *)it;
    uint64_t at;
    if (!numbers_of(self->state, words, count, &at, 1) || !wait_for_others(self->state))
        return NULL;
    return entry_told(self, at);
}

/* The entries of a batch: so many from a place on. */
static PyObject *batch_told(struct store *self, uint64_t first, uint64_t done) {
    PyObject *entries = PyList_New((Py_ssize_t)done);
    for (uint64_t at = 0; entries != NULL && at < done; at++) {
        PyObject *entry = entry_told(self, first + at);
        if (entry == NULL || PyList_SetItem(entries, (Py_ssize_t)at, entry) < 0)
            Py_CLEAR(entries);
    }
    return entries;
}

PyObject *store_apply_all(PyObject *it, PyObject *const *words, Py_ssize_t count) {
    struct store *self = (struct store *)it;
    uint64_t worker, first = 0, done = 0;
    const void *commands;
    size_t command_count;
    if (!has_words(count, 2) || !number_of(self->state, words[0], &worker) ||
        !items_of(words[1], sizeof(tg_command), &commands, &command_count) || !wait_for_others(self->state))
        return NULL;
    tg_status status =
        self->state->library.apply_all(&self->place, worker, commands, command_count, NULL, 0, &first, &done);
    PyObject *entries = batch_told(self, first, done);
    PyObject *told = entries == NULL ? NULL : Py_BuildValue("IO", status, entries);
    Py_XDECREF(entries);
    return told;
}

PyObject *store_names(PyObject *it, PyObject *unused) {
    struct store *self = (struct store *)it;
    struct state *state = self->state;
    tg_counts counts;
    uint64_t count = 0;
    (void)unused;
    if (!wait_for_others(state))
        return NULL;
    tg_status status = state->library.census(&self->place, &counts);
    if (status != TG_DONE)
        return refused(state, status, NULL, NULL);
    uint64_t *names = room_for(counts.vertices, sizeof *names);
    if (names == NULL)
        return NULL;
    status = state->library.names(&self->place, names, (size_t)counts.vertices, &count);
    PyObject *told = status == TG_DONE ? set_told(names, count) : refused(state, status, NULL, NULL);
    PyMem_Free(names);
    return told;
}

/* A call that is asked for names of vertices. It asks who holds a right over a vertex. Or it withdraws rights from all but the
   names to keep, and asks who still holds some of them. */
struct holders {
    bool withdraws;
    uint64_t words[2];
    const void *keep;
    size_t keep_count;
};

static tg_status ask_once(struct store *self, const struct holders *asked, uint64_t *names, size_t room, uint64_t *count) {
    const struct library *library = &self->state->library;
    if (asked->withdraws)
        return library->withdraw(&self->place, asked->words[0], asked->words[1], asked->keep, asked->keep_count, names, room, count);
    return library->who_holds(&self->place, asked->words[0], asked->words[1], names, room, count);
}

/* Asks with room for each vertex of the heap, so one walk of the graph finds all of them. The call may be made twice. It runs
   without the interpreter. The names are the caller's to free. */
static tg_status ask_holders(struct store *self, const struct holders *asked, uint64_t **names, uint64_t *count) {
    const struct library *library = &self->state->library;
    tg_counts counts;
    uint64_t room = library->census(&self->place, &counts) == TG_DONE ? counts.vertices : 0;
    for (;;) {
        free(*names);
        *names = room < SIZE_MAX / sizeof **names ? malloc((size_t)(room + 1) * sizeof **names) : NULL;
        if (*names == NULL)
            return TG_OUT_OF_MEMORY;
        tg_status status = ask_once(self, asked, *names, (size_t)room, count);
        if (status != TG_DONE || *count <= room)
            return status;
        room = *count;
    }
}

/* The names, or the refusal of a question about this right. */
static PyObject *holders_told(struct store *self, const struct holders *asked, const uint64_t *right) {
    struct state *state = self->state;
    uint64_t held = 0, *names = NULL;
    if (!begin_long(state))
        return NULL;
    tg_status status = ask_holders(self, asked, &names, &held);
    PyObject *told = NULL;
    if (end_long(state))
        told = status == TG_DONE ? numbers_told(names, held) : refused(state, status, NULL, right);
    free(names);
    return told;
}

PyObject *store_who_holds(PyObject *it, PyObject *const *words, Py_ssize_t count) {
    struct store *self = (struct store *)it;
    struct holders asked = { .withdraws = false };
    if (!numbers_of(self->state, words, count, asked.words, 2))
        return NULL;
    return holders_told(self, &asked, &asked.words[0]);
}

PyObject *store_withdraw(PyObject *it, PyObject *const *words, Py_ssize_t count) {
    struct store *self = (struct store *)it;
    struct holders asked = { .withdraws = true };
    if (!has_words(count, 3) || !numbers_of(self->state, words, 2, asked.words, 2) ||
        !items_of(words[2], sizeof(uint64_t), &asked.keep, &asked.keep_count))
        return NULL;
    return holders_told(self, &asked, NULL);
}

/* Asks for the edges to a vertex, with room for one from each vertex of the heap. It runs without the interpreter. The edges are
   the caller's to free. */
static tg_status ask_edges(struct store *self, uint64_t name, tg_target **edges, uint64_t *count) {
    const struct library *library = &self->state->library;
    tg_counts counts;
    uint64_t room = library->census(&self->place, &counts) == TG_DONE ? counts.vertices : 0;
    for (;;) {
        free(*edges);
        *edges = room < SIZE_MAX / sizeof **edges ? malloc((size_t)(room + 1) * sizeof **edges) : NULL;
        if (*edges == NULL)
            return TG_OUT_OF_MEMORY;
        tg_status status = library->edges_to(&self->place, name, *edges, (size_t)room, count);
        if (status != TG_DONE || *count <= room)
            return status;
        room = *count;
    }
}

PyObject *store_edges_to(PyObject *it, PyObject *const *words, Py_ssize_t count) {
    struct store *self = (struct store *)it;
    struct state *state = self->state;
    uint64_t name, found = 0;
    tg_target *edges = NULL;
    if (!numbers_of(state, words, count, &name, 1) || !begin_long(state))
        return NULL;
    tg_status status = ask_edges(self, name, &edges, &found);
    PyObject *told = NULL;
    if (end_long(state))
        told = status == TG_DONE ? targets_told(state, edges, found) : refused(state, status, NULL, NULL);
    free(edges);
    return told;
}
