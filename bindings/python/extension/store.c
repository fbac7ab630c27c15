/* The type of a store. */
#include "extension.h"

typedef __typeof__(tg_take) call_via;
typedef __typeof__(tg_remove) call_on_target;
typedef __typeof__(tg_create) call_that_makes;
typedef __typeof__(tg_entries) call_that_counts;

static PyObject *store_open(PyObject *it, PyObject *const *words, Py_ssize_t count) {
    struct store *self = (struct store *)it;
    struct opening opening;
    if (!opening_of(words, count, &opening) || !begin_long(self->state))
        return NULL;
    tg_status status = self->state->library.open(&self->place, opening.workers, opening.worker_count, opening.edges,
                                                 opening.edge_count, opening.limits);
    return end_long(self->state) ? decided(self->state, status, NULL, NULL, 0) : NULL;
}

static PyObject *store_close(PyObject *it, PyObject *unused) {
    struct store *self = (struct store *)it;
    (void)unused;
    if (!begin_long(self->state))
        return NULL;
    self->state->library.close(&self->place);
    return end_long(self->state) ? Py_NewRef(Py_None) : NULL;
}

static void store_dealloc(PyObject *it) {
    struct store *self = (struct store *)it;
    if (self->place.is_open) {
        Py_BEGIN_ALLOW_THREADS
        self->state->library.close(&self->place);
        Py_END_ALLOW_THREADS
    }
    place_free(it);
}

static PyObject *store_is_open(PyObject *it, PyObject *unused) {
    struct store *self = (struct store *)it;
    (void)unused;
    return openness(self->state, &self->place.is_open);
}

/* ---- commands */

/* A take or a grant. */
static PyObject *move(PyObject *it, call_via *call, PyObject *const *words, Py_ssize_t count) {
    struct store *self = (struct store *)it;
    uint64_t asked[MOST_ASKED];
    tg_denial denial;
    if (!numbers_of(self->state, words, count, asked, 4) || !wait_for_others(self->state))
        return NULL;
    tg_status status = call(&self->place, asked[0], asked[1], asked[2], asked[3], &denial);
    return decided(self->state, status, &denial, asked, 3);
}

/* A remove, a write or an append. */
static PyObject *touch(PyObject *it, call_on_target *call, PyObject *const *words, Py_ssize_t count) {
    struct store *self = (struct store *)it;
    uint64_t asked[MOST_ASKED];
    tg_denial denial;
    if (!numbers_of(self->state, words, count, asked, 3) || !wait_for_others(self->state))
        return NULL;
    tg_status status = call(&self->place, asked[0], asked[1], asked[2], &denial);
    return decided(self->state, status, &denial, asked, 2);
}

/* A denied hand has the denial of its take or of its grant. A take names who holds the rights, and a grant names who is to hold
   them. */
static PyObject *store_hand(PyObject *it, PyObject *const *words, Py_ssize_t count) {
    struct store *self = (struct store *)it;
    uint64_t asked[MOST_ASKED], removed = 0;
    tg_denial denial;
    if (!numbers_of(self->state, words, count, asked, 5) || !wait_for_others(self->state))
        return NULL;
    const tg_handing handing = { asked[0], asked[1], asked[2], asked[3], asked[4] };
    tg_status status = self->state->library.hand(&self->place, &handing, &removed, &denial);
    if (status == TG_DONE)
        return PyLong_FromUnsignedLongLong(removed);
    const bool is_grant = status == TG_DENIED && denial.rule == TG_RULE_GRANT;
    const uint64_t named[] = { handing.via, is_grant ? handing.to : handing.from, handing.target };
    return decided(self->state, status, &denial, named, 3);
}

/* A create or a spawn. */
static PyObject *make(PyObject *it, call_that_makes *call, PyObject *const *words, Py_ssize_t count) {
    struct store *self = (struct store *)it;
    uint64_t asked[MOST_ASKED], name = 0;
    const void *value;
    size_t value_count;
    if (!has_words(count, 3) || !items_of(words[2], sizeof(tg_value), &value, &value_count))
        return NULL;
    if (value_count != 1) {
        PyErr_SetString(PyExc_ValueError, "a vertex stores one value");
        return NULL;
    }
    if (!numbers_of(self->state, words, 2, asked, 2) || !wait_for_others(self->state))
        return NULL;
    tg_status status = call(&self->place, asked[0], asked[1], value, &name);
    return counted(self->state, status, name, asked);
}

#define METHOD(name, how) \
    static PyObject *store_##name(PyObject *it, PyObject *const *words, Py_ssize_t count) { \
        return how(it, ((struct store *)it)->state->library.name, words, count); \
    }

METHOD(take, move)
METHOD(grant, move)
METHOD(remove, touch)
METHOD(write, touch)
METHOD(append, touch)
METHOD(create, make)
METHOD(spawn, make)

static PyObject *store_read(PyObject *it, PyObject *const *words, Py_ssize_t count) {
    struct store *self = (struct store *)it;
    uint64_t asked[MOST_ASKED], numbers[MOST_NUMBERS], number_count = 0;
    tg_denial denial;
    if (!numbers_of(self->state, words, count, asked, 2) || !wait_for_others(self->state))
        return NULL;
    tg_status status =
        self->state->library.read(&self->place, asked[0], asked[1], numbers, MOST_NUMBERS, &number_count, &denial);
    if (status != TG_DONE)
        return decided(self->state, status, &denial, asked, 2);
    return numbers_told(numbers, number_count);
}

/* The last word of a list or an inspect is a number that has no effect. */
static PyObject *store_list(PyObject *it, PyObject *const *words, Py_ssize_t count) {
    struct store *self = (struct store *)it;
    uint64_t asked[MOST_ASKED], edge_count = 0;
    tg_target edges[SHORT_ROW];
    if (!numbers_of(self->state, words, count, asked, 2) || !wait_for_others(self->state))
        return NULL;
    tg_status status = self->state->library.list(&self->place, asked[0], edges, SHORT_ROW, &edge_count);
    if (status != TG_DONE)
        return refused(self->state, status, asked, NULL);
    return row_told(self, edges, edge_count);
}

static PyObject *store_inspect(PyObject *it, PyObject *const *words, Py_ssize_t count) {
    struct store *self = (struct store *)it;
    uint64_t asked[MOST_ASKED], edge_count = 0;
    tg_target edges[SHORT_ROW];
    tg_denial denial;
    if (!numbers_of(self->state, words, count, asked, 3) || !wait_for_others(self->state))
        return NULL;
    tg_status status = self->state->library.inspect(&self->place, asked[0], asked[1], edges, SHORT_ROW, &edge_count, &denial);
    if (status != TG_DONE)
        return decided(self->state, status, &denial, asked, 2);
    return row_told(self, edges, edge_count);
}

static PyObject *store_retire(PyObject *it, PyObject *const *words, Py_ssize_t count) {
    struct store *self = (struct store *)it;
    uint64_t worker;
    if (!numbers_of(self->state, words, count, &worker, 1) || !wait_for_others(self->state))
        return NULL;
    return decided(self->state, self->state->library.retire(&self->place, worker), NULL, &worker, 1);
}

static PyObject *store_leave(PyObject *it, PyObject *const *words, Py_ssize_t count) {
    struct store *self = (struct store *)it;
    uint64_t worker, edges = 0;
    if (!numbers_of(self->state, words, count, &worker, 1) || !begin_long(self->state))
        return NULL;
    tg_status status = self->state->library.leave(&self->place, worker, &edges);
    return end_long(self->state) ? counted(self->state, status, edges, &worker) : NULL;
}

/* A call that parks a user or unparks it. A denied one has the denial of the host's grant, which names the user and the account. */
typedef tg_status (*parking_call)(tg_store *, const tg_parking *, uint64_t *, tg_denial *);

static PyObject *park_by(struct store *self, parking_call call, PyObject *const *words, Py_ssize_t count) {
    uint64_t asked[MOST_ASKED], edges = 0;
    tg_denial denial;
    if (!numbers_of(self->state, words, count, asked, 3) || !begin_long(self->state))
        return NULL;
    const tg_parking parking = { asked[0], asked[1], asked[2] };
    tg_status status = call(&self->place, &parking, &edges, &denial);
    if (!end_long(self->state))
        return NULL;
    return status == TG_DENIED ? decided(self->state, status, &denial, asked, 3) : counted(self->state, status, edges, NULL);
}

static PyObject *store_park(PyObject *it, PyObject *const *words, Py_ssize_t count) {
    struct store *self = (struct store *)it;
    return park_by(self, self->state->library.park, words, count);
}

static PyObject *store_unpark(PyObject *it, PyObject *const *words, Py_ssize_t count) {
    struct store *self = (struct store *)it;
    return park_by(self, self->state->library.unpark, words, count);
}

/* ---- what has no entry */

static PyObject *store_label(PyObject *it, PyObject *const *words, Py_ssize_t count) {
    struct store *self = (struct store *)it;
    uint64_t asked[MOST_ASKED], rights = 0;
    if (!numbers_of(self->state, words, count, asked, 2) || !wait_for_others(self->state))
        return NULL;
    tg_status status = self->state->library.label(&self->place, asked[0], asked[1], &rights);
    return counted(self->state, status, rights, asked);
}

static PyObject *store_law(PyObject *it, PyObject *const *words, Py_ssize_t count) {
    struct store *self = (struct store *)it;
    uint64_t asked[MOST_ASKED];
    tg_vertex_law law = { TG_NO_LAW, 0 };
    if (!numbers_of(self->state, words, count, asked, 2) || !wait_for_others(self->state))
        return NULL;
    tg_status status = self->state->library.law(&self->place, asked[0], asked[1], &law);
    return status == TG_DONE ? law_told(&law) : refused(self->state, status, asked, NULL);
}

static PyObject *store_law_of(PyObject *it, PyObject *const *words, Py_ssize_t count) {
    struct store *self = (struct store *)it;
    uint64_t name;
    tg_vertex_law law = { TG_NO_LAW, 0 };
    if (!numbers_of(self->state, words, count, &name, 1) || !begin_long(self->state))
        return NULL;
    tg_status status = self->state->library.law_of(&self->place, name, &law);
    if (!end_long(self->state))
        return NULL;
    return status == TG_DONE ? law_told(&law) : refused(self->state, status, NULL, NULL);
}

static PyObject *store_subjects(PyObject *it, PyObject *unused) {
    struct store *self = (struct store *)it;
    uint64_t names[MOST_WORKERS], count = 0;
    (void)unused;
    if (!wait_for_others(self->state))
        return NULL;
    tg_status status = self->state->library.subjects(&self->place, names, MOST_WORKERS, &count);
    return status == TG_DONE ? numbers_told(names, count) : refused(self->state, status, NULL, NULL);
}

static PyObject *store_census(PyObject *it, PyObject *unused) {
    struct store *self = (struct store *)it;
    tg_counts counts;
    (void)unused;
    if (!wait_for_others(self->state))
        return NULL;
    tg_status status = self->state->library.census(&self->place, &counts);
    return status == TG_DONE ? counts_told(&counts) : refused(self->state, status, NULL, NULL);
}

static PyObject *count_of(PyObject *it, call_that_counts *call) {
    struct store *self = (struct store *)it;
    uint64_t number = 0;
    if (!wait_for_others(self->state))
        return NULL;
    tg_status status = call(&self->place, &number);
    return counted(self->state, status, number, NULL);
}

static PyObject *store_entries(PyObject *it, PyObject *unused) {
    (void)unused;
    return count_of(it, ((struct store *)it)->state->library.entries);
}

static PyObject *store_first(PyObject *it, PyObject *unused) {
    (void)unused;
    return count_of(it, ((struct store *)it)->state->library.first);
}

/* ---- calls on all that the store has */

/* The package has looked whether the kind is a number of 32 bits. */
static PyObject *store_collect(PyObject *it, PyObject *const *words, Py_ssize_t count) {
    struct store *self = (struct store *)it;
    uint64_t kind, left = 0;
    if (!numbers_of(self->state, words, count, &kind, 1) || !begin_long(self->state))
        return NULL;
    tg_status status = self->state->library.collect(&self->place, (uint32_t)kind, &left);
    return end_long(self->state) ? counted(self->state, status, left, NULL) : NULL;
}

static PyObject *store_forget(PyObject *it, PyObject *const *words, Py_ssize_t count) {
    struct store *self = (struct store *)it;
    uint64_t upto;
    if (!numbers_of(self->state, words, count, &upto, 1) || !begin_long(self->state))
        return NULL;
    tg_status status = self->state->library.forget(&self->place, upto);
    return end_long(self->state) ? decided(self->state, status, NULL, NULL, 0) : NULL;
}

/* One entry is as short as a command, so the interpreter's lock is kept. */
static PyObject *store_resume(PyObject *it, PyObject *const *words, Py_ssize_t count) {
    struct store *self = (struct store *)it;
    uint64_t at;
    struct form form;
    if (!has_words(count, 4) || !number_of(self->state, words[0], &at) || !form_of(words + 1, &form) ||
        !wait_for_others(self->state))
        return NULL;
    tg_status status = self->state->library.resume(&self->place, at, form.record, form.numbers, form.number_count,
                                                   form.edges, form.edge_count);
    return decided(self->state, status, NULL, NULL, 0);
}

/* Opens the store from the text of a snapshot. */
static PyObject *store_reopen(PyObject *it, PyObject *const *words, Py_ssize_t count) {
    struct store *self = (struct store *)it;
    const struct library *library = &self->state->library;
    tg_snapshot snapshot = TG_SNAPSHOT_INIT;
    const tg_limits *limits;
    const void *text;
    size_t length;
    uint64_t line = 0;
    if (!has_words(count, 2) || !items_of(words[0], 1, &text, &length) || !limits_of(words[1], &limits) || !begin_long(self->state))
        return NULL;
    tg_status status = library->snapshot_read(&snapshot, text, length, &line);
    if (status == TG_DONE) {
        status = library->reopen(&self->place, &snapshot, limits);
        library->snapshot_close(&snapshot);
    }
    return end_long(self->state) ? decided(self->state, status, NULL, NULL, 0) : NULL;
}

static PyObject *store_audit(PyObject *it, PyObject *unused) {
    struct store *self = (struct store *)it;
    uint64_t entries = 0;
    (void)unused;
    if (!begin_long(self->state))
        return NULL;
    tg_status status = self->state->library.audit(&self->place, &entries);
    return end_long(self->state) ? counted(self->state, status, entries, NULL) : NULL;
}

/* ---- the type */

static PyMethodDef store_methods[] = {
    WITH_WORDS(store, open) WITH_WORDS(store, take) WITH_WORDS(store, grant) WITH_WORDS(store, remove)
    WITH_WORDS(store, hand) WITH_WORDS(store, write) WITH_WORDS(store, append) WITH_WORDS(store, create) WITH_WORDS(store, spawn)
    WITH_WORDS(store, read) WITH_WORDS(store, list) WITH_WORDS(store, inspect) WITH_WORDS(store, retire)
    WITH_WORDS(store, leave) WITH_WORDS(store, park) WITH_WORDS(store, unpark) WITH_WORDS(store, label) WITH_WORDS(store, law)
    WITH_WORDS(store, law_of) WITH_WORDS(store, who_holds) WITH_WORDS(store, withdraw)
    WITH_WORDS(store, edges_to) WITH_WORDS(store, could) WITH_WORDS(store, could_kind) WITH_WORDS(store, could_any)
    WITH_WORDS(store, collect) WITH_WORDS(store, entry) WITH_WORDS(store, forget) WITH_WORDS(store, resume)
    WITH_WORDS(store, reopen) WITH_WORDS(store, apply_all) ALONE(store, close) ALONE(store, is_open)
    ALONE(store, subjects) ALONE(store, census) ALONE(store, names) ALONE(store, entries) ALONE(store, first)
    ALONE(store, audit)
    { NULL, NULL, 0, NULL },
};

static PyType_Slot store_slots[] = {
    SLOT(Py_tp_new, place_new), SLOT(Py_tp_dealloc, store_dealloc), { Py_tp_methods, store_methods }, { 0, NULL },
};

PyType_Spec store_spec = { "kovshenul._extension.Store", sizeof(struct store), 0, Py_TPFLAGS_DEFAULT, store_slots };
