/* The module: its types, and what the package gives to it. */
#include <string.h>

#include "extension.h"

/* ---- what the objects of the three types share. They begin alike. */

PyObject *place_new(PyTypeObject *type, PyObject *words, PyObject *named) {
    struct state *state = PyType_GetModuleState(type);
    (void)words;
    (void)named;
    if (state == NULL)
        return NULL;
    if (!state->is_ready) {
        PyErr_SetString(PyExc_RuntimeError, "kovshenul._extension is for the package alone: import kovshenul");
        return NULL;
    }
    PyObject *it = PyType_GenericAlloc(type, 0);
    if (it != NULL)
        ((struct store *)it)->state = state;
    return it;
}

void place_free(PyObject *it) {
    PyTypeObject *type = Py_TYPE(it);
    PyObject_Free(it);
    Py_DECREF(type);
}

PyObject *openness(struct state *state, const bool *is_open) {
    return wait_for_others(state) ? PyBool_FromLong(*is_open) : NULL;
}

/* ---- what the package gives */

enum {
#define ONE(name) CALL_##name,
    EACH_CALL(ONE)
#undef ONE
    CALLS
};

enum {
#define ONE(name) GIVEN_##name,
    EACH_GIVEN(ONE)
#undef ONE
    GIVEN
};

static const char *const call_names[] = {
#define ONE(name) "tg_" #name,
    EACH_CALL(ONE)
#undef ONE
};

/* Reads the addresses of the functions, in the order of `CALLS`. */
static bool reads_addresses(struct library *library, PyObject *addresses) {
    uintptr_t at[CALLS];
    if (!PyTuple_Check(addresses) || PyTuple_Size(addresses) != CALLS) {
        PyErr_Format(PyExc_TypeError, "%d addresses are wanted, in a tuple", (int)CALLS);
        return false;
    }
    for (int call = 0; call < CALLS; call++) {
        at[call] = PyLong_AsSize_t(PyTuple_GetItem(addresses, call));
        if (PyErr_Occurred() != NULL)
            return false;
    }
#define ONE(name) library->name = (__typeof__(library->name))at[CALL_##name];
    EACH_CALL(ONE)
#undef ONE
    return true;
}

/* Keeps the given value in the place of the value that was given
   before. */
static void keep(struct given *given, PyObject *words) {
#define ONE(name) \
    do { \
        PyObject *before = given->name; \
        given->name = Py_NewRef(PyTuple_GetItem(words, 1 + GIVEN_##name)); \
        Py_XDECREF(before); \
    } while (0);
    EACH_GIVEN(ONE)
#undef ONE
}

PyDoc_STRVAR(ready_doc, "ready(addresses, number_in, refusal, denied, acquire, release, rights, target, record)\n\n"
                        "Takes what the module needs of its package: the addresses of the functions that CALLS names, three\n"
                        "functions and two classes, the list of all sets of rights, and the methods of the lock.");

static PyObject *module_ready(PyObject *module, PyObject *words) {
    struct state *state = PyModule_GetState(module);
    if (state == NULL)
        return NULL;
    if (PyTuple_Size(words) != 1 + GIVEN) {
        PyErr_Format(PyExc_TypeError, "ready takes %d arguments", 1 + (int)GIVEN);
        return NULL;
    }
    PyObject *rights = PyTuple_GetItem(words, 1 + GIVEN_rights), *target = PyTuple_GetItem(words, 1 + GIVEN_target);
    if (!PyList_Check(rights) || !PyType_Check(target) || !PyType_Check(PyTuple_GetItem(words, 1 + GIVEN_record))) {
        PyErr_SetString(PyExc_TypeError, "rights are a list, and target and record are classes");
        return NULL;
    }
    if (!reads_addresses(&state->library, PyTuple_GetItem(words, 0)))
        return NULL;
    keep(&state->given, words);
    state->is_ready = true;
    return Py_NewRef(Py_None);
}

static PyMethodDef module_methods[] = {
    { "ready", module_ready, METH_VARARGS, ready_doc },
    { NULL, NULL, 0, NULL },
};

/* ---- the module */

static bool adds_type(PyObject *module, PyType_Spec *spec, PyTypeObject **kept) {
    PyObject *type = PyType_FromModuleAndSpec(module, spec, NULL);
    bool is_added = type != NULL && PyModule_AddType(module, (PyTypeObject *)type) == 0;
    if (is_added && kept != NULL)
        *kept = (PyTypeObject *)Py_NewRef(type);
    Py_XDECREF(type);
    return is_added;
}

/* Adds the names of the functions whose addresses are needed. */
static bool adds_calls(PyObject *module) {
    PyObject *calls = PyTuple_New(CALLS);
    for (int call = 0; calls != NULL && call < CALLS; call++) {
        PyObject *name = PyUnicode_FromString(call_names[call]);
        if (name == NULL || PyTuple_SetItem(calls, call, name) < 0)
            Py_CLEAR(calls);
    }
    bool is_added = calls != NULL && PyModule_AddObjectRef(module, "CALLS", calls) == 0;
    Py_XDECREF(calls);
    return is_added;
}

static int module_exec(PyObject *module) {
    struct state *state = PyModule_GetState(module);
    void *make_tuple = PyType_GetSlot(&PyTuple_Type, Py_tp_new);
    if (state == NULL || make_tuple == NULL)
        return -1;
    memcpy(&state->make_tuple, &make_tuple, sizeof make_tuple);
    if (!adds_type(module, &store_spec, &state->store_type) || !adds_type(module, &auditor_spec, NULL) ||
        !adds_type(module, &view_spec, NULL) || !adds_calls(module))
        return -1;
    return PyModule_AddIntConstant(module, "ABI", TG_ABI);
}

static int module_traverse(PyObject *module, visitproc visit, void *arg) {
    struct state *state = PyModule_GetState(module);
    if (state == NULL)
        return 0;
    Py_VISIT(state->store_type);
#define ONE(name) Py_VISIT(state->given.name);
    EACH_GIVEN(ONE)
#undef ONE
    return 0;
}

static int module_clear(PyObject *module) {
    struct state *state = PyModule_GetState(module);
    if (state == NULL)
        return 0;
    state->is_ready = false;
    Py_CLEAR(state->store_type);
#define ONE(name) Py_CLEAR(state->given.name);
    EACH_GIVEN(ONE)
#undef ONE
    return 0;
}

static void module_free(void *module) {
    module_clear(module);
}

static PyModuleDef_Slot module_slots[] = { SLOT(Py_mod_exec, module_exec), { 0, NULL } };

static PyModuleDef definition = {
    PyModuleDef_HEAD_INIT,
    .m_name = "kovshenul._extension",
    .m_doc = "The calls of the library, for the package kovshenul alone.",
    .m_size = sizeof(struct state),
    .m_methods = module_methods,
    .m_slots = module_slots,
    .m_traverse = module_traverse,
    .m_clear = module_clear,
    .m_free = module_free,
};

PyMODINIT_FUNC PyInit__extension(void) {
    return PyModuleDef_Init(&definition);
}
