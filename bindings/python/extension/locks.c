/* The package's lock, and the interpreter's, in long calls and short ones. */
#include "extension.h"

static bool is_called(PyObject *function) {
    PyObject *answer = PyObject_CallNoArgs(function);
    Py_XDECREF(answer);
    return answer != NULL;
}

bool wait_for_others(struct state *state) {
    /* A function that is called here may run a finalizer, after which another thread may be in a
       long call. */
    while (state->is_busy)
        if (!is_called(state->given.acquire) || !is_called(state->given.release))
            return false;
    return true;
}

bool begin_long(struct state *state) {
    if (!is_called(state->given.acquire))
        return false;
    state->is_busy = true;
    state->thread = PyEval_SaveThread();
    return true;
}

bool end_long(struct state *state) {
    PyEval_RestoreThread(state->thread);
    state->is_busy = false;
    return is_called(state->given.release);
}
