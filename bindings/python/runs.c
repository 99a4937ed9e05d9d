/* runs.c: the module fcanon._runs: the calls of fcanon_runs.h over bytes.
 *
 * It is written for Python's stable ABI from 3.8 on, as calls.c is. A function gives the answer, what
 * is printed, what is said, and how many records were read and refused; commands.py makes of these
 * what a caller sees.
 */
#define Py_LIMITED_API 0x03080000
#define PY_SSIZE_T_CLEAN
#include <Python.h>
#include <fcanon_runs.h>

enum { NO_ROOM = 9, NOTES = 4096 };

/* What a call is given, and where it writes. */
typedef struct {
    fcanon_request request;
    fcanon_import_request import;
    const char *input;
    Py_ssize_t size;
    PyObject *output, *notes;
    fcanon_imported made;
} Run;

typedef uint32_t Call(Run *run);

static uint32_t call_run(Run *it) {
    return fcanon_run(&it->request, it->input, (size_t)it->size, PyBytes_AsString(it->output),
                      it->made.written.length, &it->made.written);
}

static uint32_t call_import(Run *it) {
    return fcanon_import(&it->import, it->input, (size_t)it->size,
                         PyBytes_AsString(it->output), it->made.written.length,
                         PyBytes_AsString(it->notes), it->made.noted, &it->made);
}

/* Makes the bytes for output and notes, as many as `made` says. */
static int make_room(Run *it) {
    Py_CLEAR(it->output);
    Py_CLEAR(it->notes);
    it->output = PyBytes_FromStringAndSize(NULL, (Py_ssize_t)it->made.written.length);
    it->notes = PyBytes_FromStringAndSize(NULL, (Py_ssize_t)it->made.noted);
    return it->output && it->notes;
}

/* Calls with room for some output, and once more with what is needed where that was too little. */
static PyObject *answered(Run *it, Call *call) {
    uint32_t answer = NO_ROOM;
    PyObject *made = NULL;
    it->made.written = (fcanon_written){2 * (size_t)it->size + 4096, 0, 0};
    while (answer == NO_ROOM && make_room(it)) {
        Py_BEGIN_ALLOW_THREADS
        answer = call(it);
        Py_END_ALLOW_THREADS
    }
    if (answer != NO_ROOM) {
        int is_done = answer == 0;
        made = Py_BuildValue("Iy#y#nn", answer, PyBytes_AsString(it->output),
                             is_done ? (Py_ssize_t)it->made.written.length : 0,
                             PyBytes_AsString(it->notes), is_done ? (Py_ssize_t)it->made.noted : 0,
                             (Py_ssize_t)it->made.written.records, (Py_ssize_t)it->made.written.refused);
    }
    Py_XDECREF(it->output);
    Py_XDECREF(it->notes);
    return made;
}

static PyObject *run(PyObject *module, PyObject *words) {
    Run it = {0};
    fcanon_request *request = &it.request;
    int any_size;
    unsigned long long seed;
    if (!PyArg_ParseTuple(words, "IIIpKy#", &request->task, &request->format, &request->game,
                          &any_size, &seed, &it.input, &it.size))
        return NULL;
    request->any_size = (uint32_t)any_size;
    request->seed = seed;
    return answered(&it, call_run);
}

static PyObject *import_text(PyObject *module, PyObject *words) {
    Run it = {.made.noted = NOTES};
    if (!PyArg_ParseTuple(words, "IIy#", &it.import.game, &it.import.lines, &it.input, &it.size))
        return NULL;
    return answered(&it, call_import);
}

static PyMethodDef functions[] = {
    {"run", run, METH_VARARGS, NULL}, {"import_text", import_text, METH_VARARGS, NULL}, {0}};
static struct PyModuleDef definition = {
    PyModuleDef_HEAD_INIT, "fcanon._runs", NULL, 0, functions};

PyMODINIT_FUNC PyInit__runs(void) { return PyModule_Create(&definition); }
