/* The module safelorim._core. */
#include "safelorim.h"

static char *names_of_loads[] = {"", "partial", "unique", "non_finite", "float", NULL};
static char *names_of_lines[] = {"", "unique", "non_finite", "float", NULL};

static PyObject *value_of_bytes(const Options *options, const Source *source) {
  Builder builder;
  if (options->mode == JITER_OFF)
    return document_value(options, source);
  builder_begin(&builder, options, true);
  PyObject *value = value_so_far(&builder, source);
  builder_end(&builder);
  return value;
}

static PyObject *value_of(const Options *options, PyObject *object) {
  Data data;
  PyObject *value = is_wide_text(object) && options->mode == JITER_OFF ? wide_value(options, object) : NULL;
  if (value || PyErr_Occurred() || !data_of(object, &data))
    return value;
  value = value_of_bytes(options, &data.source);
  data_release(&data);
  return value;
}

static PyObject *loads(PyObject *self, PyObject *args, PyObject *kwargs) {
  Settings settings = DEFAULT_SETTINGS;
  PyObject *object = NULL;
  Options options;
  if (!PyArg_ParseTupleAndKeywords(args, kwargs, "O|$zppO:loads", names_of_loads, &object, &settings.partial,
                                   &settings.unique, &settings.non_finite, &settings.make_float) ||
      !options_of(&settings, PyModule_GetState(self), &options))
    return NULL;
  return value_of(&options, object);
}

static PyObject *loads_lines(PyObject *self, PyObject *args, PyObject *kwargs) {
  Settings settings = DEFAULT_SETTINGS;
  PyObject *object = NULL, *values = NULL;
  Options options;
  Data data;
  if (!PyArg_ParseTupleAndKeywords(args, kwargs, "O|$ppO:loads_lines", names_of_lines, &object, &settings.unique,
                                   &settings.non_finite, &settings.make_float) ||
      !options_of(&settings, PyModule_GetState(self), &options) || !data_of(object, &data))
    return NULL;
  values = values_of_lines(&options, &data.source);
  data_release(&data);
  return values;
}

static PyMethodDef module_methods[] = {
    {"loads", (PyCFunction)(void (*)(void))loads, METH_VARARGS | METH_KEYWORDS,
     PyDoc_STR("loads($module, data, /, *, partial=None, unique=False, non_finite=False, float=None)\n--\n\n"
               "Returns the value of a document: what `json.loads` returns for the documents that both accept.\n\n"
               "`data` is a str, or bytes in UTF-8. With `partial`, \"on\" or \"trailing-strings\", it also takes the beginning "
               "of a document.\nWith `unique`, it rejects an object that repeats a key. With `non_finite`, NaN, Infinity and "
               "-Infinity are numbers.\n`float` is called with the text of each number that isn't an integer. It raises "
               "`JsonError`, a `ValueError`.")},
    {"loads_lines", (PyCFunction)(void (*)(void))loads_lines, METH_VARARGS | METH_KEYWORDS,
     PyDoc_STR("loads_lines($module, data, /, *, unique=False, non_finite=False, float=None)\n--\n\n"
               "Reads a log, one document a line. Returns the values of its lines, and a dict of errors by line number.\n\n"
               "Lines of whitespace only have neither a value nor an error.")},
    {NULL, NULL, 0, NULL}};

static int module_exec(PyObject *self) {
  Module *module = PyModule_GetState(self);
  PyObject *errors = PyImport_ImportModule("safelorim._error");
  module->error_type = errors ? PyObject_GetAttrString(errors, "JsonError") : NULL;
  module->cause_of_key = errors ? PyObject_GetAttrString(errors, "cause_of_key") : NULL;
  Py_XDECREF(errors);
  module->parser_type = (PyTypeObject *)PyType_FromModuleAndSpec(self, &parser_spec, NULL);
  if (!module->error_type || !module->cause_of_key || !module->parser_type)
    return -1;
  Py_INCREF(module->parser_type);
  if (PyModule_AddObject(self, "Parser", (PyObject *)module->parser_type) == 0)
    return 0;
  Py_DECREF(module->parser_type);
  return -1;
}

static int module_traverse(PyObject *self, visitproc visit, void *arg) {
  Module *module = PyModule_GetState(self);
  Py_VISIT(module->error_type);
  Py_VISIT(module->cause_of_key);
  Py_VISIT(module->parser_type);
  return 0;
}

static int module_clear(PyObject *self) {
  Module *module = PyModule_GetState(self);
  for (size_t i = 0; i < KEY_SLOTS; i++)
    Py_CLEAR(module->keys[i]);
  Py_CLEAR(module->error_type);
  Py_CLEAR(module->cause_of_key);
  Py_CLEAR(module->parser_type);
  return 0;
}

static void module_free(void *self) { module_clear(self); }

static PyModuleDef_Slot module_slots[] = {
    {Py_mod_exec, module_exec},
#if PY_VERSION_HEX >= 0x030C0000
    {Py_mod_multiple_interpreters, Py_MOD_PER_INTERPRETER_GIL_SUPPORTED},
#endif
    {0, NULL}};

static PyModuleDef module_definition = {PyModuleDef_HEAD_INIT,
                                        .m_name = "safelorim._core",
                                        .m_doc = "What safelorim exports.",
                                        .m_size = sizeof(Module),
                                        .m_methods = module_methods,
                                        .m_slots = module_slots,
                                        .m_traverse = module_traverse,
                                        .m_clear = module_clear,
                                        .m_free = module_free};

PyMODINIT_FUNC PyInit__core(void) { return PyModuleDef_Init(&module_definition); }
