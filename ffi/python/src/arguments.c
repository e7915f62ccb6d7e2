/* What is passed to a call. */
#include "safelorim.h"

/* UTF-8 of a str; an unpaired surrogate becomes bytes that are no UTF-8, so that the library rejects them. */
static PyObject *encoded(PyObject *text) {
  PyObject *bytes = PyUnicode_AsUTF8String(text);
  if (bytes || !PyErr_ExceptionMatches(PyExc_UnicodeEncodeError))
    return bytes;
  PyErr_Clear();
  return PyUnicode_AsEncodedString(text, "utf-8", "surrogatepass");
}

/* Other code may change a bytearray or a memory while the call runs: it is copied. */
static PyObject *bytes_of(PyObject *object) {
  if (PyUnicode_Check(object))
    return encoded(object);
  if (PyByteArray_Check(object) || PyMemoryView_Check(object))
    return PyBytes_FromObject(object);
  if (PyBytes_Check(object)) {
    Py_INCREF(object);
    return object;
  }
  PyErr_Format(PyExc_TypeError, "the JSON document must be str, bytes, bytearray or memoryview, not %.200s",
               Py_TYPE(object)->tp_name);
  return NULL;
}

bool is_wide_text(PyObject *object) {
  return PyUnicode_Check(object) && PyUnicode_IS_COMPACT(object) && !PyUnicode_IS_ASCII(object);
}

bool data_of(PyObject *object, Data *data) {
  if (PyUnicode_Check(object) && PyUnicode_IS_COMPACT_ASCII(object)) {
    Py_INCREF(object);
    *data = (Data){{PyUnicode_DATA(object), (size_t)PyUnicode_GET_LENGTH(object), 0, 0}, object};
    return true;
  }
  PyObject *bytes = bytes_of(object);
  if (!bytes)
    return false;
  *data = (Data){{PyBytes_AS_STRING(bytes), (size_t)PyBytes_GET_SIZE(bytes), 0, 0}, bytes};
  return true;
}

void data_release(Data *data) { Py_CLEAR(data->owner); }

static bool mode_of(const char *partial, uint32_t *mode) {
  static const char *const names[] = {[JITER_OFF] = "off", [JITER_ON] = "on", [JITER_TRAILING_STRINGS] = "trailing-strings"};
  *mode = JITER_OFF;
  if (!partial)
    return true;
  for (; *mode <= JITER_TRAILING_STRINGS; ++*mode)
    if (strcmp(partial, names[*mode]) == 0)
      return true;
  PyErr_Format(PyExc_ValueError, "partial is None, 'off', 'on' or 'trailing-strings', and not '%s'", partial);
  return false;
}

bool options_of(const Settings *settings, Module *module, Options *options) {
  PyObject *make_float = settings->make_float;
  bool is_usual = make_float == (PyObject *)&PyFloat_Type || make_float == Py_None;
  if (!is_usual && !PyCallable_Check(make_float)) {
    PyErr_Format(PyExc_TypeError, "float must be a type or another callable, not %.200s", Py_TYPE(make_float)->tp_name);
    return false;
  }
  *options = (Options){module, is_usual ? NULL : make_float, JITER_OFF, settings->unique != 0, settings->non_finite != 0};
  return mode_of(settings->partial, &options->mode);
}
