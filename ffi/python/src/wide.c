/* Documents in a str that isn't ASCII. The library wants UTF-8, and to make it takes longer than to read it. A character
 * that isn't ASCII is allowed within strings alone, wherever DEL is. So the builder reads a copy with one byte for each
 * character, DEL for those; strings with a DEL are then taken from the str. If the copy is rejected, UTF-8 is made. */
#include "safelorim.h"

/* Writes the copy. Returns whether there is no unpaired surrogate. Inline, so that there is a loop for each kind. */
static inline bool narrow(int kind, const void *text, Py_ssize_t count, unsigned char *out) {
  Py_UCS4 surrogates = 0;
  for (Py_ssize_t i = 0; i < count; i++) {
    Py_UCS4 character = PyUnicode_READ(kind, text, i);
    out[i] = (unsigned char)(character < 0x80 ? character : DEL);
    surrogates |= (character & 0xFFFFF800) == 0xD800;
  }
  return !surrogates;
}

static bool write_narrow(PyObject *text, unsigned char *out) {
  Py_ssize_t count = PyUnicode_GET_LENGTH(text);
  switch (PyUnicode_KIND(text)) {
  case PyUnicode_1BYTE_KIND:
    return narrow(PyUnicode_1BYTE_KIND, PyUnicode_DATA(text), count, out);
  case PyUnicode_2BYTE_KIND:
    return narrow(PyUnicode_2BYTE_KIND, PyUnicode_DATA(text), count, out);
  default:
    return narrow(PyUnicode_4BYTE_KIND, PyUnicode_DATA(text), count, out);
  }
}

/* Reads UTF-8 of a string with its quotes. */
static PyObject *read_utf8(Builder *builder, PyObject *utf8) {
  JiterReader reader = jiter_reader(PyBytes_AS_STRING(utf8), (size_t)PyBytes_GET_SIZE(utf8));
  PyObject *wide = builder->wide;
  builder->wide = NULL;
  PyObject *text = read_string(builder, &reader);
  builder->wide = wide;
  return text;
}

PyObject *wide_string(Builder *builder, const char *raw, size_t length) {
  Py_ssize_t start = raw - builder->reader.bytes, end = start + (Py_ssize_t)length;
  if (!memchr(raw, '\\', length))
    return PyUnicode_Substring(builder->wide, start, end);
  PyObject *source = PyUnicode_Substring(builder->wide, start - 1, end + 1);
  PyObject *utf8 = source ? PyUnicode_AsUTF8String(source) : NULL;
  PyObject *text = utf8 ? read_utf8(builder, utf8) : NULL;
  Py_XDECREF(source);
  Py_XDECREF(utf8);
  return text;
}

PyObject *wide_value(const Options *options, PyObject *text) {
  size_t length = (size_t)PyUnicode_GET_LENGTH(text);
  unsigned char *bytes = PyMem_Malloc(length);
  if (!bytes)
    return PyErr_NoMemory();
  PyObject *value = NULL;
  if (write_narrow(text, bytes))
    value = value_if_document(options, &(Source){(const char *)bytes, length, 0, 0}, text);
  PyMem_Free(bytes);
  return value;
}
