/* Complete and truncated documents, and the errors of those that are rejected. */
#include "safelorim.h"

/* ---- Errors. */

/* The cause for a document that is the repeated key, which has at most so many bytes. */
static PyObject *cause_of_key(const Module *module, JiterDocument *document, size_t longest) {
  JiterFault fault = {0};
  size_t whole = 0;
  char *bytes = PyMem_Malloc(longest);
  PyObject *key = NULL, *cause = NULL;
  if (bytes && jiter_document_text(document, NULL, 0, NULL, 0, bytes, longest, &whole, &fault) && whole <= longest)
    key = text_of(bytes, whole);
  else
    PyErr_NoMemory();
  if (key)
    cause = PyObject_CallOneArg(module->cause_of_key, key);
  Py_XDECREF(key);
  PyMem_Free(bytes);
  return cause;
}

static PyObject *cause_of(const JiterFault *fault) {
  char cause[200];
  size_t whole = 0;
  if (!jiter_cause(fault, cause, sizeof cause, &whole) || whole > sizeof cause)
    return PyUnicode_FromFormat("error %u", (unsigned)fault->kind);
  return PyUnicode_DecodeUTF8(cause, (Py_ssize_t)whole, NULL);
}

/* Parses the document once more, to learn its error. Returns the cause, or NULL with an exception. */
static PyObject *find_cause(const Options *options, uint32_t mode, const Source *source, JiterFault *fault) {
  JiterDocument document = {0};
  JiterFault found = {0};
  PyObject *cause = NULL;
  bool accepted = options->unique ? jiter_document_parse(&document, source->bytes, source->length, options->non_finite, mode,
                                                         true, &found)
                                  : jiter_parse(source->bytes, source->length, options->non_finite, mode, &found);
  if (!accepted)
    *fault = found;
  if (fault->kind == JITER_OUT_OF_MEMORY)
    PyErr_NoMemory();
  else if (!accepted && fault->kind == JITER_DUPLICATE_KEY)
    cause = cause_of_key(options->module, &document, source->length);
  else
    cause = cause_of(fault);
  jiter_document_free(&document);
  return cause;
}

PyObject *error_of(const Builder *builder, uint32_t mode, const Source *source) {
  JiterFault fault = builder->fault;
  JiterPosition position = {0, 0};
  PyObject *cause = find_cause(builder->options, mode, source, &fault);
  if (!cause)
    return NULL;
  jiter_position(source->bytes, source->length, fault.index, &position);
  return PyObject_CallFunction(builder->options->module->error_type, "NInnn", cause, (unsigned)fault.kind,
                               (Py_ssize_t)(source->bytes_before + fault.index),
                               (Py_ssize_t)(source->lines_before + position.line), (Py_ssize_t)position.column);
}

PyObject *raise_error_of(const Builder *builder, uint32_t mode, const Source *source) {
  PyObject *error = error_of(builder, mode, source);
  if (error)
    PyErr_SetObject(builder->options->module->error_type, error);
  Py_XDECREF(error);
  return NULL;
}

/* ---- Complete documents. */

/* The value of a document, or NULL, with an exception only if the bytes may be a document all the same. */
static PyObject *read_document(Builder *builder, const Source *source) {
  Step step = builder_run(builder, source->bytes, source->length);
  if (step != STEP_DONE || !builder_is_at_end(builder))
    return NULL;
  PyObject *value = builder->root;
  builder->root = NULL;
  return value;
}

PyObject *value_if_document(const Options *options, const Source *source, PyObject *wide) {
  Builder builder;
  builder_begin(&builder, options, false);
  builder.wide = wide;
  PyObject *value = read_document(&builder, source);
  builder_end(&builder);
  return value;
}

PyObject *document_value(const Options *options, const Source *source) {
  Builder builder;
  builder_begin(&builder, options, false);
  PyObject *value = read_document(&builder, source);
  if (!value && !PyErr_Occurred())
    raise_error_of(&builder, JITER_OFF, source);
  builder_end(&builder);
  return value;
}

/* ---- Lines. */

static bool add_value(PyObject *values, PyObject *value) {
  bool added = PyList_Append(values, value) == 0;
  Py_DECREF(value);
  return added;
}

static bool add_error(PyObject *errors, const Builder *builder, const Source *line) {
  PyObject *error = error_of(builder, JITER_OFF, line), *number = PyLong_FromSize_t(line->lines_before + 1);
  bool added = error && number && PyDict_SetItem(errors, number, error) == 0;
  Py_XDECREF(error);
  Py_XDECREF(number);
  return added;
}

static bool is_blank(const Source *line) {
  JiterReader reader = jiter_reader(line->bytes, line->length);
  JiterFault fault = {0};
  return jiter_finish(&reader, &fault);
}

/* Adds the value or the error of a line. */
static bool add_line(Builder *builder, const Source *line, PyObject *values, PyObject *errors) {
  if (is_blank(line))
    return true;
  builder_restart(builder);
  PyObject *value = read_document(builder, line);
  if (value)
    return add_value(values, value);
  return !PyErr_Occurred() && add_error(errors, builder, line);
}

static bool add_lines(Builder *builder, const Source *source, PyObject *values, PyObject *errors) {
  Source line = *source;
  const char *end = source->bytes + source->length;
  bool added = true;
  while (added && line.bytes < end) {
    const char *feed = memchr(line.bytes, '\n', (size_t)(end - line.bytes));
    line.length = (size_t)((feed ? feed : end) - line.bytes);
    added = add_line(builder, &line, values, errors);
    line.bytes += line.length + 1;
    line.bytes_before += line.length + 1;
    line.lines_before++;
  }
  return added;
}

PyObject *values_of_lines(const Options *options, const Source *source) {
  Builder builder;
  PyObject *values = PyList_New(0), *errors = PyDict_New(), *both = NULL;
  builder_begin(&builder, options, false);
  if (values && errors && add_lines(&builder, source, values, errors))
    both = PyTuple_Pack(2, values, errors);
  builder_end(&builder);
  Py_XDECREF(values);
  Py_XDECREF(errors);
  return both;
}

/* ---- Truncated documents. The reader is stuck, before a value or after one. Whether the rest may follow there, and what
 * value it has, is what the library says of a short document: what the rest follows, and the rest. */

/* What stands for the part that was read: an array or an object with one string, or with a key. */
static const char *beginning(const Builder *builder) {
  if (builder->open[builder->depth - 1].dict)
    return builder->after_value ? "{\"\":\"\"" : builder->settled_text ? "{\"\":\"" : "{\"\":";
  return builder->after_value ? "[\"\"" : builder->settled_text ? "[\"\",\"" : "[\"\",";
}

/* Borrows the value after that beginning, or returns NULL, perhaps with an exception. */
static PyObject *value_after(PyObject *around) {
  if (PyList_Check(around))
    return PyList_GET_SIZE(around) > 1 ? PyList_GET_ITEM(around, 1) : NULL;
  PyObject *key = PyUnicode_New(0, 0);
  PyObject *value = key ? PyDict_GetItemWithError(around, key) : NULL;
  Py_XDECREF(key);
  return value;
}

/* The same with what is settled of a string before it. Returns a new reference. */
static PyObject *last_value(const Builder *builder, PyObject *around) {
  PyObject *value = builder->after_value ? NULL : value_after(around);
  if (value && builder->settled_text)
    return PyUnicode_Concat(builder->settled_text, value);
  Py_XINCREF(value);
  return value;
}

static bool print_unique(const Options *options, const char *bytes, size_t length, char *out, size_t room, size_t *whole,
                         JiterFault *fault) {
  JiterDocument document = {0};
  bool printed = jiter_document_parse(&document, bytes, length, options->non_finite, options->mode, true, fault) &&
                 jiter_document_print(&document, NULL, 0, NULL, 0, out, room, whole, fault);
  jiter_document_free(&document);
  return printed;
}

/* The compact text of a document, read in the mode of the options. Returns NULL if it is rejected, or with an exception. */
static char *print_of(const Options *options, const char *bytes, size_t length, size_t *whole) {
  JiterFault fault = {0};
  size_t room = length + 2 * NESTING_LIMIT;
  for (size_t i = 0; i < length; i++)
    room += bytes[i] == '\\' ? 4 : 0; /* an escape of two bytes may be printed as six */
  char *out = PyMem_Malloc(room);
  bool printed = out && (options->unique
                             ? print_unique(options, bytes, length, out, room, whole, &fault)
                             : jiter_print(bytes, length, options->non_finite, options->mode, out, room, whole, &fault));
  if (!out || (!printed && fault.kind == JITER_OUT_OF_MEMORY))
    PyErr_NoMemory();
  if (printed && *whole <= room)
    return out;
  PyMem_Free(out);
  return NULL;
}

/* The value of a document as the library prints it. Returns NULL if it is rejected, or with an exception. */
static PyObject *printed_value(const Options *options, const char *bytes, size_t length) {
  size_t whole = 0;
  char *printed = print_of(options, bytes, length, &whole);
  PyObject *value = printed ? document_value(options, &(Source){printed, whole, 0, 0}) : NULL;
  PyMem_Free(printed);
  return value;
}

/* The value of the short document. Returns NULL if it is rejected, or with an exception. */
static PyObject *short_value(const Builder *builder) {
  const char *begin = beginning(builder);
  size_t start = builder->settled_text ? builder->settled : builder->reader.index;
  size_t before = strlen(begin), length = builder->reader.length - start;
  char *bytes = PyMem_Malloc(before + length);
  if (!bytes)
    return PyErr_NoMemory();
  memcpy(bytes, begin, before);
  memcpy(bytes + before, builder->reader.bytes + start, length);
  PyObject *value = printed_value(builder->options, bytes, before + length);
  PyMem_Free(bytes);
  return value;
}

/* Whether the bytes end where the reader is stuck. If they don't, a partial mode may have its own way on: after `[1 2` the
 * array has ended, and a string may end within a character. */
static bool is_cut(const Builder *builder) {
  uint32_t kind = builder->fault.kind;
  return kind >= JITER_EOF_WHILE_PARSING_LIST && kind <= JITER_EOF_WHILE_PARSING_VALUE;
}

/* The value of a document whose reader is stuck. Returns NULL if it is rejected, or with an exception. */
static PyObject *value_of_stuck(const Builder *builder) {
  const JiterReader *reader = &builder->reader;
  if (builder->depth == 0 || !is_cut(builder))
    return printed_value(builder->options, reader->bytes, reader->length);
  PyObject *around = short_value(builder);
  if (!around)
    return NULL;
  PyObject *last = last_value(builder, around);
  PyObject *value = PyErr_Occurred() ? NULL : builder_snapshot(builder, last);
  Py_XDECREF(last);
  Py_DECREF(around);
  return value;
}

PyObject *value_so_far(Builder *builder, const Source *source) {
  const Options *options = builder->options;
  PyObject *value = NULL;
  switch (builder_run(builder, source->bytes, source->length)) {
  case STEP_FAILED:
    return NULL;
  case STEP_STUCK:
    value = value_of_stuck(builder);
    break;
  case STEP_DONE: /* in a partial mode the library doesn't read what follows the value */
    if (options->mode != JITER_OFF || builder_is_at_end(builder)) {
      value = builder->root;
      Py_INCREF(value);
    }
    break;
  default: /* a prefix of what is refused may be accepted */
    value = printed_value(options, source->bytes, source->length);
  }
  return value || PyErr_Occurred() ? value : raise_error_of(builder, options->mode, source);
}
