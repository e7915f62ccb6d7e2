/* Builds Python's objects by the library's pull reader, without recursion. What it holds between two steps is complete: so
 * the bytes may grow, and a step that fails can be tried again. */
#include "safelorim.h"

/* How many steps go by until Python looks for signals, as of Ctrl-C: some milliseconds. */
#define SIGNAL_STEPS (1u << 16)
/* The library accepts integers of at most 4300 digits, and a minus. */
#define LONGEST_INTEGER 4301

/* ---- The containers that are open. */

static inline Open *innermost(Builder *builder) { return &builder->open[builder->depth - 1]; }

static bool push_item(Builder *builder, PyObject *item) {
  if (builder->count == builder->capacity) {
    size_t capacity = builder->capacity ? 2 * builder->capacity : 64;
    PyObject **items = capacity > PY_SSIZE_T_MAX / sizeof *items ? NULL : PyMem_Realloc(builder->items, capacity * sizeof *items);
    if (!items) {
      PyErr_NoMemory();
      return false;
    }
    builder->items = items;
    builder->capacity = capacity;
  }
  builder->items[builder->count++] = item;
  return true;
}

/* Puts the value that was read last into its container. */
static inline Step put_held(Builder *builder) {
  PyObject *value = builder->held;
  if (builder->depth == 0) {
    builder->root = value;
    builder->held = NULL;
    return STEP_DONE;
  }
  Open *open = innermost(builder);
  if (!open->dict) {
    if (!push_item(builder, value))
      return STEP_FAILED;
    builder->held = NULL;
  } else {
    if (PyDict_SetItem(open->dict, open->key, value) < 0)
      return STEP_FAILED;
    builder->held = NULL;
    Py_DECREF(value);
    Py_CLEAR(open->key);
  }
  builder->after_value = true;
  return STEP_ON;
}

static inline Step hold(Builder *builder, PyObject *value) {
  builder->held = value;
  return put_held(builder);
}

/* ---- Steps that fail leave the reader where it was. */

static Step stay(Builder *builder, size_t index) {
  builder->reader.index = index;
  return PyErr_Occurred() ? STEP_FAILED : STEP_STUCK;
}

static Step refuse(Builder *builder, size_t index, JiterKind kind) {
  builder->fault.kind = kind;
  builder->fault.index = builder->reader.index;
  builder->reader.index = index;
  return STEP_REFUSED;
}

/* ---- Keys. */

/* Reads a key that short_key doesn't take. */
static PyObject *read_long_key(Builder *builder, bool first, bool *more) {
  JiterReader *reader = &builder->reader;
  JiterKeyStep step = first ? jiter_next_object : jiter_next_key;
  size_t start = reader->index, whole = 0;
  while (step(reader, more, builder->room, builder->room_size, &whole, &builder->fault)) {
    if (whole <= builder->room_size)
      return text_of(builder->room, whole);
    reader->index = start;
    if (!grow_room(builder, whole))
      return NULL;
  }
  return NULL;
}

/* Reads the first key of the next object, or the next one of the innermost open object. If it returns true, the key is NULL
 * after the object's end. */
static inline bool read_key(Builder *builder, bool first, PyObject **key) {
  JiterReader *reader = &builder->reader;
  JiterText source = JITER_NO_TEXT;
  size_t start = reader->index;
  bool more = false;
  *key = NULL;
  if (first ? !jiter_next_object_bytes(reader, &more, &source, &builder->fault)
            : !jiter_next_key_bytes(reader, &more, &source, &builder->fault))
    return false;
  if (!more)
    return true;
  if (is_wide(builder, source.bytes, source.length)) {
    *key = wide_string(builder, source.bytes, source.length);
    return *key != NULL;
  }
  *key = short_key(builder->options->module, source.bytes, source.length);
  if (!*key && !PyErr_Occurred()) {
    reader->index = start;
    *key = read_long_key(builder, first, &more);
  }
  return *key != NULL;
}

/* ---- Other scalars. */

/* A promise of the library's contracts, which the type of the call doesn't say. */
static PyObject *broken_promise(void) {
  PyErr_SetString(PyExc_SystemError, "the library returned a number that its contract excludes");
  return NULL;
}

static PyObject *make_integer(JiterText text) {
  char digits[LONGEST_INTEGER + 1];
  if (text.length > LONGEST_INTEGER)
    return broken_promise();
  memcpy(digits, text.bytes, text.length);
  digits[text.length] = 0;
  return PyLong_FromString(digits, NULL, 10);
}

static PyObject *make_float(const Options *options, JiterText text) {
  double value = 0;
  bool finite = false;
  if (!options->make_float)
    return jiter_double(text.bytes, text.length, &value, &finite) ? PyFloat_FromDouble(value) : broken_promise();
  PyObject *source = text_of(text.bytes, text.length);
  PyObject *made = source ? PyObject_CallOneArg(options->make_float, source) : NULL;
  Py_XDECREF(source);
  return made;
}

static inline PyObject *read_number(Builder *builder) {
  JiterNumber number = {0, 0, JITER_NO_TEXT};
  if (!jiter_next_any_number(&builder->reader, &number, &builder->fault))
    return NULL;
  if (builder->grows && builder->reader.index == builder->reader.length) {
    builder->fault.kind = JITER_EOF_WHILE_PARSING_VALUE;
    return NULL;
  }
  switch (number.kind) {
  case JITER_INT:
    return PyLong_FromLongLong(number.integer);
  case JITER_BIG_INT:
    return make_integer(number.text);
  default:
    return make_float(builder->options, number.text);
  }
}

static PyObject *read_bool(Builder *builder) {
  bool value = false;
  return jiter_next_bool(&builder->reader, &value, &builder->fault) ? PyBool_FromLong(value) : NULL;
}

static PyObject *read_null(Builder *builder) {
  if (!jiter_next_null(&builder->reader, &builder->fault))
    return NULL;
  Py_INCREF(Py_None);
  return Py_None;
}

/* ---- Containers. */

static Step open_list(Builder *builder, size_t start) {
  bool more = false;
  if (!jiter_next_array(&builder->reader, &more, &builder->fault))
    return stay(builder, start);
  if (!more) {
    PyObject *list = PyList_New(0);
    return list ? hold(builder, list) : stay(builder, start);
  }
  if (builder->depth == NESTING_LIMIT)
    return refuse(builder, start, JITER_RECURSION_LIMIT_EXCEEDED);
  builder->open[builder->depth++] = (Open){NULL, NULL, builder->count};
  return STEP_ON;
}

static Step open_dict(Builder *builder, size_t start) {
  PyObject *key = NULL, *dict = NULL;
  if (!read_key(builder, true, &key))
    return stay(builder, start);
  if (key && builder->depth == NESTING_LIMIT) {
    Py_DECREF(key);
    return refuse(builder, start, JITER_RECURSION_LIMIT_EXCEEDED);
  }
  dict = PyDict_New();
  if (!dict) {
    Py_XDECREF(key);
    return stay(builder, start);
  }
  if (!key)
    return hold(builder, dict);
  builder->open[builder->depth++] = (Open){dict, key, 0};
  return STEP_ON;
}

static Step close_list(Builder *builder, size_t start) {
  size_t first = innermost(builder)->first, count = builder->count - first;
  PyObject *list = PyList_New((Py_ssize_t)count);
  if (!list)
    return stay(builder, start);
  for (size_t i = 0; i < count; i++)
    PyList_SET_ITEM(list, (Py_ssize_t)i, builder->items[first + i]);
  builder->count = first;
  builder->depth--;
  return hold(builder, list);
}

static Step close_dict(Builder *builder) {
  PyObject *dict = innermost(builder)->dict;
  builder->depth--;
  return hold(builder, dict);
}

/* Moves from an item to the next one, or past the list's end. */
static Step leave_item(Builder *builder) {
  size_t start = builder->reader.index;
  bool more = false;
  if (!jiter_array_step(&builder->reader, &more, &builder->fault))
    return stay(builder, start);
  if (!more)
    return close_list(builder, start);
  builder->after_value = false;
  return STEP_ON;
}

/* Whether the key is one of a dict; -1 with an exception. */
static int is_repeated(const Builder *builder, PyObject *dict, PyObject *key) {
  return builder->options->unique ? PyDict_Contains(dict, key) : 0;
}

/* Moves from a member to the next one's value, or past the object's end. */
static Step leave_member(Builder *builder) {
  Open *open = innermost(builder);
  size_t start = builder->reader.index;
  PyObject *key = NULL;
  if (!read_key(builder, false, &key))
    return stay(builder, start);
  if (!key)
    return close_dict(builder);
  int repeated = is_repeated(builder, open->dict, key);
  if (repeated) {
    Py_DECREF(key);
    return repeated < 0 ? stay(builder, start) : refuse(builder, start, JITER_DUPLICATE_KEY);
  }
  open->key = key;
  builder->after_value = false;
  return STEP_ON;
}

/* ---- Steps. */

/* The first byte of the next value, or 0 at the end. */
static inline char next_byte(Builder *builder) {
  JiterReader *reader = &builder->reader;
  uint32_t start = JITER_NOTHING;
  if (reader->index < reader->length && reader->bytes[reader->index] > ' ')
    return reader->bytes[reader->index];
  return jiter_peek(reader, &start, &builder->fault) ? reader->bytes[reader->index] : 0;
}

static inline Step hold_scalar(Builder *builder, size_t start, PyObject *value) {
  return value ? hold(builder, value) : stay(builder, start);
}

static inline Step enter_value(Builder *builder) {
  size_t start = builder->reader.index;
  switch (next_byte(builder)) {
  case '{':
    return open_dict(builder, start);
  case '[':
    return open_list(builder, start);
  case '"':
    return hold_scalar(builder, start,
                       builder->grows ? read_growing_string(builder) : read_string(builder, &builder->reader));
  case 't':
  case 'f':
    return hold_scalar(builder, start, read_bool(builder));
  case 'n':
    return hold_scalar(builder, start, read_null(builder));
  default: /* a number, or an error */
    return hold_scalar(builder, start, read_number(builder));
  }
}

static Step leave_value(Builder *builder) { return innermost(builder)->dict ? leave_member(builder) : leave_item(builder); }

static inline Step take_step(Builder *builder) {
  if (builder->held)
    return put_held(builder);
  if (builder->after_value) {
    Step step = leave_value(builder);
    if (step != STEP_ON || builder->after_value)
      return step;
  }
  return enter_value(builder);
}

Step builder_run(Builder *builder, const char *bytes, size_t length) {
  Step step = builder->root ? STEP_DONE : STEP_ON;
  builder->reader.bytes = bytes;
  builder->reader.length = length;
  while (step == STEP_ON) {
    if (++builder->steps % SIGNAL_STEPS == 0 && PyErr_CheckSignals() < 0)
      return STEP_FAILED;
    step = take_step(builder);
  }
  if (step == STEP_STUCK && builder->fault.kind == JITER_OUT_OF_MEMORY) {
    builder->fault.kind = 0;
    PyErr_NoMemory();
    return STEP_FAILED;
  }
  return step;
}

void builder_begin(Builder *builder, const Options *options, bool grows) {
  memset(builder, 0, offsetof(Builder, open));
  builder->options = options;
  builder->reader.allow_inf_nan = options->non_finite;
  builder->grows = grows;
}

void builder_restart(Builder *builder) {
  while (builder->count > 0)
    Py_DECREF(builder->items[--builder->count]);
  while (builder->depth > 0) {
    Open *open = &builder->open[--builder->depth];
    Py_XDECREF(open->dict);
    Py_XDECREF(open->key);
  }
  Py_CLEAR(builder->held);
  Py_CLEAR(builder->root);
  Py_CLEAR(builder->settled_text);
  builder->reader.index = 0;
  builder->after_value = false;
}

void builder_end(Builder *builder) {
  builder_restart(builder);
  PyMem_Free(builder->items);
  PyMem_Free(builder->room);
  builder->items = NULL;
  builder->room = NULL;
  builder->capacity = builder->room_size = 0;
}

int builder_traverse(Builder *builder, visitproc visit, void *arg) {
  for (size_t i = 0; i < builder->count; i++)
    Py_VISIT(builder->items[i]);
  for (size_t i = 0; i < builder->depth; i++)
    Py_VISIT(builder->open[i].dict);
  Py_VISIT(builder->held);
  Py_VISIT(builder->root);
  return 0;
}

bool builder_is_at_end(const Builder *builder) {
  JiterReader reader = builder->reader;
  JiterFault fault = {0};
  return jiter_finish(&reader, &fault);
}

/* ---- The document so far. */

/* A copy of an open list whose items end at `end` on the stack. Steals `last`, which may be NULL. */
static PyObject *copy_list(const Builder *builder, size_t first, size_t end, PyObject *last) {
  size_t count = end - first;
  PyObject *list = PyList_New((Py_ssize_t)(count + (last != NULL)));
  if (!list) {
    Py_XDECREF(last);
    return NULL;
  }
  for (size_t i = 0; i < count; i++) {
    Py_INCREF(builder->items[first + i]);
    PyList_SET_ITEM(list, (Py_ssize_t)i, builder->items[first + i]);
  }
  if (last)
    PyList_SET_ITEM(list, (Py_ssize_t)count, last);
  return list;
}

/* A copy of an open dict. Steals `last`, which may be NULL. */
static PyObject *copy_dict(const Open *open, PyObject *last) {
  PyObject *dict = PyDict_Copy(open->dict);
  if (dict && last && PyDict_SetItem(dict, open->key, last) < 0)
    Py_CLEAR(dict);
  Py_XDECREF(last);
  return dict;
}

PyObject *builder_snapshot(const Builder *builder, PyObject *last) {
  size_t end = builder->count;
  Py_XINCREF(last);
  for (size_t depth = builder->depth; depth > 0; depth--) {
    const Open *open = &builder->open[depth - 1];
    PyObject *copy = open->dict ? copy_dict(open, last) : copy_list(builder, open->first, end, last);
    if (!copy)
      return NULL;
    end = open->dict ? end : open->first;
    last = copy;
  }
  return last;
}
