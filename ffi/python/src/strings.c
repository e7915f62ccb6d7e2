/* Strings that the builder reads, also those whose end is still to come. */
#include "safelorim.h"

/* So many bytes of a string are read again before they are settled. The tests set less. */
#ifndef UNSETTLED
#define UNSETTLED 256
#endif
/* The longest character, of two escapes. */
#define LONGEST_CHARACTER 12

bool grow_room(Builder *builder, size_t size) {
  size = size < 1024 ? 1024 : size;
  char *room = PyMem_Realloc(builder->room, size);
  if (!room) {
    PyErr_NoMemory();
    return false;
  }
  builder->room = room;
  builder->room_size = size;
  return true;
}

PyObject *read_string(Builder *builder, JiterReader *reader) {
  size_t start = reader->index, whole = 0;
  while (jiter_next_str(reader, builder->room, builder->room_size, &whole, &builder->fault)) {
    const char *raw = reader->bytes + start + 1;
    if (is_wide(builder, raw, reader->index - start - 2))
      return wide_string(builder, raw, reader->index - start - 2);
    if (start + whole + 2 == reader->index) /* no escape, which is longer than what it spells */
      return text_of(raw, whole);
    if (whole <= builder->room_size)
      return text_of(builder->room, whole);
    reader->index = start;
    if (!grow_room(builder, whole))
      return NULL;
  }
  return NULL;
}

/* ---- Strings that grow. */

/* Reads bytes of the string with a quote before them, and one after them if they are complete. Writes where they end. */
static PyObject *read_part(Builder *builder, size_t from, size_t to, bool complete, size_t *end) {
  size_t length = to - from + 1 + complete;
  char *quoted = PyMem_Malloc(length);
  if (!quoted)
    return PyErr_NoMemory();
  quoted[0] = '"';
  memcpy(quoted + 1, builder->reader.bytes + from, to - from);
  if (complete)
    quoted[length - 1] = '"';
  JiterReader reader = jiter_reader(quoted, length);
  PyObject *text = read_string(builder, &reader);
  *end = from + reader.index - 1;
  PyMem_Free(quoted);
  return text;
}

/* The settled text up to this cut, or NULL if the cut is within a character. */
static PyObject *text_up_to(Builder *builder, size_t from, size_t cut) {
  size_t end = 0;
  PyObject *text = read_part(builder, from, cut, true, &end);
  if (!text || !builder->settled_text)
    return text;
  PyObject *both = PyUnicode_Concat(builder->settled_text, text);
  Py_DECREF(text);
  return both;
}

/* Settles more of a string, from this index on, up to the last character that is complete: where the library takes the part
 * for a string. If memory runs out, it is done at the next call. */
static void settle(Builder *builder, size_t from) {
  JiterFault fault = builder->fault;
  PyObject *text = NULL;
  size_t end = builder->reader.length, cut = end + 1;
  if (end - from < UNSETTLED)
    return;
  while (!text && !PyErr_Occurred() && --cut > from && end - cut < LONGEST_CHARACTER)
    text = text_up_to(builder, from, cut);
  PyErr_Clear();
  builder->fault = fault;
  if (text) {
    Py_XSETREF(builder->settled_text, text);
    builder->settled = cut;
  }
}

/* Reads the rest of a string of which a beginning is settled. */
static PyObject *read_rest(Builder *builder) {
  size_t end = 0;
  PyObject *rest = read_part(builder, builder->settled, builder->reader.length, false, &end);
  PyObject *text = rest ? PyUnicode_Concat(builder->settled_text, rest) : NULL;
  Py_XDECREF(rest);
  if (text) {
    builder->reader.index = end;
    Py_CLEAR(builder->settled_text);
  }
  return text;
}

PyObject *read_growing_string(Builder *builder) {
  size_t start = builder->reader.index;
  bool is_settled = builder->settled_text != NULL;
  PyObject *text = is_settled ? read_rest(builder) : read_string(builder, &builder->reader);
  if (!text && !PyErr_Occurred() && builder->fault.kind == JITER_EOF_WHILE_PARSING_STRING)
    settle(builder, is_settled ? builder->settled : start + 1);
  return text;
}
