/* What the files of the module share. */
#ifndef SAFELORIM_H
#define SAFELORIM_H

#define PY_SSIZE_T_CLEAN
#include <Python.h>

#include "jiter_c.h"

/* How many short keys a module keeps. */
#define KEY_SLOT_BITS 11
#define KEY_SLOTS (1 << KEY_SLOT_BITS)
/* How many non-empty containers may be inside one another. */
#define NESTING_LIMIT 200

typedef struct {
  PyObject *error_type;      /* safelorim.JsonError */
  PyObject *cause_of_key;    /* a function: the cause of an error for a repeated key */
  PyTypeObject *parser_type; /* safelorim.Parser */
  PyObject *keys[KEY_SLOTS]; /* short keys of earlier objects, each in the slot that its bytes choose */
} Module;

/* How a document is read. */
typedef struct {
  Module *module;
  PyObject *make_float; /* called with the text of a float; NULL for Python's float */
  uint32_t mode;        /* a JiterMode */
  bool unique;          /* whether a repeated key is an error */
  bool non_finite;      /* whether NaN, Infinity and -Infinity are numbers */
} Options;

/* texts.c. Both return a new reference. */

/* The str of bytes that are known to be UTF-8. */
PyObject *text_of(const char *bytes, size_t length);
/* The str of the bytes between a key's quotes, the same one each time. NULL without an exception if it has to be read by
 * the library: it is long, or it has an escape or a character that isn't ASCII. */
PyObject *short_key(Module *module, const char *bytes, size_t length);

/* builder.c: builds Python's objects from bytes that are there, or still grow. */

/* A container whose end has not been read. */
typedef struct {
  PyObject *dict; /* NULL for a list: its items are on the builder's stack */
  PyObject *key;  /* of the member whose value comes next */
  size_t first;   /* where a list's items begin on the stack */
} Open;

typedef struct {
  const Options *options;
  JiterReader reader;
  JiterFault fault;  /* why the reader is stuck */
  bool grows;        /* whether more bytes may follow, so that a number at the end may have more digits */
  bool after_value;  /* whether the reader is after a value of the innermost open container, and not before one */
  PyObject *held;    /* a value that was read and is not in its container yet */
  PyObject *root;    /* the document's value, once it is complete */
  PyObject *wide;    /* a str of which the bytes are a copy (wide.c), or NULL; borrowed */
  PyObject **items;  /* the items of all open lists */
  size_t count, capacity;
  char *room; /* where strings with an escape are decoded */
  size_t room_size;
  PyObject *settled_text; /* the beginning of a string that isn't closed yet, or NULL */
  size_t settled;         /* where the bytes of that beginning end */
  unsigned steps;
  size_t depth;
  Open open[NESTING_LIMIT];
} Builder;

typedef enum {
  STEP_ON,      /* there is more to read */
  STEP_DONE,    /* root is there */
  STEP_STUCK,   /* the bytes end, or are in error: only the library's parse knows which */
  STEP_REFUSED, /* the bytes are in error */
  STEP_FAILED   /* an exception is set */
} Step;

void builder_begin(Builder *builder, const Options *options, bool grows);
/* Drops what was read, and keeps the memory for the next document. */
void builder_restart(Builder *builder);
void builder_end(Builder *builder);
int builder_traverse(Builder *builder, visitproc visit, void *arg);
/* Reads on to the end of the bytes. A step that fails leaves everything as it was before the step, so that a second call
 * goes on from there. */
Step builder_run(Builder *builder, const char *bytes, size_t length);
/* Whether only whitespace is left after the document. */
bool builder_is_at_end(const Builder *builder);
/* The document with copies of the containers that are still open, and `last`, if it isn't NULL, as the value that comes
 * next. Returns a new reference. */
PyObject *builder_snapshot(const Builder *builder, PyObject *last);

/* strings.c: strings that the builder reads. Each returns NULL without an exception if the reader is stuck. */

/* Reads the string at the reader's position. */
PyObject *read_string(Builder *builder, JiterReader *reader);
/* The same at the builder's position, of a string that may go on later: what is read of it isn't read again. */
PyObject *read_growing_string(Builder *builder);
/* Makes room for a string that is decoded. */
bool grow_room(Builder *builder, size_t size);

/* wide.c: documents in a str that isn't ASCII. */

/* The value, or NULL; then an exception is set, or the UTF-8 must be read to know more. */
PyObject *wide_value(const Options *options, PyObject *text);
/* What stands for a character that isn't ASCII. */
#define DEL 0x7F
/* Whether these bytes between quotes stand for others. */
static inline bool is_wide(const Builder *builder, const char *raw, size_t length) {
  return builder->wide && memchr(raw, DEL, length) != NULL;
}
/* The string that they stand for. */
PyObject *wide_string(Builder *builder, const char *raw, size_t length);

/* documents.c: complete and truncated documents, and lines. */

/* Bytes of a document, and how many bytes and lines of the caller's data are before them. */
typedef struct {
  const char *bytes;
  size_t length;
  size_t bytes_before;
  size_t lines_before;
} Source;

PyObject *document_value(const Options *options, const Source *source);
/* The same without a reason: NULL without an exception if the bytes are rejected. `wide` is the builder's. */
PyObject *value_if_document(const Options *options, const Source *source, PyObject *wide);
/* The value of the bytes so far, read in the mode of the options. */
PyObject *value_so_far(Builder *builder, const Source *source);
/* A list of the values of lines, and a dict of the errors by line. */
PyObject *values_of_lines(const Options *options, const Source *source);
/* A new JsonError for bytes that are rejected in this mode, or NULL with MemoryError. If the library accepts them, it is of
 * the builder's error. */
PyObject *error_of(const Builder *builder, uint32_t mode, const Source *source);
/* Sets that error as the exception, and returns NULL. */
PyObject *raise_error_of(const Builder *builder, uint32_t mode, const Source *source);

/* arguments.c */

/* The bytes of an argument, as UTF-8. They stay unchanged until they are released. */
typedef struct {
  Source source;
  PyObject *owner;
} Data;

/* The keyword arguments of all calls, with their defaults. */
typedef struct {
  const char *partial;
  int unique;
  int non_finite;
  PyObject *make_float;
} Settings;
#define DEFAULT_SETTINGS {NULL, 0, 0, (PyObject *)&PyFloat_Type}

/* Whether it is a str with other characters than ASCII, in the form of a new str. */
bool is_wide_text(PyObject *object);
bool data_of(PyObject *object, Data *data);
void data_release(Data *data);
/* Borrows what the settings hold. */
bool options_of(const Settings *settings, Module *module, Options *options);

/* parser.c */
extern PyType_Spec parser_spec;

#endif
