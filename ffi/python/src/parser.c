/* safelorim.Parser: a document in chunks. */
#include "safelorim.h"

typedef struct {
  PyObject_HEAD
  Options options;
  Builder builder;
  char *text; /* all bytes so far */
  size_t length, capacity;
  /* Python code runs while a value is built: signal handlers, callables that make floats, finalizers, other threads. */
  PyThread_type_lock lock;
  unsigned long owner; /* the thread that has the lock */
} Parser;

/* Waits for other threads. Fails in a call of this thread within a call. */
static bool enter(Parser *self) {
  unsigned long thread = PyThread_get_thread_ident();
  if (!PyThread_acquire_lock(self->lock, NOWAIT_LOCK)) {
    if (self->owner == thread) {
      PyErr_SetString(PyExc_RuntimeError, "the parser is in a call already");
      return false;
    }
    Py_BEGIN_ALLOW_THREADS
    PyThread_acquire_lock(self->lock, WAIT_LOCK);
    Py_END_ALLOW_THREADS
  }
  self->owner = thread;
  return true;
}

static void leave(Parser *self) {
  self->owner = 0;
  PyThread_release_lock(self->lock);
}

static Source source_of(const Parser *self) { return (Source){self->text ? self->text : "", self->length, 0, 0}; }

static PyObject *parser_new(PyTypeObject *type, PyObject *args, PyObject *kwargs) {
  static char *names[] = {"partial", "unique", "non_finite", "float", NULL};
  Settings settings = DEFAULT_SETTINGS;
  settings.partial = "trailing-strings";
  Options options;
  if (!PyArg_ParseTupleAndKeywords(args, kwargs, "|$zppO:Parser", names, &settings.partial, &settings.unique,
                                   &settings.non_finite, &settings.make_float) ||
      !options_of(&settings, PyType_GetModuleState(type), &options))
    return NULL;
  Parser *self = (Parser *)type->tp_alloc(type, 0);
  if (!self)
    return NULL;
  self->options = options;
  Py_XINCREF(self->options.make_float);
  builder_begin(&self->builder, &self->options, true);
  self->lock = PyThread_allocate_lock();
  if (!self->lock) {
    Py_DECREF(self);
    return PyErr_NoMemory();
  }
  return (PyObject *)self;
}

static int parser_traverse(Parser *self, visitproc visit, void *arg) {
  Py_VISIT(Py_TYPE(self));
  Py_VISIT(self->options.make_float);
  return builder_traverse(&self->builder, visit, arg);
}

static int parser_clear(Parser *self) {
  builder_end(&self->builder);
  Py_CLEAR(self->options.make_float);
  return 0;
}

static void parser_dealloc(Parser *self) {
  PyTypeObject *type = Py_TYPE(self);
  PyObject_GC_UnTrack(self);
  parser_clear(self);
  PyMem_Free(self->text);
  if (self->lock)
    PyThread_free_lock(self->lock);
  type->tp_free((PyObject *)self);
  Py_DECREF(type);
}

/* Makes room for so many bytes more. */
static bool reserve(Parser *self, size_t more) {
  size_t wanted = self->length + more, capacity = self->capacity;
  if (wanted <= capacity)
    return true;
  capacity = capacity < 256 ? 256 : capacity + capacity / 2;
  capacity = capacity < wanted ? wanted : capacity;
  char *text = capacity > PY_SSIZE_T_MAX ? NULL : PyMem_Realloc(self->text, capacity);
  if (!text) {
    PyErr_NoMemory();
    return false;
  }
  self->text = text;
  self->capacity = capacity;
  return true;
}

static PyObject *push(Parser *self, const Source *chunk) {
  if (!reserve(self, chunk->length))
    return NULL;
  if (chunk->length > 0)
    memcpy(self->text + self->length, chunk->bytes, chunk->length);
  self->length += chunk->length;
  Py_RETURN_NONE;
}

static PyObject *parser_push(Parser *self, PyObject *object) {
  Data chunk;
  PyObject *result = NULL;
  if (!data_of(object, &chunk))
    return NULL;
  if (enter(self)) {
    result = push(self, &chunk.source);
    leave(self);
  }
  data_release(&chunk);
  return result;
}

static PyObject *value(Parser *self) {
  Source source = source_of(self);
  return value_so_far(&self->builder, &source);
}

static bool is_complete(const Builder *builder, Step step) { return step == STEP_DONE && builder_is_at_end(builder); }

/* Whether the bytes so far have no bracket yet: then they may be a number, which ends where they end. */
static bool may_be_number(const Builder *builder, Step step) { return step == STEP_STUCK && builder->depth == 0; }

static PyObject *finish(Parser *self) {
  Source source = source_of(self);
  Builder *builder = &self->builder;
  Step step = builder_run(builder, source.bytes, source.length);
  if (step == STEP_FAILED)
    return NULL;
  if (may_be_number(builder, step))
    return document_value(&self->options, &source);
  if (!is_complete(builder, step))
    return raise_error_of(builder, JITER_OFF, &source);
  Py_INCREF(builder->root);
  return builder->root;
}

static PyObject *error(Parser *self) {
  Source source = source_of(self);
  Builder *builder = &self->builder;
  JiterFault fault = {0};
  Step step = builder_run(builder, source.bytes, source.length);
  if (step == STEP_FAILED)
    return NULL;
  if (is_complete(builder, step) ||
      (may_be_number(builder, step) &&
       jiter_parse(source.bytes, source.length, self->options.non_finite, JITER_OFF, &fault)))
    Py_RETURN_NONE;
  return error_of(builder, JITER_OFF, &source);
}

/* Makes a call of a parser while no other is made. */
static PyObject *locked(Parser *self, PyObject *(*call)(Parser *)) {
  if (!enter(self))
    return NULL;
  PyObject *result = call(self);
  leave(self);
  return result;
}

static PyObject *parser_value(Parser *self, PyObject *unused) {
  (void)unused;
  return locked(self, value);
}

static PyObject *parser_finish(Parser *self, PyObject *unused) {
  (void)unused;
  return locked(self, finish);
}

static PyObject *parser_error(Parser *self, PyObject *unused) {
  (void)unused;
  return locked(self, error);
}

static PyMethodDef parser_methods[] = {
    {"push", (PyCFunction)parser_push, METH_O,
     PyDoc_STR("push($self, data, /)\n--\n\nTakes a chunk, cut anywhere, also within a character. If it raises MemoryError, "
               "nothing of it is taken.")},
    {"value", (PyCFunction)parser_value, METH_NOARGS,
     PyDoc_STR("value($self, /)\n--\n\nReturns the value of the bytes so far, read in the mode `partial`.")},
    {"error", (PyCFunction)parser_error, METH_NOARGS,
     PyDoc_STR("error($self, /)\n--\n\nReturns what `finish` would raise now, or None.")},
    {"finish", (PyCFunction)parser_finish, METH_NOARGS,
     PyDoc_STR("finish($self, /)\n--\n\nReturns the value of the document. If it isn't complete, you may go on to push.")},
    {NULL, NULL, 0, NULL}};

static PyType_Slot parser_slots[] = {
    {Py_tp_doc, "Parser(*, partial='trailing-strings', unique=False, non_finite=False, float=None)\n--\n\n"
                "A document in chunks: `push` each; `value` is the value so far, `finish` that of the complete document."},
    {Py_tp_new, parser_new},
    {Py_tp_dealloc, parser_dealloc},
    {Py_tp_traverse, parser_traverse},
    {Py_tp_clear, parser_clear},
    {Py_tp_methods, parser_methods},
    {0, NULL}};

PyType_Spec parser_spec = {"safelorim.Parser", sizeof(Parser), 0, Py_TPFLAGS_DEFAULT | Py_TPFLAGS_HAVE_GC, parser_slots};
