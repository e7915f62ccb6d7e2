/* A caller in C: it reads a document from standard input, makes the calls that its words name, and writes what they
 * answer. caller.rs does the same in Rust, and checks/ffi compares the two. */
#include "jiter_c.h"

#include <inttypes.h>
#include <stdio.h>
#include <stdlib.h>
#include <string.h>

static char *document; /* the bytes of the document */
static size_t length;
static char *room; /* where texts are written: a decoded text is never longer than its source */
static JiterFault fault;

/* Standard input as it comes, and as much room again. */
static void read_document(void) {
  size_t held = 1 << 16, got;
  document = malloc(held);
  while (document && (got = fread(document + length, 1, held - length, stdin)) > 0)
    if ((length += got) == held)
      document = realloc(document, held *= 2);
  room = malloc(6 * length + 64);
  if (!document || !room)
    exit(3);
}

/* What was refused, by its numbers and in words. */
static bool refused(void) {
  char text[200];
  size_t whole = 0;
  if (!jiter_describe(document, length, &fault, text, sizeof text, &whole))
    exit(3);
  printf("fault %" PRIu32 " %" PRIu32 " %" PRIu32 " at %zu: %.*s", fault.kind, fault.expected, fault.actual,
         fault.index, (int)whole, text);
  return false;
}

static bool given(bool answer) { return answer || refused(); }

static void show(const char *bytes, size_t count) {
  putchar('\'');
  fwrite(bytes, 1, count, stdout);
  putchar('\'');
}

static bool walk(JiterReader *reader, bool raw);

static bool walk_array(JiterReader *reader, bool raw) {
  bool more = false;
  putchar('[');
  if (!given(jiter_next_array(reader, &more, &fault)))
    return false;
  while (more) {
    if (!walk(reader, raw) || !given(jiter_array_step(reader, &more, &fault)))
      return false;
    if (more)
      putchar(',');
  }
  putchar(']');
  return true;
}

static bool walk_object(JiterReader *reader, bool raw) {
  JiterText key = JITER_NO_TEXT;
  bool more = false;
  size_t whole = 0;
  putchar('{');
  if (!given(raw ? jiter_next_object_bytes(reader, &more, &key, &fault)
                 : jiter_next_object(reader, &more, room, length, &whole, &fault)))
    return false;
  while (more) {
    show(raw ? key.bytes : room, raw ? key.length : whole);
    putchar(':');
    if (!walk(reader, raw) || !given(raw ? jiter_next_key_bytes(reader, &more, &key, &fault)
                                         : jiter_next_key(reader, &more, room, length, &whole, &fault)))
      return false;
    if (more)
      putchar(',');
  }
  putchar('}');
  return true;
}

static bool walk_string(JiterReader *reader, bool raw) {
  JiterText text = JITER_NO_TEXT;
  size_t whole = 0;
  if (!given(raw ? jiter_next_bytes(reader, &text, &fault) : jiter_next_str(reader, room, length, &whole, &fault)))
    return false;
  show(raw ? text.bytes : room, raw ? text.length : whole);
  return true;
}

/* An integer by its value, where it has 64 bits; else a number by its own bytes, from the place where it stands. */
static bool walk_number(JiterReader *reader) {
  JiterText text = JITER_NO_TEXT;
  JiterReader before = *reader;
  int64_t value = 0;
  bool fits = false;
  if (jiter_next_int(reader, &fits, &value, &fault) && fits) {
    printf("%" PRId64, value);
    return true;
  }
  *reader = before;
  if (!given(jiter_next_number(reader, &text, &fault)))
    return false;
  printf("number %.*s", (int)text.length, text.bytes);
  return true;
}

/* The value that comes next. */
static bool walk(JiterReader *reader, bool raw) {
  uint32_t start = 0;
  bool truth = false;
  if (!given(jiter_peek(reader, &start, &fault)))
    return false;
  switch (start) {
  case JITER_NULL:
    return given(jiter_next_null(reader, &fault)) && printf("null") > 0;
  case JITER_BOOL:
    return given(jiter_next_bool(reader, &truth, &fault)) && printf(truth ? "true" : "false") > 0;
  case JITER_STRING:
    return walk_string(reader, raw);
  case JITER_ARRAY:
    return walk_array(reader, raw);
  case JITER_OBJECT:
    return walk_object(reader, raw);
  default:
    return walk_number(reader);
  }
}

/* The value that comes next where one was found. */
static void walk_if(JiterReader *reader, bool found, const char *none) {
  if (found)
    walk(reader, false);
  else
    printf("%s", none);
}

static uint32_t mode_of(const char *word) {
  return !strcmp(word, "off") ? JITER_OFF : !strcmp(word, "on") ? JITER_ON : JITER_TRAILING_STRINGS;
}

static void whole_document(const char *word, const char *mode) {
  size_t whole = 0;
  if (!strcmp(word, "parse")) {
    if (given(jiter_parse(document, length, false, mode_of(mode), &fault)))
      printf("document");
  } else if (given(jiter_print(document, length, false, mode_of(mode), room, 6 * length + 64, &whole, &fault))) {
    fwrite(room, 1, whole, stdout);
  }
}

/* Where the reader stands. */
static void place(const JiterReader *reader) {
  JiterPosition position = {0, 0};
  jiter_position(document, length, reader->index, &position);
  printf(" then %zu, line %zu column %zu", reader->index, position.line, position.column);
}

int main(int count, char **words) {
  const char *word = count > 1 ? words[1] : "walk", *more = count > 2 ? words[2] : "off";
  uint64_t items = 0;
  bool found = false, truth = false, fits = false;
  int64_t value = 0;
  read_document();
  JiterReader reader = jiter_reader(document, length);
  reader.allow_inf_nan = !strcmp(more, "names");
  reader.allow_partial_strings = !strcmp(more, "partial");
  if (!strcmp(word, "parse") || !strcmp(word, "print")) {
    whole_document(word, more);
  } else if (!strcmp(word, "walk") || !strcmp(word, "raw")) {
    if (walk(&reader, !strcmp(word, "raw")) && given(jiter_finish(&reader, &fault)))
      printf(" whole");
  } else if (!strcmp(word, "skip")) {
    if (given(jiter_next_skip(&reader, &fault)))
      printf("skipped");
  } else if (!strcmp(word, "null")) {
    if (given(jiter_next_null(&reader, &fault)))
      printf("null");
  } else if (!strcmp(word, "bool")) {
    if (given(jiter_next_bool(&reader, &truth, &fault)))
      printf(truth ? "true" : "false");
  } else if (!strcmp(word, "int")) {
    if (given(jiter_next_int(&reader, &fits, &value, &fault)))
      printf("%s %" PRId64, fits ? "fits" : "too long", value);
  } else if (!strcmp(word, "string")) {
    walk_string(&reader, false);
  } else if (!strcmp(word, "count")) {
    if (given(jiter_count(&reader, &items, &fault)))
      printf("%" PRIu64 " parts", items);
  } else if (!strcmp(word, "item")) {
    if (given(jiter_item(&reader, strtoull(more, NULL, 10), &found, &fault)))
      walk_if(&reader, found, "no item");
  } else if (!strcmp(word, "member")) {
    if (given(jiter_member(&reader, more, strlen(more), &found, &fault)))
      walk_if(&reader, found, "no member");
  }
  place(&reader);
  putchar('\n');
  free(document);
  free(room);
  return 0;
}
