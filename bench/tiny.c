// Makes one call on the document that is its second argument, twice. The script tiny counts the second.
#include <string.h>

#include "../ffi/jiter_c.h"

static bool parse(const char *bytes, size_t length) {
  JiterFault fault;
  return jiter_parse(bytes, length, false, JITER_OFF, &fault);
}

static bool made(const char *bytes, size_t length, bool unique) {
  JiterFault fault;
  JiterDocument document = {0};
  bool is_read = jiter_document_parse(&document, bytes, length, false, JITER_OFF, unique, &fault);
  jiter_document_free(&document);
  return is_read;
}

static bool document(const char *bytes, size_t length) {
  return made(bytes, length, false);
}

static bool unique(const char *bytes, size_t length) {
  return made(bytes, length, true);
}

static bool value(JiterReader *reader, JiterFault *fault);

static bool items(JiterReader *reader, JiterFault *fault) {
  bool more;
  if (!jiter_next_array(reader, &more, fault)) return false;
  while (more)
    if (!value(reader, fault) || !jiter_array_step(reader, &more, fault)) return false;
  return true;
}

static bool members(JiterReader *reader, JiterFault *fault) {
  char key[64];
  size_t whole;
  bool more;
  if (!jiter_next_object(reader, &more, key, sizeof key, &whole, fault)) return false;
  while (more)
    if (!value(reader, fault) || !jiter_next_key(reader, &more, key, sizeof key, &whole, fault)) return false;
  return true;
}

static bool value(JiterReader *reader, JiterFault *fault) {
  char text[256];
  size_t whole;
  bool truth;
  uint32_t start;
  JiterNumber number;
  if (!jiter_peek(reader, &start, fault)) return false;
  switch (start) {
    case JITER_NULL: return jiter_next_null(reader, fault);
    case JITER_BOOL: return jiter_next_bool(reader, &truth, fault);
    case JITER_STRING: return jiter_next_str(reader, text, sizeof text, &whole, fault);
    case JITER_ARRAY: return items(reader, fault);
    case JITER_OBJECT: return members(reader, fault);
    default: return jiter_next_any_number(reader, &number, fault);
  }
}

static bool reader(const char *bytes, size_t length) {
  JiterFault fault;
  JiterReader begun = jiter_reader(bytes, length);
  return value(&begun, &fault) && jiter_finish(&begun, &fault);
}

typedef bool Call(const char *bytes, size_t length);

__attribute__((noinline)) bool once(Call *call, const char *bytes, size_t length) {
  bool is_read = call(bytes, length);
  __asm__ volatile("" ::: "memory");
  return is_read;
}

int main(int count, char **words) {
  static const struct { const char *name; Call *call; } calls[] = {
      {"parse", parse}, {"document", document}, {"unique", unique}, {"reader", reader}};
  for (size_t k = 0; count == 3 && k < sizeof calls / sizeof *calls; k++) {
    size_t length = strlen(words[2]);
    if (strcmp(words[1], calls[k].name)) continue;
    return calls[k].call(words[2], length) && once(calls[k].call, words[2], length) ? 0 : 1;
  }
  return 2;
}
