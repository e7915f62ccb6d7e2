/* config FILE: reads {"name": "..", "port": 1..65535, "hosts": ["..", ..]}, and reports errors as FILE:LINE:COLUMN: CAUSE. */
#include "jiter_c.h"

#include <inttypes.h>
#include <stdio.h>
#include <stdlib.h>
#include <string.h>

static const char *file;
static char *bytes, *room; /* a decoded string is never longer than its source */
static size_t length;
static JiterFault fault;

static bool fail_at(size_t index, const char *cause, size_t count) {
  JiterPosition at = {0, 0};
  jiter_position(bytes, length, index, &at);
  fprintf(stderr, "%s:%zu:%zu: %.*s\n", file, at.line, jiter_character_column(bytes, length, index), (int)count, cause);
  return false;
}

static bool fail(void) {
  char cause[200] = "out of memory";
  size_t count = strlen(cause);
  jiter_cause(&fault, cause, sizeof cause, &count);
  return fail_at(fault.index, cause, count);
}

static bool read_text(JiterReader *reader, const char *name) {
  size_t count = 0;
  if (!jiter_next_str(reader, room, length, &count, &fault))
    return fail();
  printf("%s %.*s\n", name, (int)count, room);
  return true;
}

static bool read_port(JiterReader *reader) {
  uint32_t start = 0;
  uint64_t port = 0;
  bool fits = false;
  if (!jiter_peek(reader, &start, &fault)) /* then reader->index is the value's place */
    return fail();
  size_t place = reader->index;
  if (!jiter_next_u64(reader, &fits, &port, &fault))
    return fail();
  if (port < 1 || port > 65535)
    return fail_at(place, "the port is not from 1 to 65535", 31);
  printf("port %" PRIu64 "\n", port);
  return true;
}

static bool read_hosts(JiterReader *reader) {
  bool more = false;
  if (!jiter_next_array(reader, &more, &fault))
    return fail();
  while (more)
    if (!read_text(reader, "host") || (!jiter_array_step(reader, &more, &fault) && !fail()))
      return false;
  return true;
}

static bool read_member(JiterReader *reader, size_t count) {
  if (count == 4 && !memcmp(room, "name", 4))
    return read_text(reader, "name");
  if (count == 4 && !memcmp(room, "port", 4))
    return read_port(reader);
  if (count == 5 && !memcmp(room, "hosts", 5))
    return read_hosts(reader);
  return fail_at(reader->index - 1, "unknown key", 11);
}

static bool read_config(void) {
  JiterReader reader = jiter_reader(bytes, length);
  bool more = false;
  size_t count = 0;
  if (!jiter_next_object(&reader, &more, room, length, &count, &fault))
    return fail();
  while (more)
    if (!read_member(&reader, count) || (!jiter_next_key(&reader, &more, room, length, &count, &fault) && !fail()))
      return false;
  return jiter_finish(&reader, &fault) || fail();
}

int main(int count, char **words) {
  FILE *input = count == 2 ? fopen(file = words[1], "rb") : NULL;
  if (!input || fseek(input, 0, SEEK_END) || (bytes = malloc(2 * (length = (size_t)ftell(input)) + 2)) == NULL)
    return 2;
  rewind(input);
  room = bytes + length + 1;
  if (fread(bytes, 1, length, input) != length || fclose(input))
    return 2;
  int status = read_config() ? 0 : 1;
  free(bytes);
  return status;
}
