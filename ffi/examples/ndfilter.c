/* ndfilter FIELD TEXT: prints each line of standard input, a JSON document, whose member FIELD is the string TEXT. */
#include "jiter_c.h"

#include <stdio.h>
#include <stdlib.h>
#include <string.h>

static bool matches(const char *line, size_t length, char **words, char *room, JiterFault *fault) {
  JiterReader reader = jiter_reader(line, length);
  size_t count = 0, wanted = strlen(words[2]);
  bool found = false;
  return jiter_member(&reader, words[1], strlen(words[1]), &found, fault) && found &&
         jiter_next_str(&reader, room, length, &count, fault) && count == wanted && !memcmp(room, words[2], wanted);
}

int main(int count, char **words) {
  char *line = NULL, *room = NULL, cause[200];
  size_t held = 0, whole = 0, number = 0;
  ssize_t got;
  int status = 0;
  while (count == 3 && (got = getline(&line, &held, stdin)) > 0) {
    size_t length = (size_t)got - (line[got - 1] == '\n');
    JiterFault fault = {0};
    number++;
    if (!(room = realloc(room, held)))
      return 2;
    if (!jiter_parse(line, length, false, JITER_OFF, &fault)) { /* the whole line, its strings too */
      jiter_cause(&fault, cause, sizeof cause, &whole);
      fprintf(stderr, "-:%zu:%zu: %.*s\n", number, fault.index + 1, (int)whole, cause);
      status = 1;
    } else if (matches(line, length, words, room, &fault)) {
      fwrite(line, 1, (size_t)got, stdout);
    }
  }
  free(line);
  free(room);
  return count == 3 ? status : 2;
}
