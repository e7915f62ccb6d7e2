/* tree: reads a document in chunks from standard input, shows its outline, or reports the error with its line. */
#include "jiter_c.h"

#include <inttypes.h>
#include <stdio.h>
#include <stdlib.h>

static char room[1 << 16];

static void put(const char *before, JiterText text, const char *after) {
  fputs(before, stdout);
  fwrite(text.bytes, 1, text.length, stdout);
  fputs(after, stdout);
}

static void show(const JiterWalk *walk, const JiterNode *node, int depth) {
  uint32_t kind = node->kind;
  printf("%*s", 2 * depth, "");
  if (node->key_length)
    put("", jiter_value_key(walk, node), ": ");
  if (kind == JITER_ARRAY || kind == JITER_OBJECT)
    printf(kind == JITER_ARRAY ? "array of %zu\n" : "object of %zu\n", jiter_value_length(node));
  else if (kind == JITER_STRING)
    put("\"", jiter_value_text(walk, node), "\"\n");
  else if (kind == JITER_INT)
    printf("%" PRId64 "\n", node->integer);
  else if (kind == JITER_NULL || kind == JITER_BOOL)
    puts(kind == JITER_NULL ? "null" : node->truth ? "true" : "false");
  else
    put("", jiter_value_text(walk, node), "\n");
  for (const JiterNode *child = jiter_value_first_child(node); child; child = jiter_value_next_sibling(child))
    show(walk, child, depth + 1);
}

static int fail(JiterLines *lines, const JiterFault *fault) {
  char cause[200] = "out of memory";
  size_t whole = 13;
  JiterPosition at = {0, 0};
  jiter_lines_position(lines, fault->index, &at);
  jiter_cause(fault, cause, sizeof cause, &whole);
  fprintf(stderr, "-:%zu:%zu: %.*s\n", at.line, at.column, (int)whole, cause);
  return 1;
}

int main(void) {
  JiterParser parser = {0};
  JiterLines lines = {0};
  JiterDocument document = {0};
  JiterWalk walk = {0};
  JiterFault fault = {JITER_OUT_OF_MEMORY, 0, 0, 0};
  size_t got;
  bool held = jiter_parser_new(&parser, false, JITER_OFF) && jiter_lines_new(&lines);
  while (held && (got = fread(room, 1, sizeof room, stdin)) > 0)
    held = jiter_parser_push(&parser, room, got) && jiter_lines_push(&lines, room, got);
  bool ok = held && jiter_parser_to_document(&parser, &document, &fault) && jiter_walk_new(&walk, &document, &fault);
  int status = ok ? 0 : fail(&lines, &fault);
  if (ok)
    show(&walk, walk.nodes, 0);
  jiter_walk_free(&walk);
  jiter_document_free(&document);
  jiter_parser_free(&parser);
  jiter_lines_free(&lines);
  return status;
}
