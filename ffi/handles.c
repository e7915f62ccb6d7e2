/* A caller of the handles in C: it reads a document from standard input, makes the calls that its words name, and writes
 * what they answer. It ends with status 3 if memory ran out, and has then freed all. checks/ffi runs it.
 *
 *   chunks SIZE MODE      the value after each chunk, then the document
 *   lines SIZE INDEX      the line and column of an index
 *   document MODE POINTER what the pointer leads to; with the word unique after it, repeated keys are an error
 *   walk MODE             the document as a walk shows it, value by value, after it was freed; with a letter after it, the
 *                         walk was filled before
 *   double POINTER        the number that the pointer leads to, as a double
 *   texts                 the members of an object of strings: where each key and each string lies
 *   number                the number, whichever it is, as a double, as an unsigned integer, and its cause and column
 *   other CONTENTS        each call over a handle that holds something else: nothing, a parser, a document or lines
 *   refill                handles that are filled again, and what they then hold
 *   cut                   each text with a capacity of one byte
 *   constants             the version; each constant of the header by its name, with its number and its words
 *   causes                the words of every error, and of numbers that are none */
#include "jiter_c.h"

#include <inttypes.h>
#include <stdio.h>
#include <stdlib.h>
#include <string.h>

static char bytes[1 << 16], out[1 << 16];
static size_t length;
static JiterFault fault = {0, 9, 9, SIZE_MAX}; /* a call that fails must write all of it */

static bool failed(void) {
  char cause[200];
  size_t count = 0;
  if (fault.kind == JITER_OUT_OF_MEMORY) {
    if (fault.expected || fault.actual || fault.index > length)
      exit(4);
    return false;
  }
  if (fault.kind == JITER_MISUSE)
    return printf("misuse\n") > 0;
  jiter_cause(&fault, cause, sizeof cause, &count);
  printf("fault %" PRIu32 " at %zu: %.*s\n", fault.kind, fault.index, (int)count, cause);
  return true;
}

static uint32_t mode_of(const char *word) {
  return !strcmp(word, "off") ? JITER_OFF : !strcmp(word, "on") ? JITER_ON : !strcmp(word, "bad") ? 7 : JITER_TRAILING_STRINGS;
}

/* A place of a document: its type, its parts, and its text. */
static bool show(JiterDocument *document, const char *pointer, const size_t *steps, size_t depth) {
  JiterValue value = {0, false, 0, 0};
  size_t whole = 0;
  if (!jiter_document_at(document, pointer, strlen(pointer), steps, depth, &value))
    return printf("nothing\n") > 0;
  printf("type %" PRIu32 " %d %" PRId64 " %zu: ", value.kind, value.truth, value.integer, value.length);
  if (!jiter_document_print(document, pointer, strlen(pointer), steps, depth, out, sizeof out, &whole, &fault))
    return failed();
  printf("%.*s", (int)whole, out);
  for (size_t i = 0; value.kind == JITER_OBJECT && i < value.length; i++) {
    if (!jiter_document_key(document, pointer, strlen(pointer), steps, depth, i, out, sizeof out, &whole, &fault))
      return failed();
    printf(" key %.*s", (int)whole, out);
  }
  if (value.kind == JITER_STRING || value.kind == JITER_FLOAT || value.kind == JITER_BIG_INT) {
    if (!jiter_document_text(document, pointer, strlen(pointer), steps, depth, out, sizeof out, &whole, &fault))
      return failed();
    printf(" text %.*s", (int)whole, out);
  }
  return printf("\n") > 0;
}

static bool document(uint32_t mode, const char *pointer, bool unique) {
  JiterDocument held = {0};
  size_t whole = 0, first = 0;
  bool ok = true;
  if (jiter_document_parse(&held, bytes, length, false, mode, unique, &fault))
    ok = show(&held, pointer, &first, 0) && show(&held, pointer, &first, 1);
  else if (fault.kind == JITER_DUPLICATE_KEY &&
           jiter_document_text(&held, NULL, 0, NULL, 0, out, sizeof out, &whole, &fault))
    printf("repeated %.*s at %zu\n", (int)whole, out, fault.index);
  else
    ok = failed();
  jiter_document_free(&held);
  return ok;
}

/* Pushes a chunk: once more what was not taken, if memory ran out, as a caller may. */
static bool push(JiterParser *parser, const char *chunk, size_t count) {
  size_t before = jiter_parser_position(parser);
  if (jiter_parser_push(parser, chunk, count))
    return true;
  size_t taken = jiter_parser_position(parser) - before;
  return jiter_parser_push(parser, chunk + taken, count - taken);
}

static bool chunks(size_t size, uint32_t mode) {
  JiterParser parser = {0};
  JiterDocument held = {0};
  size_t whole = 0;
  bool ok = jiter_parser_new(&parser, false, mode);
  for (size_t at = 0; ok && at < length; at += size) {
    ok = push(&parser, bytes + at, length - at < size ? length - at : size);
    if (ok && jiter_parser_value(&parser, out, sizeof out, &whole, &fault))
      printf("%.*s\n", (int)whole, out);
    else
      ok = ok && failed();
  }
  if (ok && jiter_parser_error(&parser, &fault))
    ok = failed();
  if (ok && jiter_parser_to_document(&parser, &held, &fault))
    ok = show(&held, "", NULL, 0);
  jiter_document_free(&held);
  jiter_parser_free(&parser);
  return ok;
}

/* A node of a walk and all below it: keys, texts, numbers with their doubles. */
static size_t nodes_shown;
static void show_node(const JiterWalk *walk, const JiterNode *node) {
  JiterText key = jiter_value_key(walk, node), text = jiter_value_text(walk, node);
  size_t count = 0;
  double value = 0;
  nodes_shown++;
  bool finite = false, array = node->kind == JITER_ARRAY, container = array || node->kind == JITER_OBJECT;
  if (key.length)
    printf("%.*s:", (int)key.length, key.bytes);
  if (node->kind == JITER_NULL || node->kind == JITER_BOOL)
    printf(node->kind == JITER_NULL ? "null" : node->truth ? "true" : "false");
  else
    printf(node->kind == JITER_STRING ? "'%.*s'" : "%.*s", (int)text.length, text.bytes);
  if (jiter_value_double(walk, node, &value, &finite))
    printf(finite ? "=%.17g" : "=%.17g!", value);
  if (container)
    printf(array ? "[" : "{");
  for (const JiterNode *child = jiter_value_first_child(node); child; child = jiter_value_next_sibling(child)) {
    printf(count++ ? "," : "");
    show_node(walk, child);
  }
  if (container)
    printf(array ? "]" : "}");
  if (jiter_value_length(node) != (container ? count : text.length))
    printf("(%zu of %zu)", count, jiter_value_length(node));
}

static bool walk_document(uint32_t mode, bool again) {
  JiterDocument held = {0};
  JiterWalk walk = {0};
  bool given = jiter_document_parse(&held, bytes, length, false, mode, false, &fault) &&
               jiter_walk_new(&walk, &held, &fault) && (!again || jiter_walk_new(&walk, &held, &fault));
  bool ok = given || failed();
  /* memory that is too small for the nodes or for the texts stays as it is */
  if (given && (jiter_document_nodes(&held, walk.nodes, walk.count - 1, out, walk.length) ||
                (walk.length && jiter_document_nodes(&held, walk.nodes, walk.count, out, walk.length - 1))))
    printf("(too small)");
  jiter_document_free(&held);
  if (given) {
    show_node(&walk, walk.nodes);
    printf(nodes_shown == walk.count && !walk.nodes->next ? "\n" : "(a node after the last)\n");
  }
  jiter_walk_free(&walk);
  return ok;
}

static bool nearest(const char *pointer) {
  JiterDocument held = {0};
  double value = 7;
  bool finite = false, given = jiter_document_parse(&held, bytes, length, true, JITER_OFF, false, &fault), ok = given || failed();
  if (given && jiter_document_double(&held, pointer, strlen(pointer), NULL, 0, &value, &finite, &fault))
    printf("double %.17g %d\n", value, finite);
  else if (given)
    printf("fault %" PRIu32 " %" PRIu32 " %" PRIu32 " %zu, %.17g %d\n", fault.kind, fault.expected, fault.actual, fault.index,
           value, finite);
  jiter_document_free(&held);
  return ok;
}

static bool lines(size_t size, size_t index) {
  JiterLines held = {0};
  JiterPosition at = {0, 0};
  bool ok = jiter_lines_new(&held);
  for (size_t i = 0; ok && i < length; i += size)
    ok = jiter_lines_push(&held, bytes + i, length - i < size ? length - i : size);
  if (ok && jiter_lines_position(&held, index, &at))
    printf("line %zu column %zu\n", at.line, at.column);
  jiter_lines_free(&held);
  return ok;
}

static bool number(void) {
  JiterReader reader = jiter_reader(bytes, length), again = reader;
  JiterNumber any = {0, 0, JITER_NO_TEXT};
  double value = 0;
  bool finite = false, fits = false;
  uint64_t whole = 0;
  if (!jiter_next_any_number(&reader, &any, &fault)) {
    if (!failed())
      return false;
    printf("column %zu\n", jiter_character_column(bytes, length, fault.index));
    return true;
  }
  printf("type %" PRIu32 " %" PRId64 " '%.*s'", any.kind, any.integer, (int)any.text.length, any.text.bytes);
  reader = again;
  if (jiter_next_double(&reader, &value, &finite, &fault))
    printf(" double %.17g %d", value, finite);
  if (jiter_next_u64(&again, &fits, &whole, &fault))
    printf(" unsigned %d %" PRIu64, fits, whole);
  printf(" at %zu\n", reader.index);
  return true;
}

/* Shows a text and where it lies; asks again with more room where it was too small, and the reader is where it was. */
static bool next_text(JiterReader *reader, bool *more, bool first, size_t *capacity, bool key) {
  JiterText text = {"?", 1};
  size_t before = reader->index;
  while (!(!key ? jiter_next_text(reader, out, *capacity, &text, &fault)
                : (first ? jiter_next_object_text : jiter_next_key_text)(reader, more, out, *capacity, &text, &fault))) {
    if (fault.kind != JITER_ROOM_TOO_SMALL)
      return failed() && false;
    printf("(%zu is too small at %zu) ", (*capacity)++, fault.index);
    if (reader->index != before || text.length || fault.expected || fault.actual)
      printf("(written) ");
  }
  if (*more)
    printf("%s%.*s%s", text.bytes == out ? "decoded " : "", (int)text.length, text.bytes, key ? ": " : ", ");
  return true;
}

static bool texts(void) {
  JiterReader reader = jiter_reader(bytes, length);
  size_t capacity = 0;
  bool more = false, first = true;
  reader.allow_partial_strings = true;
  while (next_text(&reader, &more, first, &capacity, true) && more && next_text(&reader, &more, false, &capacity, false))
    first = false;
  return fault.kind != JITER_OUT_OF_MEMORY && printf("at %zu\n", reader.index) > 0;
}

/* What a call over another handle returned, and its error; the outcomes must be as they were. */
static void misused(const char *name, bool result, size_t whole) {
  printf(" %s %d", name, result);
  if (fault.kind)
    printf(" %" PRIu32 " %" PRIu32 " %" PRIu32 " %zu", fault.kind, fault.expected, fault.actual, fault.index);
  if (whole != 77 || out[0] != '?')
    printf(" (written)");
  fault.kind = 0;
}

static void use_as_parser(JiterParser parser) {
  size_t whole = 77;
  printf("parser: position %zu", jiter_parser_position(&parser));
  bool given = jiter_parser_push(&parser, bytes, length);
  misused("push", given, whole);
  given = jiter_parser_value(&parser, out, sizeof out, &whole, &fault);
  misused("value", given, whole);
  given = jiter_parser_error(&parser, &fault);
  misused("error", given, whole);
  given = jiter_parser_finish(&parser, &fault);
  misused("finish", given, whole);
}

static void use_as_document(JiterDocument document) {
  size_t whole = 77, step = 0, count = 77;
  JiterValue value = {9, true, 9, 9};
  JiterNode node = {9, 9, 9, 9, 9, 9};
  printf("document:");
  bool given = jiter_document_at(&document, "", 0, &step, 1, &value);
  misused("at", given, value.length == 9 && value.kind == 9 ? whole : 0);
  given = jiter_document_text(&document, "", 0, &step, 1, out, sizeof out, &whole, &fault);
  misused("text", given, whole);
  given = jiter_document_key(&document, "", 0, NULL, 0, 0, out, sizeof out, &whole, &fault);
  misused("key", given, whole);
  given = jiter_document_print(&document, "\xff", 1, NULL, 0, out, sizeof out, &whole, &fault);
  misused("print", given, whole);
  double number = 77;
  bool finite = true;
  given = jiter_document_double(&document, "", 0, &step, 1, &number, &finite, &fault);
  misused("double", given, finite ? (size_t)number : 0);
  given = jiter_document_count(&document, &count, &whole);
  misused("count", given, count == 77 ? whole : 0);
  given = jiter_document_nodes(&document, &node, 1, out, sizeof out);
  misused("nodes", given, node.kind == 9 && node.key_length == 9 ? whole : 0);
  JiterWalk walk = {0};
  given = jiter_walk_new(&walk, &document, &fault);
  misused("walk", given, walk.nodes ? 0 : whole);
}

static void use_as_lines(JiterLines lines) {
  JiterPosition place = {77, 77};
  printf("lines:");
  bool given = jiter_lines_push(&lines, bytes, length);
  misused("push", given, 77);
  given = jiter_lines_position(&lines, 0, &place);
  misused("position", given, place.line == 77 ? place.column : 0);
}

static bool other(const char *contents) {
  JiterParser parser = {0};
  JiterDocument document = {0};
  JiterLines held = {0};
  JiterPosition place = {0, 0};
  void *pointer = NULL;
  bool ok = *contents == 'n'   ? jiter_handle_new(&pointer)
            : *contents == 'p' ? jiter_parser_new(&parser, false, JITER_ON) && push(&parser, bytes, length)
            : *contents == 'd' ? jiter_document_parse(&document, bytes, length, false, JITER_OFF, true, &fault)
                               : jiter_lines_new(&held) && jiter_lines_push(&held, bytes, length);
  pointer = *contents == 'p'   ? parser.pointer
            : *contents == 'd' ? document.pointer
            : *contents == 'l' ? held.pointer
                               : pointer;
  out[0] = '?';
  if (ok && *contents != 'p')
    use_as_parser((JiterParser){pointer}), printf("\n");
  if (ok && *contents != 'd')
    use_as_document((JiterDocument){pointer}), printf("\n");
  if (ok && *contents != 'l')
    use_as_lines((JiterLines){pointer}), printf("\n");
  if (ok && *contents == 'p')
    printf("still %zu\n", jiter_parser_position(&parser));
  if (ok && *contents == 'd')
    ok = show(&document, "", NULL, 0);
  if (ok && *contents == 'l' && jiter_lines_position(&held, 99, &place))
    printf("still %zu %zu\n", place.line, place.column);
  if (pointer)
    jiter_handle_free(pointer);
  return ok;
}

/* Handles that are filled again: what each held must be freed, and a call that fails says what it leaves. */
static bool refill_parser(void) {
  JiterParser parser = {0};
  size_t whole = 0;
  bool ok = jiter_parser_new(&parser, false, JITER_OFF) && push(&parser, bytes, length) &&
            jiter_parser_new(&parser, false, JITER_ON) && push(&parser, bytes, length / 2);
  if (ok && !jiter_parser_new(&parser, false, 7))
    printf("no mode 7, ");
  if (ok && (ok = jiter_parser_value(&parser, out, sizeof out, &whole, &fault)))
    printf("position %zu: %.*s\n", jiter_parser_position(&parser), (int)whole, out);
  jiter_parser_free(&parser);
  return ok;
}

static bool parse(JiterDocument *held, size_t count, uint32_t mode, bool unique) {
  return jiter_document_parse(held, bytes, count, false, mode, unique, &fault) || failed();
}

static bool parse_chunk(JiterDocument *held, size_t count) {
  JiterParser parser = {0};
  bool ok = jiter_parser_new(&parser, false, JITER_OFF) && push(&parser, bytes, count) &&
            (jiter_parser_to_document(&parser, held, &fault) || failed());
  jiter_parser_free(&parser);
  return ok;
}

static bool refill_document(void) {
  JiterDocument held = {0};
  bool ok = parse(&held, length, JITER_OFF, false) && parse(&held, length, JITER_OFF, true) && show(&held, "", NULL, 0) &&
            parse(&held, length, 7, false) && show(&held, "", NULL, 0) && parse_chunk(&held, length) &&
            show(&held, "", NULL, 0) && parse_chunk(&held, length - 1) && show(&held, "", NULL, 0) &&
            parse(&held, length - 1, JITER_OFF, false) && show(&held, "", NULL, 0) &&
            parse(&held, length, JITER_OFF, false) && show(&held, "", NULL, 0);
  jiter_document_free(&held);
  return ok;
}

static bool refill_lines(void) {
  JiterLines held = {0};
  JiterPosition at = {0, 0};
  bool ok = jiter_lines_new(&held) && jiter_lines_push(&held, bytes, length) && jiter_lines_new(&held);
  if (ok && jiter_lines_position(&held, 99, &at))
    printf("line %zu column %zu\n", at.line, at.column);
  jiter_lines_free(&held);
  return ok;
}

/* A text that was asked with a capacity of one byte: that byte, the one after it, and the complete length. */
static bool first_byte(bool given, const size_t *whole) {
  if (!given)
    return failed();
  printf("%.2s %zu\n", out, *whole);
  out[0] = '?';
  return true;
}

static bool cut(void) {
  JiterDocument held = {0};
  JiterParser parser = {0};
  size_t whole = 0, step = 0;
  memset(out, '?', 2);
  bool ok = first_byte(jiter_print(bytes, length, false, JITER_OFF, out, 1, &whole, &fault), &whole) &&
            parse(&held, length, JITER_OFF, false);
  ok = ok && first_byte(jiter_document_print(&held, "", 0, NULL, 0, out, 1, &whole, &fault), &whole);
  ok = ok && first_byte(jiter_document_key(&held, "", 0, NULL, 0, 0, out, 1, &whole, &fault), &whole);
  ok = ok && first_byte(jiter_document_text(&held, "", 0, &step, 1, out, 1, &whole, &fault), &whole);
  ok = ok && !jiter_document_text(&held, "/absent", 7, NULL, 0, out, 1, &whole, &fault) && fault.kind == JITER_ABSENT &&
       printf("absent %" PRIu32 " %" PRIu32 " %zu\n", fault.expected, fault.actual, fault.index) > 0;
  ok = ok && jiter_parser_new(&parser, false, JITER_ON) && push(&parser, bytes, length) &&
       first_byte(jiter_parser_value(&parser, out, 1, &whole, &fault), &whole);
  jiter_document_free(&held);
  jiter_parser_free(&parser);
  return ok;
}

/* Each constant of the header by its name. A type's words are those of an error that expects it. */
#define NAMED(constant) {#constant, constant}
static const struct {
  const char *name;
  uint32_t number;
} kinds[] = {NAMED(JITER_FLOAT_EXPECTING_INT), NAMED(JITER_EOF_WHILE_PARSING_LIST), NAMED(JITER_EOF_WHILE_PARSING_OBJECT),
             NAMED(JITER_EOF_WHILE_PARSING_STRING), NAMED(JITER_EOF_WHILE_PARSING_VALUE), NAMED(JITER_EXPECTED_COLON),
             NAMED(JITER_EXPECTED_LIST_COMMA_OR_END), NAMED(JITER_EXPECTED_OBJECT_COMMA_OR_END),
             NAMED(JITER_EXPECTED_SOME_IDENT), NAMED(JITER_EXPECTED_SOME_VALUE), NAMED(JITER_INVALID_ESCAPE),
             NAMED(JITER_INVALID_NUMBER), NAMED(JITER_NUMBER_OUT_OF_RANGE), NAMED(JITER_INVALID_UNICODE_CODE_POINT),
             NAMED(JITER_CONTROL_CHARACTER_WHILE_PARSING_STRING), NAMED(JITER_KEY_MUST_BE_A_STRING),
             NAMED(JITER_LONE_LEADING_SURROGATE_IN_HEX_ESCAPE), NAMED(JITER_TRAILING_COMMA),
             NAMED(JITER_TRAILING_CHARACTERS), NAMED(JITER_UNEXPECTED_END_OF_HEX_ESCAPE),
             NAMED(JITER_RECURSION_LIMIT_EXCEEDED), NAMED(JITER_OUT_OF_MEMORY), NAMED(JITER_DUPLICATE_KEY),
             NAMED(JITER_WRONG_TYPE), NAMED(JITER_MISUSE), NAMED(JITER_ABSENT), NAMED(JITER_ROOM_TOO_SMALL)},
  types[] = {NAMED(JITER_NOTHING), NAMED(JITER_NULL), NAMED(JITER_BOOL), NAMED(JITER_INT), NAMED(JITER_FLOAT),
             NAMED(JITER_STRING), NAMED(JITER_ARRAY), NAMED(JITER_OBJECT), NAMED(JITER_NUMBER), NAMED(JITER_BIG_INT)},
  modes[] = {NAMED(JITER_OFF), NAMED(JITER_ON), NAMED(JITER_TRAILING_STRINGS)};

static void name(const char *constant, uint32_t number, uint32_t kind, uint32_t expected) {
  JiterFault any = {kind, expected, JITER_NULL, 0};
  size_t whole = 0;
  bool known = jiter_cause(&any, out, sizeof out, &whole);
  printf("%s %" PRIu32 "%s%.*s\n", constant, number, known ? ": " : "", known ? (int)whole : 0, out);
}

static bool constants(void) {
  size_t i;
  printf("version %d %" PRIu32 " %s\n", JITER_VERSION, jiter_version(), JITER_VERSION_TEXT);
  for (i = 0; i < sizeof kinds / sizeof *kinds; i++)
    name(kinds[i].name, kinds[i].number, kinds[i].number, JITER_BOOL);
  for (i = 0; i < sizeof types / sizeof *types; i++)
    name(types[i].name, types[i].number, JITER_WRONG_TYPE, types[i].number);
  for (i = 0; i < sizeof modes / sizeof *modes; i++)
    name(modes[i].name, modes[i].number, 0, 0);
  return true;
}

/* The words of every error, and which numbers have none. */
static bool causes(void) {
  size_t whole = 0;
  JiterFault any = {0, 0, 0, length};
  for (; any.kind < 103; any.kind++)
    for (any.expected = 0; any.expected < (any.kind == JITER_WRONG_TYPE ? 9 : 1); any.expected++)
      for (any.actual = 0; any.actual < (any.kind == JITER_WRONG_TYPE ? 9 : 1); any.actual++) {
        bool described = jiter_describe(bytes, length, &any, out, sizeof out, &whole);
        if (described)
          printf("%" PRIu32 ": %.*s\n", any.kind, (int)whole, out);
        if (jiter_cause(&any, out, 3, &whole) != described || (described && whole > strlen("control character (\\u0000-\\u001F) found while parsing a string")))
          printf("no cause\n");
      }
  return true;
}

int main(int count, char **words) {
  const char *word = count > 1 ? words[1] : "", *more = count > 2 ? words[2] : "0", *last = count > 3 ? words[3] : "";
  setvbuf(stdout, NULL, _IONBF, 0); /* no memory of its own */
  setvbuf(stdin, NULL, _IONBF, 0);
  for (ssize_t got = 1; got > 0; length += (size_t)got)
    got = (ssize_t)fread(bytes + length, 1, sizeof bytes - length, stdin);
  bool ok = true;
  if (!strcmp(word, "chunks"))
    ok = chunks(strtoul(more, NULL, 10), mode_of(last));
  else if (!strcmp(word, "lines"))
    ok = lines(strtoul(more, NULL, 10), strtoul(last, NULL, 10));
  else if (!strcmp(word, "document"))
    ok = document(mode_of(more), last, count > 4);
  else if (!strcmp(word, "walk"))
    ok = walk_document(mode_of(more), *last);
  else if (!strcmp(word, "double"))
    ok = nearest(count > 2 ? more : "");
  else if (!strcmp(word, "texts"))
    ok = texts();
  else if (!strcmp(word, "other"))
    ok = other(more);
  else if (!strcmp(word, "refill"))
    ok = refill_parser() && refill_document() && refill_lines();
  else if (!strcmp(word, "cut"))
    ok = cut();
  else if (!strcmp(word, "constants"))
    ok = constants();
  else if (!strcmp(word, "causes"))
    ok = causes();
  else
    ok = number();
  return ok ? 0 : 3;
}
