/* JSON for C: the functions of libjiter_c. docs/C.md has complete programs.
 *
 * Each function is proved to do what its contract in crates/jiter_c/src says. What this page asks of the caller is not
 * checked by anything. C99 or later, x86-64 Linux with SSE4.2 (x86-64-v2).
 *
 * Pointers. A slice is a pointer and a length; NULL with length 0 is an empty slice. Each pointer to an outcome points
 * to an initialized value (`= 0`, `= false`, `= {0}`, JITER_NO_TEXT). No two pointers of a call overlap, and none
 * overlaps the bytes. A JiterReader, a JiterText and a JiterNumber point into the bytes that you passed: use them as
 * long as those bytes stay where they are, unchanged. A JiterText of a walk points into the walk.
 *
 * Errors. A call that returns a bool returns false if it fails. It has then written the fault and, where it says so, the
 * reader's index or what the handle holds, and nothing else. If it returns true, the fault stays as it was
 * (jiter_parser_error alone returns true with a fault). After JITER_OUT_OF_MEMORY nothing is known about the bytes.
 *
 * Text. A call that writes text to `out` writes as much as fits into `room` bytes and the complete length to `whole`. It
 * writes no NUL.
 *
 * UTF-8. jiter_parse, jiter_print, jiter_document_parse, the parser, jiter_next_str, jiter_next_text, jiter_next_object,
 * jiter_next_key and their _text forms check that strings are UTF-8; jiter_member checks only keys. The calls whose names
 * end in _bytes, jiter_next_skip, jiter_count and jiter_item don't.
 *
 * Documents. To accept exactly documents, call jiter_parse or jiter_document_parse with JITER_OFF, or the parser with
 * jiter_parser_finish. A document is a text of RFC 8259 without unpaired surrogate escapes, with at most 200 nested
 * non-empty containers and at most 4300 digits in an integer part. A reader keeps no record of open containers: call its
 * steps in the order that their results give, check strings by the calls that check UTF-8, and end with jiter_finish.
 *
 * Memory. Only a handle (JiterParser, JiterDocument, JiterLines) and a JiterWalk own memory. Initialize each as `{0}`,
 * fill it as often as you like, and free it once. All memory is from malloc.
 *
 * Threads. Nothing is shared between calls. A handle or a reader is used by one call at a time; different ones by any
 * number of threads. Don't call from a signal handler, nor in the forked child of a process with threads. */
#ifndef JITER_C_H
#define JITER_C_H

#include <stdbool.h>
#include <stddef.h>
#include <stdint.h>
#include <stdlib.h>

/* The version: 10,000 times the major number, 100 times the minor one, and the patch. jiter_version returns that of the
 * library that is linked. */
#define JITER_VERSION 1800
#define JITER_VERSION_TEXT "0.18.0"

#ifdef __cplusplus
extern "C" {
#endif

/* The kind of a JiterFault. */
typedef enum {
  JITER_FLOAT_EXPECTING_INT = 1, /* never returned */
  JITER_EOF_WHILE_PARSING_LIST = 2,
  JITER_EOF_WHILE_PARSING_OBJECT = 3,
  JITER_EOF_WHILE_PARSING_STRING = 4,
  JITER_EOF_WHILE_PARSING_VALUE = 5,
  JITER_EXPECTED_COLON = 6,
  JITER_EXPECTED_LIST_COMMA_OR_END = 7,
  JITER_EXPECTED_OBJECT_COMMA_OR_END = 8,
  JITER_EXPECTED_SOME_IDENT = 9,
  JITER_EXPECTED_SOME_VALUE = 10,
  JITER_INVALID_ESCAPE = 11,
  JITER_INVALID_NUMBER = 12,
  JITER_NUMBER_OUT_OF_RANGE = 13,
  JITER_INVALID_UNICODE_CODE_POINT = 14,
  JITER_CONTROL_CHARACTER_WHILE_PARSING_STRING = 15,
  JITER_KEY_MUST_BE_A_STRING = 16,
  JITER_LONE_LEADING_SURROGATE_IN_HEX_ESCAPE = 17,
  JITER_TRAILING_COMMA = 18,
  JITER_TRAILING_CHARACTERS = 19,
  JITER_UNEXPECTED_END_OF_HEX_ESCAPE = 20,
  JITER_RECURSION_LIMIT_EXCEEDED = 21,
  JITER_OUT_OF_MEMORY = 22,
  JITER_DUPLICATE_KEY = 23, /* only of jiter_document_parse with `unique` */
  JITER_WRONG_TYPE = 100,    /* the next value has another type: `expected` and `actual` */
  JITER_MISUSE = 101,        /* no mode has this number, or the handle holds something else */
  JITER_ABSENT = 102,        /* the place in the document has no such value */
  JITER_ROOM_TOO_SMALL = 103 /* only of the _text calls */
} JiterKind;

/* Types of values. jiter_peek returns JITER_NUMBER for every number. */
typedef enum {
  JITER_NOTHING = 0,
  JITER_NULL = 1,
  JITER_BOOL = 2,
  JITER_INT = 3, /* an integer that fits in 64 signed bits */
  JITER_FLOAT = 4,
  JITER_STRING = 5,
  JITER_ARRAY = 6,
  JITER_OBJECT = 7,
  JITER_NUMBER = 8,
  JITER_BIG_INT = 9 /* any other integer */
} JiterType;

/* Whether a truncated document is accepted. JITER_ON leaves out a truncated string, JITER_TRAILING_STRINGS keeps its
 * complete characters. Another number is JITER_MISUSE. */
typedef enum { JITER_OFF = 0, JITER_ON = 1, JITER_TRAILING_STRINGS = 2 } JiterMode;

/* An error, and its byte index from 0. */
typedef struct {
  uint32_t kind;     /* a JiterKind */
  uint32_t expected; /* types, if the kind is JITER_WRONG_TYPE; otherwise 0 */
  uint32_t actual;
  size_t index;
} JiterFault;

/* Bytes borrowed from yours, or from a walk. */
typedef struct {
  const char *bytes;
  size_t length;
} JiterText;

#define JITER_NO_TEXT {"", 0}

/* A reader: bytes and a position in them. A copy of the struct is another reader: keep one to read a value again. */
typedef struct {
  const char *bytes;
  size_t length;
  size_t index;
  bool allow_inf_nan;         /* whether NaN, Infinity and -Infinity are numbers */
  bool allow_partial_strings; /* whether the input may end inside a string value */
} JiterReader;

/* A number, whichever it is. */
typedef struct {
  uint32_t kind;   /* JITER_INT, JITER_BIG_INT or JITER_FLOAT */
  int64_t integer; /* of a JITER_INT; otherwise 0 */
  JiterText text;  /* the source of the others; otherwise empty */
} JiterNumber;

/* A line, from 1, and a column in bytes, from 1; it is 0 for a line feed and in empty bytes. */
typedef struct {
  size_t line;
  size_t column;
} JiterPosition;

/* Handles. Initialize one as `{0}`. Until a call fills it (its _new call, jiter_document_parse, jiter_parser_to_document),
 * only those calls and the one that frees it take it. A handle owns memory: free it once, and use no copy of it afterwards.
 * The call that frees it sets it to `{0}` again. */
typedef struct {
  void *pointer;
} JiterParser;
typedef struct {
  void *pointer;
} JiterDocument;
typedef struct {
  void *pointer;
} JiterLines;

/* What a document has at a place. */
typedef struct {
  uint32_t kind; /* a JiterType, never JITER_NUMBER */
  bool truth;
  int64_t integer; /* of a JITER_INT */
  size_t length;   /* items, members, or bytes of the string or number text */
} JiterValue;

/* A value of a walk. Its parts follow it: the first one is the next node, and each has its own parts after it. */
typedef struct {
  uint32_t kind;     /* a JiterType, never JITER_NUMBER */
  uint32_t truth;    /* 1 if it is `true`, otherwise 0 */
  int64_t integer;   /* of a JITER_INT; jiter_value_length returns that of other values */
  size_t next;       /* how many nodes on the next item or member is; 0 if it is the last one */
  size_t text;       /* where its text begins in the walk's texts */
  size_t key_length; /* bytes of its key, which is before the text; 0 if it is no member */
} JiterNode;

/* All values of a document, each before its parts, and their strings, number texts and keys. Initialize it as `{0}`. */
typedef struct {
  JiterNode *nodes; /* the first one is the document's value */
  size_t count;     /* how many nodes it has memory for */
  char *texts;
  size_t length; /* how many bytes of texts it has memory for */
} JiterWalk;

#if defined __STDC_VERSION__ && __STDC_VERSION__ >= 201112L
_Static_assert(sizeof(size_t) == 8 && sizeof(bool) == 1, "x86-64 is needed");
_Static_assert(sizeof(JiterFault) == 24 && offsetof(JiterFault, index) == 16, "JiterFault");
_Static_assert(sizeof(JiterText) == 16, "JiterText");
_Static_assert(sizeof(JiterReader) == 32 && offsetof(JiterReader, allow_inf_nan) == 24, "JiterReader");
_Static_assert(sizeof(JiterNumber) == 32 && offsetof(JiterNumber, text) == 16, "JiterNumber");
_Static_assert(sizeof(JiterPosition) == 16 && sizeof(JiterParser) == 8, "JiterPosition, JiterParser");
_Static_assert(sizeof(JiterValue) == 24 && offsetof(JiterValue, integer) == 8, "JiterValue");
_Static_assert(sizeof(JiterNode) == 40 && offsetof(JiterNode, next) == 16, "JiterNode");
#endif

uint32_t jiter_version(void);

/* A reader at the first byte. */
static inline JiterReader jiter_reader(const void *bytes, size_t length) {
  JiterReader reader = {(const char *)bytes, length, 0, false, false};
  return reader;
}

/* ---- Complete documents, without a handle. jiter_parse returns whether the bytes are a document, or in a partial mode
 * whether they are the beginning of one. jiter_print writes the compact text of its value. */
bool jiter_parse(const char *bytes, size_t length, bool allow_inf_nan, uint32_t mode, JiterFault *fault);
bool jiter_print(const char *bytes, size_t length, bool allow_inf_nan, uint32_t mode, char *out, size_t room,
                 size_t *whole, JiterFault *fault);

/* ---- The reader. */

/* The type of the next value: JITER_NULL, JITER_BOOL, JITER_NUMBER, JITER_STRING, JITER_ARRAY, JITER_OBJECT, or
 * JITER_NOTHING if no value begins there. It moves past whitespace only: then reader->index is the value's place. */
bool jiter_peek(JiterReader *reader, uint32_t *start, JiterFault *fault);

/* Scalars. If the next value has another type, the fault is JITER_WRONG_TYPE. After a failure the reader is at the
 * value, so you can try another type. */
bool jiter_next_null(JiterReader *reader, JiterFault *fault);
bool jiter_next_bool(JiterReader *reader, bool *value, JiterFault *fault);
/* An integer. If it doesn't fit, `fits` is false and the value 0. */
bool jiter_next_int(JiterReader *reader, bool *fits, int64_t *value, JiterFault *fault);
bool jiter_next_u64(JiterReader *reader, bool *fits, uint64_t *value, JiterFault *fault);
/* The double nearest to a number, whatever the locale. 1e400 is infinite: `finite` is false. */
bool jiter_next_double(JiterReader *reader, double *value, bool *finite, JiterFault *fault);
/* A number, whichever it is; jiter_double turns a number's text into a double. */
bool jiter_next_any_number(JiterReader *reader, JiterNumber *number, JiterFault *fault);
bool jiter_double(const char *text, size_t length, double *value, bool *finite);
/* The source bytes of a number. */
bool jiter_next_number(JiterReader *reader, JiterText *text, JiterFault *fault);
/* A string, decoded to `out`; and the bytes between its quotes, with escapes checked and not decoded. */
bool jiter_next_str(JiterReader *reader, char *out, size_t room, size_t *whole, JiterFault *fault);
bool jiter_next_bytes(JiterReader *reader, JiterText *text, JiterFault *fault);

/* Arrays: jiter_next_array steps into one, jiter_array_step moves past an item. `more` is whether an item comes next;
 * otherwise the reader is after the array.
 *
 *     bool more = false;
 *     bool ok = jiter_next_array(&reader, &more, &fault);
 *     while (ok && more)
 *       ok = read_item(&reader) && jiter_array_step(&reader, &more, &fault); */
bool jiter_next_array(JiterReader *reader, bool *more, JiterFault *fault);
bool jiter_array_step(JiterReader *reader, bool *more, JiterFault *fault);

/* Objects: jiter_next_object steps into one, jiter_next_key moves past a member. `more` is whether a member comes next:
 * you get its key, and its value comes next. Otherwise the key is empty and the reader after the object. The first two
 * write the key, decoded, to `out`; the _bytes forms give the bytes between its quotes. */
bool jiter_next_object(JiterReader *reader, bool *more, char *out, size_t room, size_t *whole, JiterFault *fault);
bool jiter_next_key(JiterReader *reader, bool *more, char *out, size_t room, size_t *whole, JiterFault *fault);
bool jiter_next_object_bytes(JiterReader *reader, bool *more, JiterText *key, JiterFault *fault);
bool jiter_next_key_bytes(JiterReader *reader, bool *more, JiterText *key, JiterFault *fault);

/* The same without a copy: `text` and `key` point into your bytes if the source has no escape, otherwise into `room`. If
 * that is too small, the fault is JITER_ROOM_TOO_SMALL and the reader stays where it was: ask again with more room, at
 * most the bytes that are left. A string without an escape fits into any room. (These are inline: calls of the ones
 * above.) */
static inline bool jiter_placed(JiterReader *reader, const JiterReader *before, const char *begin, size_t whole, char *room,
                                size_t capacity, JiterText *text, JiterFault *fault) {
  text->bytes = begin ? begin : room;
  text->length = whole;
  if (begin || whole <= capacity)
    return true;
  fault->kind = JITER_ROOM_TOO_SMALL;
  fault->expected = fault->actual = 0;
  fault->index = before->index;
  *reader = *before;
  text->bytes = "";
  text->length = 0;
  return false;
}
static inline bool jiter_next_text(JiterReader *reader, char *room, size_t capacity, JiterText *text, JiterFault *fault) {
  JiterReader before = *reader;
  uint32_t start = 0;
  size_t whole = 0, place, i;
  bool escaped;
  if (!jiter_peek(reader, &start, fault))
    return false;
  place = reader->index + 1;
  if (!jiter_next_str(reader, room, capacity, &whole, fault))
    return false;
  escaped = place + whole + 1 != reader->index; /* an escape is longer than what it spells */
  if (reader->allow_partial_strings)            /* there may be no closing quote */
    for (i = place, escaped = false; i < reader->index && !escaped; i++)
      escaped = reader->bytes[i] == '\\';
  return jiter_placed(reader, &before, escaped ? NULL : reader->bytes + place, whole, room, capacity, text, fault);
}
typedef bool (*JiterKeyStep)(JiterReader *, bool *, char *, size_t, size_t *, JiterFault *);
static inline bool jiter_text_of_key(JiterKeyStep step, JiterReader *reader, bool *more, char *room, size_t capacity,
                                     JiterText *key, JiterFault *fault) {
  JiterReader before = *reader;
  size_t whole = 0, end;
  bool there = false;
  if (!step(reader, &there, room, capacity, &whole, fault))
    return false;
  for (end = reader->index - 1; there && end > 0 && reader->bytes[end] != '"'; end--) {
    /* back over the colon and whitespace to the closing quote */
  }
  if (there) {
    const char *begin = reader->bytes + end - whole;
    bool opens = whole < end && begin[-1] == '"' && (whole + 1 == end || begin[-2] != '\\');
    if (!jiter_placed(reader, &before, opens ? begin : NULL, whole, room, capacity, key, fault))
      return false;
  } else {
    key->bytes = "";
    key->length = 0;
  }
  *more = there;
  return true;
}
static inline bool jiter_next_object_text(JiterReader *reader, bool *more, char *room, size_t capacity, JiterText *key,
                                          JiterFault *fault) {
  return jiter_text_of_key(jiter_next_object, reader, more, room, capacity, key, fault);
}
static inline bool jiter_next_key_text(JiterReader *reader, bool *more, char *room, size_t capacity, JiterText *key,
                                       JiterFault *fault) {
  return jiter_text_of_key(jiter_next_key, reader, more, room, capacity, key, fault);
}

/* Moves past the next value, whatever it is. */
bool jiter_next_skip(JiterReader *reader, JiterFault *fault);

/* Walks through the next array or object. jiter_count counts its items or members and doesn't move the reader.
 * jiter_item moves to the item with this index, and jiter_member to the value of the last member with this key; `found`
 * is whether there is one, otherwise the reader is after the array or object. Each call reads from the beginning:
 * jiter_item in a loop takes quadratic time, so loop by jiter_array_step; to look up many keys, parse a document. */
bool jiter_count(const JiterReader *reader, uint64_t *count, JiterFault *fault);
bool jiter_item(JiterReader *reader, uint64_t number, bool *found, JiterFault *fault);
bool jiter_member(JiterReader *reader, const char *name, size_t length, bool *found, JiterFault *fault);

/* Checks that only whitespace is left. */
bool jiter_finish(JiterReader *reader, JiterFault *fault);

/* ---- Errors in words. jiter_cause writes the cause alone, so that `FILE:LINE:COLUMN: CAUSE` is one printf;
 * jiter_describe writes `CAUSE at line L column C`. Neither allocates. They return false, and write nothing, only if the
 * fault has no words: its kind is 0, 23 or more except 100, or it is 100 with no two types. jiter_describe, jiter_position
 * and jiter_character_column read all bytes up to the index. */
bool jiter_cause(const JiterFault *fault, char *out, size_t room, size_t *whole);
bool jiter_describe(const char *bytes, size_t length, const JiterFault *fault, char *out, size_t room, size_t *whole);
void jiter_position(const char *bytes, size_t length, size_t index, JiterPosition *position);
/* The column in characters, as editors count it. */
size_t jiter_character_column(const char *bytes, size_t length, size_t index);

/* ---- Handles: a new one holds nothing; the calls that fill one free what it held. A call over a handle that holds
 * something else changes nothing: it reports JITER_MISUSE, or returns false or 0 if it has no fault. Call jiter_handle_new
 * only for a pointer that is NULL, or what it led to leaks. */
bool jiter_handle_new(void **pointer);
void jiter_handle_free(void *pointer);

/* ---- Documents in chunks. The chunks are not kept. */
bool jiter_parser_begin(JiterParser *parser, bool allow_inf_nan, uint32_t mode);
/* Takes a chunk. An error in the bytes is no failure of this call. It fails if memory runs out, never in leading
 * whitespace: jiter_parser_position returns how many bytes were taken; push the rest again. It also fails, and takes no
 * byte, if the position would exceed SIZE_MAX. */
bool jiter_parser_push(JiterParser *parser, const char *chunk, size_t length);
size_t jiter_parser_position(JiterParser *parser);
/* Writes the compact text of the value of all bytes so far, read in the parser's mode. If memory for the text runs out,
 * the error's index is the parser's position. */
bool jiter_parser_value(JiterParser *parser, char *out, size_t room, size_t *whole, JiterFault *fault);
/* Returns whether the bytes so far are no complete document, and why. */
bool jiter_parser_error(JiterParser *parser, JiterFault *fault);

/* A new parser. If this fails, memory ran out or no mode has this number, and the handle holds what it held. */
static inline bool jiter_parser_new(JiterParser *parser, bool allow_inf_nan, uint32_t mode) {
  return (parser->pointer || jiter_handle_new(&parser->pointer)) && jiter_parser_begin(parser, allow_inf_nan, mode);
}
static inline void jiter_parser_free(JiterParser *parser) {
  if (parser->pointer)
    jiter_handle_free(parser->pointer);
  parser->pointer = NULL;
}

/* ---- Documents. */
static inline void jiter_document_free(JiterDocument *document) {
  if (document->pointer)
    jiter_handle_free(document->pointer);
  document->pointer = NULL;
}

/* The export that jiter_parser_to_document calls: the handle then holds a document, or nothing. */
bool jiter_parser_finish(JiterParser *parser, JiterFault *fault);
/* Ends the document: if it is complete, `document` gets its value, what it held is freed, and the parser is `{0}` again;
 * free both all the same. Otherwise the parser holds nothing, and `document` what it held: call jiter_parser_error first
 * to go on with the parser. */
static inline bool jiter_parser_to_document(JiterParser *parser, JiterDocument *document, JiterFault *fault) {
  if (!jiter_parser_finish(parser, fault))
    return false;
  jiter_document_free(document);
  document->pointer = parser->pointer;
  parser->pointer = NULL;
  return true;
}

/* The export that jiter_document_parse calls, for a handle that you have. */
bool jiter_document_read(JiterDocument *document, const char *bytes, size_t length, bool allow_inf_nan, uint32_t mode,
                         bool unique, JiterFault *fault);
/* Parses a document; the value borrows nothing of the bytes. With `unique`, a repeated key is JITER_DUPLICATE_KEY, and
 * the document is then that key, a string. After JITER_MISUSE it holds what it held, after another error nothing. Free it
 * in every case. */
static inline bool jiter_document_parse(JiterDocument *document, const char *bytes, size_t length, bool allow_inf_nan,
                                        uint32_t mode, bool unique, JiterFault *fault) {
  if (document->pointer || jiter_handle_new(&document->pointer))
    return jiter_document_read(document, bytes, length, allow_inf_nan, mode, unique, fault);
  fault->kind = JITER_OUT_OF_MEMORY;
  fault->expected = fault->actual = 0;
  fault->index = 0;
  return false;
}

/* Looking into a document. A place is what a JSON Pointer leads to (RFC 6901), and from there one item or member for
 * each step, by its index. An empty pointer and no steps are the document's value. A pointer that is not UTF-8 leads
 * nowhere. */
bool jiter_document_at(JiterDocument *document, const char *pointer, size_t pointer_length, const size_t *steps,
                       size_t depth, JiterValue *value);
/* The string at a place, decoded, or the source text of a JITER_BIG_INT or a JITER_FLOAT. */
bool jiter_document_text(JiterDocument *document, const char *pointer, size_t pointer_length, const size_t *steps,
                         size_t depth, char *out, size_t room, size_t *whole, JiterFault *fault);
/* The key of a member of the object at a place. */
bool jiter_document_key(JiterDocument *document, const char *pointer, size_t pointer_length, const size_t *steps,
                        size_t depth, size_t index, char *out, size_t room, size_t *whole, JiterFault *fault);
/* The compact JSON text of the value at a place. */
bool jiter_document_print(JiterDocument *document, const char *pointer, size_t pointer_length, const size_t *steps,
                          size_t depth, char *out, size_t room, size_t *whole, JiterFault *fault);
/* The double nearest to the number at a place, whichever number it is. 1e400 is infinite: `finite` is false. */
bool jiter_document_double(JiterDocument *document, const char *pointer, size_t pointer_length, const size_t *steps,
                           size_t depth, double *value, bool *finite, JiterFault *fault);

/* ---- A walk through a document, value by value. jiter_walk_new makes at most three calls of the library and one of malloc.
 * From then on each step is read from the walk's memory, without a call. It borrows nothing of the document: you may free that
 * first. What the steps return lasts as long as the walk.
 *
 *     static void show(const JiterWalk *walk, const JiterNode *node) {
 *       for (const JiterNode *child = jiter_value_first_child(node); child;
 *            child = jiter_value_next_sibling(child))
 *         show(walk, child);
 *     } */

/* The exports that jiter_walk_new calls, for memory of your own. jiter_document_count says how many nodes and how many
 * bytes of texts a document has; a number that would exceed SIZE_MAX is that. jiter_document_nodes writes them. It returns
 * false and writes nothing if they don't fit. Both return false if the handle holds no document. The memory needs no
 * values before. */
bool jiter_document_count(JiterDocument *document, size_t *nodes, size_t *bytes);
bool jiter_document_nodes(JiterDocument *document, JiterNode *nodes, size_t count, char *texts, size_t length);

static inline void jiter_walk_free(JiterWalk *walk) {
  free(walk->nodes);
  walk->nodes = NULL;
  walk->count = walk->length = 0;
  walk->texts = NULL;
}
/* Gives `walk` the values of a document, in the memory that it has if that is large enough: to read many documents, keep
 * one walk. If this fails, memory ran out or there is no document, and the walk is as it was. */
static inline bool jiter_walk_new(JiterWalk *walk, JiterDocument *document, JiterFault *fault) {
  size_t count = 0, length = 0;
  bool held, fits;
  JiterNode *nodes;
  if (walk->nodes && jiter_document_nodes(document, walk->nodes, walk->count, walk->texts, walk->length))
    return true;
  held = jiter_document_count(document, &count, &length);
  fits = held && count <= (SIZE_MAX - length) / sizeof(JiterNode);
  nodes = fits ? (JiterNode *)malloc(count * sizeof(JiterNode) + length) : NULL;
  if (nodes) {
    jiter_walk_free(walk);
    walk->nodes = nodes;
    walk->count = count;
    walk->texts = (char *)(nodes + count);
    walk->length = length;
    return jiter_document_nodes(document, nodes, count, walk->texts, length);
  }
  fault->kind = held ? JITER_OUT_OF_MEMORY : JITER_MISUSE;
  fault->expected = fault->actual = 0;
  fault->index = 0;
  return false;
}
/* The first item or member of a value, and the next one of its array or object; NULL if there is none. */
static inline const JiterNode *jiter_value_first_child(const JiterNode *node) {
  return (node->kind == JITER_ARRAY || node->kind == JITER_OBJECT) && node->integer > 0 ? node + 1 : NULL;
}
static inline const JiterNode *jiter_value_next_sibling(const JiterNode *node) {
  return node->next > 0 ? node + node->next : NULL;
}
/* How many items or members a value has, or how many bytes of text. */
static inline size_t jiter_value_length(const JiterNode *node) {
  return node->kind == JITER_INT ? 0 : (size_t)node->integer;
}
/* The string of a value, decoded, or the source text of a JITER_BIG_INT or a JITER_FLOAT. It is empty for other values. */
static inline JiterText jiter_value_text(const JiterWalk *walk, const JiterNode *node) {
  JiterText text;
  bool has = node->kind == JITER_STRING || node->kind == JITER_FLOAT || node->kind == JITER_BIG_INT;
  text.bytes = walk->texts + node->text;
  text.length = has ? (size_t)node->integer : 0;
  return text;
}
/* The key of a member, decoded. It is empty if the value is no member. */
static inline JiterText jiter_value_key(const JiterWalk *walk, const JiterNode *node) {
  JiterText key;
  key.bytes = walk->texts + (node->text - node->key_length);
  key.length = node->key_length;
  return key;
}
/* The double nearest to a number, whichever it is. It fails for other values. */
static inline bool jiter_value_double(const JiterWalk *walk, const JiterNode *node, double *value, bool *finite) {
  if (node->kind == JITER_FLOAT || node->kind == JITER_BIG_INT)
    return jiter_double(walk->texts + node->text, (size_t)node->integer, value, finite);
  if (node->kind != JITER_INT)
    return false;
  *value = (double)node->integer;
  *finite = true;
  return true;
}

/* ---- Lines of a document in chunks: push the same chunks as to the parser. A push that fails took no byte; it fails
 * only if memory runs out, for a chunk with a line feed, or if there would be more than SIZE_MAX bytes. */
void jiter_lines_begin(JiterLines *lines);
bool jiter_lines_push(JiterLines *lines, const char *chunk, size_t length);
bool jiter_lines_position(JiterLines *lines, size_t index, JiterPosition *position);

static inline bool jiter_lines_new(JiterLines *lines) {
  if (!lines->pointer && !jiter_handle_new(&lines->pointer))
    return false;
  jiter_lines_begin(lines);
  return true;
}
static inline void jiter_lines_free(JiterLines *lines) {
  if (lines->pointer)
    jiter_handle_free(lines->pointer);
  lines->pointer = NULL;
}

#ifdef __cplusplus
}
#endif

#endif
