/* Times documents by handle: the parse, and reading all values, keys and texts back by a walk.
 *
 *     python3 ffi/python/race.py --write FOLDER
 *     cc -O2 -Iffi -o race ffi/race.c ffi/build/libjiter.a && ./race SECONDS FOLDER/...
 *
 * MB/s are of the parse, and of reading back: making the walk and its steps. The first ratio is how many times as fast
 * reading back is as the parse. `new` is the same of a walk that has no memory from a document before. `both` is the time of
 * a parse and of freeing the document, beside the same with reading back; `doubles` reads each number as a double too. The
 * fastest of many turns counts, by processor time. */
#include "jiter_c.h"
#include <stdio.h>
#include <string.h>
#include <time.h>

enum { ROOM = 1 << 26, BACK = 0, NEW, DOUBLES, PARSE, FREE, TIMES };

static double now(void) {
  struct timespec time;
  clock_gettime(CLOCK_THREAD_CPUTIME_ID, &time);
  return (double)time.tv_sec + (double)time.tv_nsec / 1e9;
}

/* A sum over a value, its next siblings and all below them, so that each part of them is read. */
static uint64_t read_back(const JiterWalk *walk, const JiterNode *node, bool doubles) {
  uint64_t sum = 0;
  for (; node; node = jiter_value_next_sibling(node)) {
    double value = 0;
    bool finite = false;
    if (node->key_length)
      sum += (unsigned char)jiter_value_key(walk, node).bytes[0];
    if (doubles && jiter_value_double(walk, node, &value, &finite))
      sum += value > 0;
    else if (node->kind == JITER_INT)
      sum += (uint64_t)node->integer;
    else if (node->kind == JITER_ARRAY || node->kind == JITER_OBJECT)
      sum += read_back(walk, jiter_value_first_child(node), doubles);
    else if (jiter_value_length(node) > 0)
      sum += (unsigned char)jiter_value_text(walk, node).bytes[0];
    else
      sum += node->truth;
  }
  return sum;
}

/* So that no reading is left out. */
static uint64_t sum;

/* Parses and reads back once, in this manner, and writes how long each took. */
static bool turn(const char *bytes, size_t length, int manner, double *times) {
  static JiterWalk walk = {0};
  JiterDocument document = {0};
  JiterFault fault = {0};
  double begin = now();
  bool ok = jiter_document_parse(&document, bytes, length, false, JITER_OFF, false, &fault);
  if (manner == NEW)
    jiter_walk_free(&walk);
  double parsed = now();
  ok = ok && jiter_walk_new(&walk, &document, &fault);
  if (ok)
    sum += read_back(&walk, walk.nodes, manner == DOUBLES);
  if (manner == NEW)
    jiter_walk_free(&walk);
  double read = now();
  jiter_document_free(&document);
  double freed = now();
  times[PARSE] = parsed - begin;
  times[manner] = read - parsed;
  times[FREE] = freed - read;
  return ok;
}

int main(int count, char **words) {
  static char bytes[ROOM];
  printf("%-16s%10s%10s%8s%8s%8s%8s\n", "MB/s", "parse", "back", "back", "new", "both", "doubles");
  for (int it = 2; it < count; it++) {
    double best[TIMES] = {1e9, 1e9, 1e9, 1e9, 1e9}, end = now() + atof(words[1]);
    FILE *file = fopen(words[it], "rb");
    size_t length = file ? fread(bytes, 1, ROOM, file) : 0;
    const char *slash = strrchr(words[it], '/');
    for (int round = 0; round < 10 || now() < end; round++) {
      double times[TIMES] = {1e9, 1e9, 1e9, 1e9, 1e9};
      if (!turn(bytes, length, round % 3, times))
        return fprintf(stderr, "race: %s is no document\n", words[it]), 1;
      for (int part = 0; part < TIMES; part++)
        best[part] = times[part] < best[part] ? times[part] : best[part];
    }
    if (file)
      fclose(file);
    double whole = best[PARSE] + best[FREE], size = (double)length / 1e6;
    printf("%-16s%10.0f%10.0f%8.2f%8.2f%8.2f%8.2f\n", slash ? slash + 1 : words[it], size / best[PARSE], size / best[BACK],
           best[PARSE] / best[BACK], best[PARSE] / best[NEW], whole / (whole + best[BACK]), whole / (whole + best[DOUBLES]));
    fflush(stdout);
  }
  return sum == 1;
}
