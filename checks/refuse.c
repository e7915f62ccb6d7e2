/* Loaded before the C library by checks/refused and checks/memory. It counts three things: the requests for memory, the
   bytes that they ask for, and the blocks that are not freed yet. If the environment variable REFUSE is a number, the
   request of this number fails, counted from 1. A request of MARK bytes is a mark of the program `test_failures` (mark.rt):
   it always fails and is never counted.
   On descriptor 3 it writes `refused` when it lets a request fail, and the three counts at each mark and at the end. */
#include <errno.h>
#include <stdio.h>
#include <stdlib.h>
#include <string.h>
#include <unistd.h>

#define MARK 1296126539

extern void *__libc_malloc(size_t size);
extern void *__libc_calloc(size_t count, size_t size);
extern void *__libc_realloc(void *old, size_t size);
extern void __libc_free(void *block);

static long refuse, requests, blocks;
static size_t asked;

/* Not by dprintf, which allocates. */
static void write_line(const char *line) {
  if (write(3, line, strlen(line)) != (ssize_t)strlen(line))
    _exit(99);
}

__attribute__((destructor)) static void write_counts(void) {
  char line[80];
  snprintf(line, sizeof line, "%ld %zu %ld\n", requests, asked, blocks);
  write_line(line);
}

__attribute__((constructor)) static void begin(void) {
  const char *number = getenv("REFUSE");
  refuse = number ? atol(number) : 0;
}

static int is_refused(size_t size) {
  if (size == MARK) {
    write_counts();
  } else {
    asked += size;
    if (++requests != refuse)
      return 0;
    write_line("refused\n");
  }
  errno = ENOMEM;
  return 1;
}

static void *counted(void *block) {
  blocks += block != NULL;
  return block;
}

void *malloc(size_t size) { return is_refused(size) ? NULL : counted(__libc_malloc(size)); }

void *calloc(size_t count, size_t size) { return is_refused(count * size) ? NULL : counted(__libc_calloc(count, size)); }

void *realloc(void *old, size_t size) {
  if (old == NULL)
    return malloc(size);
  return is_refused(size) ? NULL : __libc_realloc(old, size);
}

void free(void *block) {
  blocks -= block != NULL;
  __libc_free(block);
}
