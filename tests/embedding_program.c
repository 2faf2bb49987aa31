/* A program over the library, for tests that run the program: it lends each file that a word names, calls the library, and writes
   the text. As a program it has the same words, the same text and the same statuses, and 4 where the text was not written.
   With STACK defined the call is made in a thread with so many bytes of stack, and how many of them it touched is said on standard
   error. */
#define _GNU_SOURCE
#include "tilugba.h"
#include <pthread.h>
#include <stdint.h>
#include <stdio.h>
#include <stdlib.h>
#include <string.h>
#include <sys/mman.h>
#include <sys/stat.h>
#include <unistd.h>

enum { FIRST_ROOM = 1 << 16, OUT_OF_MEMORY = 9, NOT_WRITTEN = 4 };

static void *memory(void *was, size_t size) {
  void *at = realloc(was, size + !size);
  if (!at) exit(OUT_OF_MEMORY);
  return at;
}

/* Lends the file that a word names, if it names one. What is left out cannot be read. */
static size_t lend(const char *name, struct tilugba_file *file) {
  struct stat is;
  FILE *from = *name && !stat(name, &is) && S_ISREG(is.st_mode) ? fopen(name, "rb") : NULL;
  if (!from) return 0;
  uint8_t *at = memory(NULL, is.st_size);
  size_t size = fread(at, 1, is.st_size, from);
  fclose(from);
  file->name = (struct tilugba_bytes){(const uint8_t *)name, strlen(name)};
  file->bytes = (struct tilugba_bytes){at, size};
  return 1;
}

/* A call of the library, and what it gave. */
struct call {
  const struct tilugba_bytes *words;
  const struct tilugba_file *files;
  size_t word_count, file_count, room_size, size;
  uint8_t *room;
  uint32_t status;
};

/* Calls once more where the text does not fit. */
static void *make(void *made) {
  struct call *call = made;
  for (;;) {
    call->status = tilugba_run(call->words, call->word_count, call->files, call->file_count, call->room, call->room_size, &call->size);
    if (call->size <= call->room_size) return NULL;
    call->room = memory(call->room, call->room_size = call->size);
  }
}

#ifdef STACK
/* Makes the call in a thread whose stack ends at a page that nobody may touch. */
static void make_in_thread(struct call *call) {
  size_t page = sysconf(_SC_PAGESIZE), low = 0;
  uint8_t *stack = mmap(NULL, STACK + page, PROT_READ | PROT_WRITE, MAP_PRIVATE | MAP_ANONYMOUS | MAP_NORESERVE, -1, 0);
  pthread_attr_t how;
  pthread_t thread;
  unsigned char touched[STACK / 4096];
  if (stack == MAP_FAILED || mprotect(stack, page, PROT_NONE) || pthread_attr_init(&how) ||
      pthread_attr_setstack(&how, stack + page, STACK) || pthread_create(&thread, &how, make, call) ||
      pthread_join(thread, NULL) || mincore(stack + page, STACK, touched))
    abort();
  while (low < STACK / page && !(touched[low] & 1)) low++;
  fprintf(stderr, "%zu\n", STACK - low * page);
}
#endif

int main(int argc, char **argv) {
  size_t word_count = argc > 0 ? argc - 1 : 0, file_count = 0;
  struct tilugba_bytes *words = memory(NULL, word_count * sizeof *words);
  struct tilugba_file *files = memory(NULL, word_count * sizeof *files);
  for (size_t i = 0; i < word_count; i++) {
    words[i] = (struct tilugba_bytes){(const uint8_t *)argv[i + 1], strlen(argv[i + 1])};
    file_count += lend(argv[i + 1], &files[file_count]);
  }
  struct call call = {words, files, word_count, file_count, FIRST_ROOM, 0, memory(NULL, FIRST_ROOM), 0};
#ifdef STACK
  make_in_thread(&call);
#else
  make(&call);
#endif
  if (fwrite(call.room, 1, call.size, stdout) != call.size || fclose(stdout)) return NOT_WRITTEN;
  return call.status;
}
