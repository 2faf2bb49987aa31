/* replay FILE: makes each recorded call again by the library, and compares status and text. The
   form of the file is that of recorder.c. */
#include "tilugba.h"
#include <stdio.h>
#include <stdlib.h>
#include <string.h>

enum { MOST = 1 << 16, ROOM = 1 << 26 };

static struct tilugba_bytes words[MOST];
static struct tilugba_file files[MOST];
static const uint8_t *at;

static uint32_t number(void) {
  uint32_t found;
  memcpy(&found, at, 4);
  at += 4;
  return found;
}

static struct tilugba_bytes piece(void) {
  uint32_t size = number();
  struct tilugba_bytes found = {at, size};
  at += size;
  return found;
}

/* All bytes of a file, and behind them nothing. */
static const uint8_t *whole(const char *path, size_t *size) {
  FILE *from = fopen(path, "rb");
  if (!from || fseek(from, 0, SEEK_END)) exit(2);
  *size = ftell(from);
  rewind(from);
  uint8_t *found = malloc(*size + 1);
  if (!found || fread(found, 1, *size, from) != *size) exit(2);
  fclose(from);
  return found;
}

int main(int argc, char **argv) {
  size_t size, count, good = 0, bad = 0;
  uint8_t *room = malloc(ROOM);
  if (argc != 2 || !room) return 2;
  const uint8_t *end = (at = whole(argv[1], &size)) + size;
  while (at < end) {
    uint32_t n = number(), m = number(), wanted = number();
    if (n > MOST || m > MOST) return 2;
    for (uint32_t i = 0; i < n; i++) words[i] = piece();
    for (uint32_t i = 0; i < m; i++) files[i].name = piece(), files[i].bytes = piece();
    struct tilugba_bytes text = piece();
    uint32_t status = tilugba_run(words, n, files, m, room, ROOM, &count);
    if (status == wanted && count == text.size && !memcmp(room, text.at, count))
      good++;
    else
      bad++, printf("call %zu: wanted %u, got %u\n", good + bad, wanted, status);
  }
  printf("%zu the same, %zu other\n", good, bad);
  return bad != 0 || !good;
}
