/* The three calls of the heap that the library's module makes, over malloc. */
#include <stdint.h>
#include <stdlib.h>

/* As the module has it: two words of 64 bits, whether there is a block, and where. */
struct tried {
  uint64_t ok;
  void *at;
};

static const uint8_t nothing[16] __attribute__((aligned(16)));

static struct tried tried(void *at) {
  return at ? (struct tried){1, at} : (struct tried){0, (void *)nothing};
}

/* A size of 0 is a block too: of 0 bytes realloc would free the old one, and the module frees it. */
struct tried rattle_alloc(uint64_t size, uint64_t align) {
  (void)align;
  return tried(malloc(size + !size));
}

struct tried rattle_realloc(void *was, uint64_t kept, uint64_t size, uint64_t align) {
  (void)kept, (void)align;
  return tried(realloc(was, size + !size));
}

void rattle_dealloc(void *at) { free(at); }
