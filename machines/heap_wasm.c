/* What the library's module lacks on WebAssembly: its three calls of the heap, over the memory of an
   instance; room for the caller; and the export of tilugba_run.

   Blocks come in classes, four sizes for each power of two, from 32 bytes on. A freed block goes to
   the list of its class. Nothing is given back: whoever called drops the instance. Where the memory
   cannot grow there is no block, and the run ends with status 9. */
typedef unsigned long long u64;
typedef unsigned char u8;

/* As the module has it: two words of 64 bits, whether there is a block, and where. */
struct tried {
  u64 ok;
  void *at;
};

/* Stands before each block, so that blocks lie at multiples of 16. */
struct block {
  u64 class, pad;
};

enum { PAGE = 1 << 16, LEAST_GROWTH = 1 << 20 };
static const u64 MOST = 1ull << 40;
extern u8 __heap_base;
static u8 *top, *end;
static void *spare[256];
static u8 nothing[16] __attribute__((aligned(16)));

/* The least class whose blocks have so many bytes. */
static unsigned class_of(u64 size) {
  if (size <= 32) return 0;
  unsigned power = 63 - __builtin_clzll(size - 1), quarter = (size - 1) >> (power - 2) & 3;
  return (power - 5) * 4 + quarter + 1;
}

/* How many bytes a block of a class has. */
static u64 size_of(unsigned class) {
  if (!class) return 32;
  unsigned power = (class - 1) / 4 + 5, quarter = (class - 1) % 4;
  return (1ull << power) + ((quarter + 1ull) << (power - 2));
}

/* A memory that cannot grow says -1. Where addresses were lowered to 32 bits, that is -1 in 32 bits:
   so these are looked at, and no memory has so many pages. */
static int grow(u64 bytes) {
  u64 pages = (bytes + PAGE - 1) / PAGE;
  if ((unsigned)__builtin_wasm_memory_grow(0, pages) == ~0u) return 0;
  end += pages * PAGE;
  return 1;
}

static void *fresh(unsigned class) {
  u64 want = (size_of(class) + sizeof(struct block) + 15) & ~15ull;
  if (!top) {
    top = (u8 *)(((u64)&__heap_base + 15) & ~15ull);
    end = (u8 *)((u64)__builtin_wasm_memory_size(0) * PAGE);
  }
  if ((u64)(end - top) < want) {
    u64 more = want - (u64)(end - top);
    if (!grow(more < LEAST_GROWTH ? LEAST_GROWTH : more) && !grow(more)) return 0;
  }
  struct block *block = (struct block *)top;
  top += want;
  block->class = class;
  return block + 1;
}

static void *take(u64 size) {
  if (size > MOST) return 0;
  unsigned class = class_of(size);
  void *at = spare[class];
  if (!at) return fresh(class);
  spare[class] = *(void **)at;
  return at;
}

void rattle_dealloc(void *at) {
  unsigned class = ((struct block *)at - 1)->class;
  *(void **)at = spare[class];
  spare[class] = at;
}

/* The alignment is at most 16. A size of 0 is a block too: the module frees it. */
struct tried rattle_alloc(u64 size, u64 align) {
  (void)align;
  void *at = take(size);
  return at ? (struct tried){1, at} : (struct tried){0, nothing};
}

struct tried rattle_realloc(void *was, u64 kept, u64 size, u64 align) {
  (void)align;
  if (size <= MOST && class_of(size) == ((struct block *)was - 1)->class)
    return (struct tried){1, was};
  void *at = take(size);
  if (!at) return (struct tried){0, nothing};
  __builtin_memcpy(at, was, kept < size ? kept : size);
  rattle_dealloc(was);
  return (struct tried){1, at};
}

/* Room for the caller's words, files and answer, or 0. */
__attribute__((export_name("page_take"))) void *page_take(u64 size) { return take(size); }
__attribute__((export_name("page_free"))) void page_free(void *at) { rattle_dealloc(at); }

unsigned tilugba_run(const void *, u64, const void *, u64, u8 *, u64, u64 *);
__attribute__((export_name("tilugba_run"))) unsigned page_run(
    const void *words, u64 n, const void *files, u64 m, u8 *room, u64 size, u64 *count) {
  return tilugba_run(words, n, files, m, room, size, count);
}
