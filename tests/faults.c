/* A library to be loaded before a program. It counts the program's requests for memory, the files that it opens, its reads and
   its writes, and lets one of them go wrong:

     FAULT_CALL=memory|open|read|write   which of them
     FAULT_AT=N                          the N-th, from 1; where FAULT_ON is not empty, each one after it too
     FAULT_AS=fail|short|interrupt       it fails; takes one byte alone; is interrupted (fail where the word is another)
     FAULT_MOST=N                        each read and write takes at most N bytes
     FAULT_LOG=FILE                      a letter is written there for each: m, o, r, w; and ! behind one that went wrong

   What the loader and the C library ask for on their own account counts too, where they ask by these names. */
#define _GNU_SOURCE
#include <errno.h>
#include <fcntl.h>
#include <stdarg.h>
#include <stdlib.h>
#include <string.h>
#include <sys/mman.h>
#include <sys/syscall.h>
#include <sys/types.h>
#include <sys/uio.h>
#include <unistd.h>

enum call { MEMORY, OPEN, READ, WRITE, CALLS };

static const char letters[CALLS] = {'m', 'o', 'r', 'w'};
static const char *const names[CALLS] = {"memory", "open", "read", "write"};
static unsigned long counts[CALLS];
static int ready, chosen = -1, on_from_there, record = -1;
static unsigned long at;
static size_t most;
static enum { FAIL, SHORT, INTERRUPT } as;

extern void *__libc_malloc(size_t);
extern void *__libc_calloc(size_t, size_t);
extern void *__libc_realloc(void *, size_t);
extern void *__libc_memalign(size_t, size_t);

__attribute__((constructor)) static void begin(void) {
  const char *word = getenv("FAULT_CALL");
  for (int call = 0; word && call < CALLS; call++)
    if (!strcmp(word, names[call])) chosen = call;
  if ((word = getenv("FAULT_AT"))) at = strtoul(word, 0, 10);
  on_from_there = (word = getenv("FAULT_ON")) && *word;
  if ((word = getenv("FAULT_MOST"))) most = strtoul(word, 0, 10);
  if ((word = getenv("FAULT_AS"))) as = !strcmp(word, "short") ? SHORT : !strcmp(word, "interrupt") ? INTERRUPT : FAIL;
  if ((word = getenv("FAULT_LOG"))) record = syscall(SYS_openat, AT_FDCWD, word, O_WRONLY | O_CREAT | O_APPEND, 0600);
  ready = 1;
}

static void note(char letter) {
  if (record >= 0) syscall(SYS_write, record, &letter, 1);
}

/* Whether this call is the one that goes wrong. */
static int struck(enum call call) {
  if (!ready) return 0;
  unsigned long number = ++counts[call];
  note(letters[call]);
  if ((int)call != chosen || !(number == at || (on_from_there && number > at))) return 0;
  note('!');
  return 1;
}

static int no_memory(void) {
  if (!struck(MEMORY)) return 0;
  errno = ENOMEM;
  return 1;
}

void *malloc(size_t size) { return no_memory() ? 0 : __libc_malloc(size); }
void *calloc(size_t many, size_t size) { return no_memory() ? 0 : __libc_calloc(many, size); }
void *realloc(void *old, size_t size) { return no_memory() ? 0 : __libc_realloc(old, size); }
void *memalign(size_t to, size_t size) { return no_memory() ? 0 : __libc_memalign(to, size); }
void *aligned_alloc(size_t to, size_t size) { return memalign(to, size); }
int posix_memalign(void **out, size_t to, size_t size) {
  void *got = memalign(to, size);
  if (!got) return ENOMEM;
  *out = got;
  return 0;
}
void *mmap(void *where, size_t size, int rights, int flags, int file, off_t from) {
  if (no_memory()) return MAP_FAILED;
  return (void *)syscall(SYS_mmap, where, size, rights, flags, file, from);
}
void *mmap64(void *where, size_t size, int rights, int flags, int file, off_t from) {
  return mmap(where, size, rights, flags, file, from);
}

/* How many bytes a read or write of this many may take, or -1 where it fails. */
static ssize_t allowed(enum call call, size_t asked) {
  int wrong = struck(call);
  if (wrong && as != SHORT) {
    errno = as == INTERRUPT ? EINTR : EIO;
    return -1;
  }
  if (most && asked > most) asked = most;
  return wrong && asked > 1 ? 1 : (ssize_t)asked;
}

ssize_t read(int file, void *into, size_t size) {
  ssize_t may = allowed(READ, size);
  return may < 0 ? -1 : syscall(SYS_read, file, into, may);
}
ssize_t pread(int file, void *into, size_t size, off_t from) {
  ssize_t may = allowed(READ, size);
  return may < 0 ? -1 : syscall(SYS_pread64, file, into, may, from);
}
ssize_t readv(int file, const struct iovec *into, int many) {
  if (many < 1) return syscall(SYS_readv, file, into, many);
  return read(file, into[0].iov_base, into[0].iov_len);
}
ssize_t write(int file, const void *from, size_t size) {
  ssize_t may = allowed(WRITE, size);
  return may < 0 ? -1 : syscall(SYS_write, file, from, may);
}
ssize_t __write(int file, const void *from, size_t size) { return write(file, from, size); }
ssize_t writev(int file, const struct iovec *from, int many) {
  if (many < 1) return syscall(SYS_writev, file, from, many);
  return write(file, from[0].iov_base, from[0].iov_len);
}

static int opened(int folder, const char *name, int flags, mode_t mode) {
  if (struck(OPEN)) {
    errno = as == INTERRUPT ? EINTR : EIO;
    return -1;
  }
  return syscall(SYS_openat, folder, name, flags, mode);
}

static mode_t mode_of(int flags, va_list more) { return flags & (O_CREAT | O_TMPFILE) ? va_arg(more, mode_t) : 0; }

#define OPENS(NAME) \
  int NAME(const char *name, int flags, ...) { \
    va_list more; \
    va_start(more, flags); \
    mode_t mode = mode_of(flags, more); \
    va_end(more); \
    return opened(AT_FDCWD, name, flags, mode); \
  }
#define OPENS_AT(NAME) \
  int NAME(int folder, const char *name, int flags, ...) { \
    va_list more; \
    va_start(more, flags); \
    mode_t mode = mode_of(flags, more); \
    va_end(more); \
    return opened(folder, name, flags, mode); \
  }
OPENS(open)
OPENS(open64)
OPENS_AT(openat)
OPENS_AT(openat64)
