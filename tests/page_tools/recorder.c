/* Runs the program that PAGE_PROGRAM names with the same words, and adds the call and its answer to
   the file that PAGE_CALLS names, for tests/page. As a program it has the same text and status.

   A call is written as numbers of 32 bits and pieces, each a length and its bytes: how many words,
   how many files, the status; the words; the name and the bytes of each file; the text. Nothing is
   written of what the module cannot be given: a call that is made to fail, or short of memory, or
   with a file that is no plain one, or that a signal ended, or with more than MOST
   bytes of files. */
#define _GNU_SOURCE
#include <fcntl.h>
#include <signal.h>
#include <stdint.h>
#include <stdio.h>
#include <stdlib.h>
#include <string.h>
#include <sys/file.h>
#include <sys/resource.h>
#include <sys/stat.h>
#include <sys/wait.h>
#include <unistd.h>

enum { MOST = 300000, OUT_OF_MEMORY = 9, NOT_WRITTEN = 4 };

struct piece {
  const char *at;
  size_t size;
};

static struct piece *names, *files;
static size_t file_count, bytes_of_files;

static void *memory(void *was, size_t size) {
  void *at = realloc(was, size + !size);
  if (!at) exit(OUT_OF_MEMORY);
  return at;
}

/* All that a descriptor gives. */
static struct piece whole(int from) {
  size_t room = 1 << 16, size = 0;
  char *at = memory(NULL, room);
  for (ssize_t more; (more = read(from, at + size, room - size)) > 0;)
    if ((size += more) == room) at = memory(at, room *= 2);
  return (struct piece){at, size};
}

/* Takes the file that a word names, if it does; answers whether the module can have the same. */
static int lend(char *name) {
  struct stat is;
  if (!*name || stat(name, &is) || S_ISDIR(is.st_mode)) return 1;
  if (!S_ISREG(is.st_mode) || (bytes_of_files += is.st_size) > MOST) return 0;
  int from = open(name, O_RDONLY);
  if (from < 0) return 1;
  names[file_count] = (struct piece){name, strlen(name)};
  files[file_count++] = whole(from);
  close(from);
  return 1;
}

static void put(FILE *to, struct piece it) {
  uint32_t size = it.size;
  fwrite(&size, 4, 1, to);
  fwrite(it.at, 1, it.size, to);
}

static void record(const char *path, char **words, uint32_t count, uint32_t status,
                   struct piece text) {
  FILE *to = fopen(path, "ab");
  if (!to || flock(fileno(to), LOCK_EX)) abort();
  uint32_t head[3] = {count, file_count, status};
  fwrite(head, 4, 3, to);
  for (uint32_t i = 0; i < count; i++) put(to, (struct piece){words[i], strlen(words[i])});
  for (size_t i = 0; i < file_count; i++) put(to, names[i]), put(to, files[i]);
  put(to, text);
  if (fclose(to)) abort();
}

/* Whether a call is made to fail, or has little memory. */
static int is_pressed(void) {
  struct rlimit memory_is;
  return getenv("LD_PRELOAD") || getrlimit(RLIMIT_AS, &memory_is) ||
         memory_is.rlim_cur != RLIM_INFINITY;
}

int main(int argc, char **argv) {
  const char *program = getenv("PAGE_PROGRAM"), *calls = getenv("PAGE_CALLS");
  if (!program || !calls || argc < 1) return 70;
  /* (before any request of this program's own is counted) */
  if (is_pressed()) {
    execv(program, argv);
    return 70;
  }
  names = memory(NULL, argc * sizeof *names);
  files = memory(NULL, argc * sizeof *files);
  int fits = 1;
  for (int i = 1; fits && i < argc; i++) fits = lend(argv[i]);
  if (!fits) {
    execv(program, argv);
    return 70;
  }
  int ends[2], status;
  if (pipe(ends)) return 70;
  pid_t child = fork();
  if (!child) {
    dup2(ends[1], 1);
    close(ends[0]), close(ends[1]);
    execv(program, argv);
    _exit(70);
  }
  close(ends[1]);
  struct piece text = whole(ends[0]);
  waitpid(child, &status, 0);
  if (!WIFEXITED(status)) {
    signal(WTERMSIG(status), SIG_DFL);
    raise(WTERMSIG(status));
    return 70;
  }
  record(calls, argv + 1, argc - 1, WEXITSTATUS(status), text);
  if (fwrite(text.at, 1, text.size, stdout) != text.size || fclose(stdout)) return NOT_WRITTEN;
  return WEXITSTATUS(status);
}
