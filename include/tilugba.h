/*
 * Tilugba in this process: one call runs one command over words and files that the caller lends,
 * and writes the text of the answer into room of the caller. Link it with -ltilugba, or with
 * libtilugba.a and nothing else.
 *
 *   struct tilugba_bytes words[] = {TILUGBA_TEXT("flows"), TILUGBA_TEXT("loan.txt")};
 *   struct tilugba_file files[] = {{TILUGBA_TEXT("loan.txt"), {loan, loan_size}}};
 *   uint8_t room[4096];
 *   size_t size;
 *   uint32_t status = tilugba_run(words, 2, files, 1, room, sizeof room, &size);
 *   if (size <= sizeof room) fwrite(room, 1, size, stdout);
 *
 * What the caller owes, and nobody checks:
 *
 * - Ownership: all memory is the caller's. The library reads words and files, writes to the room
 *   and to the size, keeps nothing behind the return, and hands out nothing that has to be freed.
 *   Nobody changes words or files while the call runs. The room and the size overlap nothing else
 *   of the call.
 * - Pointers: each is good for its size. `at` is not null, also where `size` is 0; `words`, `files`
 *   and `room` may be null where their count is 0. No size is above PTRDIFF_MAX.
 * - Room: the text stands in it whole, or not at all. A text that does not fit costs a second call,
 *   with `text_size` bytes of room.
 * - Threads: any number may call at once, each with a room and a size of its own. They may share
 *   words and files.
 * - Stack: the thread has 2 MB of it. An overflow ends the process by a signal.
 * - Processes: no call from a signal handler, and none from the forked child of a process with
 *   threads.
 * - Interruption: a call cannot be stopped. A text at its limits may take minutes and much memory,
 *   so strangers' texts are better run in a process that can be ended.
 * - Memory: `malloc`, `realloc` and `free` of the process are used, and want of memory is an
 *   answer, 9. The three are of one allocator, and align a block of n bytes to each power of two up
 *   to 16 that divides n.
 * - Processor: x86-64 with SSE4.2 and POPCNT (x86-64-v2). An older one stops with an illegal
 *   instruction.
 */
#ifndef TILUGBA_H
#define TILUGBA_H

#include <stddef.h>
#include <stdint.h>

#ifdef __cplusplus
extern "C" {
#endif

/* The number of this surface, which `tilugba_abi` of the library has to give. */
#define TILUGBA_ABI 1

/* What a literal text holds, as a `struct tilugba_bytes`. */
#define TILUGBA_TEXT(literal) {(const uint8_t *)(literal), sizeof(literal) - 1}

/* Bytes that are lent: no terminating zero is needed, and none is counted. */
struct tilugba_bytes {
  const uint8_t *at; /* not null */
  size_t size;
};

/* A file that is lent. Its name is the word for it. Of two files with one name the first counts. */
struct tilugba_file {
  struct tilugba_bytes name, bytes;
};

/*
 * Runs a command. `words` are those of the command line, without the program's name, in UTF-8. A
 * file that no entry of `files` has is one that cannot be read; none is opened.
 *
 * The answer is the exit status of the program: 0 to 3 and 5 to 12. It is 9 where memory does not
 * suffice, 13 where a word is not UTF-8, and never 4. `*text_size` is the length of the whole text,
 * which stands at the front of the room if it fits there; if not, the room is as it was. There is
 * no text with 13, nor with 9 where memory does not suffice for the words or for the text.
 */
uint32_t tilugba_run(const struct tilugba_bytes *words, size_t word_count,
                     const struct tilugba_file *files, size_t file_count,
                     uint8_t *room, size_t room_size, size_t *text_size);

/* The number of the surface that this library has. */
uint32_t tilugba_abi(void);

#ifdef __cplusplus
}
#endif

#endif
