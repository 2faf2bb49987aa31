/* Threads that call at once over words and files that they share, each with room of its own: embedding_threads ROUNDS. */
#define _GNU_SOURCE
#include "tilugba.h"
#include <pthread.h>
#include <stdio.h>
#include <stdlib.h>
#include <string.h>

#define LOAN "portfolio 1; amounts 2; party A, B; asset EUR;\ncontract loan = both(scale(100.00, pay(EUR, A, B)), " \
             "after(90, scale(105.00, pay(EUR, B, A))));\n"
#define FLOWS "loan,0,A,B,EUR,100.00\nloan,90,B,A,EUR,105.00\n"

enum { THREADS = 4 };

static const struct tilugba_bytes WORDS[] = {TILUGBA_TEXT("flows"), TILUGBA_TEXT("loan.txt")};
static const struct tilugba_file FILES[] = {{TILUGBA_TEXT("loan.txt"), TILUGBA_TEXT(LOAN)}};
static pthread_barrier_t start;
static long rounds;

static void *work(void *wrong) {
  uint8_t room[64];
  size_t size;
  pthread_barrier_wait(&start);
  for (long i = 0; i < rounds; i++) {
    memset(room, '.', sizeof room);
    uint32_t status = tilugba_run(WORDS, 2, FILES, 1, room, sizeof room, &size);
    *(long *)wrong += status || size != strlen(FLOWS) || memcmp(room, FLOWS ".", strlen(FLOWS) + 1);
  }
  return NULL;
}

int main(int argc, char **argv) {
  pthread_t threads[THREADS];
  long wrong[THREADS] = {0}, all = 0;
  rounds = argc > 1 ? atol(argv[1]) : 10000;
  pthread_barrier_init(&start, NULL, THREADS);
  for (int i = 0; i < THREADS; i++)
    if (pthread_create(&threads[i], NULL, work, &wrong[i])) return 1;
  for (int i = 0; i < THREADS; i++) pthread_join(threads[i], NULL);
  for (int i = 0; i < THREADS; i++) all += wrong[i];
  if (all) printf("%ld calls of %d threads went wrong\n", all, THREADS);
  printf("%d passed, %d failed\n", !all, !!all);
  return all != 0;
}
