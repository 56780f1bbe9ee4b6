/* The bare atomic operations beneath the calls of the shared words: bare CALL COUNT THREADS.
   Each thread does COUNT of them, all on the same word; the nanoseconds that they took are printed. */
#include <pthread.h>
#include <stdatomic.h>
#include <stdio.h>
#include <stdlib.h>
#include <string.h>
#include <time.h>

enum call { LOAD, STORE, ADD, ENROL, SPLIT_MERGE, DRAW, PS, PSM, READ, WRITE, RAISE, HALTED, NONE };

static const char *const names[] = {"load", "store", "add", "enrol", "split+merge", "draw",
                                    "ps", "psm", "read", "write", "raise", "halted"};

static _Atomic unsigned long *words;
static enum call call = NONE;
static unsigned long count;

/* One call, as the program words_bench makes it: one switch, then the operation, on a word that is found anew each time. */
static inline void make(enum call c) {
  switch (c) {
  case LOAD: case READ: (void)atomic_load(&words[12]); break;
  case STORE: case WRITE: (void)atomic_exchange(&words[12], 7); break;
  case ADD: case PSM: (void)atomic_fetch_add(&words[12], 1); break;
  case ENROL: (void)atomic_fetch_add(&words[0], 1); break;
  case SPLIT_MERGE:
    (void)atomic_load(&words[0]);
    (void)atomic_load(&words[0]);
    (void)atomic_load(&words[0]);
    break;
  case DRAW: (void)atomic_fetch_add(&words[1], 1); break;
  case PS: (void)atomic_fetch_add(&words[4], 1); break;
  case RAISE: (void)atomic_exchange(&words[3], 1); break;
  case HALTED: (void)atomic_load(&words[3]); break;
  case NONE: break;
  }
}

static void *work(void *unused) {
  (void)unused;
  const enum call mine = call;
  const unsigned long times = count;
  for (unsigned long i = 0; i < times; i++)
    make(mine);
  return NULL;
}

int main(int argc, char **argv) {
  if (argc < 4) {
    fputs("usage: bare CALL COUNT THREADS\n", stderr);
    return 2;
  }
  for (int i = 0; i < NONE; i++)
    if (strcmp(argv[1], names[i]) == 0)
      call = (enum call)i;
  count = strtoul(argv[2], NULL, 10);
  unsigned long threads = strtoul(argv[3], NULL, 10);
  words = calloc(13, sizeof *words);
  if (call == NONE || threads < 1 || threads > 4 || words == NULL) {
    fputs("bare: a call that it does not know, not 1 to 4 threads, or no memory\n", stderr);
    return 2;
  }
  struct timespec from, to;
  clock_gettime(CLOCK_MONOTONIC, &from);
  pthread_t others[4];
  for (unsigned long i = 1; i < threads; i++)
    if (pthread_create(&others[i], NULL, work, NULL) != 0)
      return 2;
  work(NULL);
  for (unsigned long i = 1; i < threads; i++)
    pthread_join(others[i], NULL);
  clock_gettime(CLOCK_MONOTONIC, &to);
  printf("%lld\n", (to.tv_sec - from.tv_sec) * 1000000000LL + (to.tv_nsec - from.tv_nsec));
  free(words);
  return 0;
}
