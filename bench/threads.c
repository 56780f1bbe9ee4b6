/* What bench/threads.sh measures beside xmt: the section of its program on threads of OpenMP, and what it costs to begin and to end threads that
   do nothing.

   usage: threads section THREADS TURNS    the section, whose threads go round a loop so many times; prints what the program prints, and the seconds
          threads team THREADS SECTIONS    so many sections by a team of OpenMP's threads, which stay; prints the microseconds of each
          threads new THREADS SECTIONS     so many sections with new threads for each; prints the microseconds of each */
#include <omp.h>
#include <pthread.h>
#include <stdint.h>
#include <stdio.h>
#include <stdlib.h>
#include <string.h>

enum { NUMBERS = 64, MOST_THREADS = 64 };

static uint32_t A[NUMBERS];

/* keeps the compiler from working the loop out by itself */
static volatile uint32_t seven = 7;

static void block(uint32_t number, uint32_t turns) {
  uint32_t s = number;
  for (uint32_t i = 0; i < turns; i++) s = s * 31 + (i ^ seven);
  A[number] = s;
}

static void section(int threads, uint32_t turns) {
#pragma omp parallel for schedule(dynamic, 1) num_threads(threads)
  for (uint32_t number = 0; number < NUMBERS; number++) block(number, turns);
}

static void team(int threads) {
#pragma omp parallel num_threads(threads)
  __asm__ volatile("" ::: "memory");
}

static void *nothing(void *unused) {
  return unused;
}

static void new_threads(int threads) {
  pthread_t made[MOST_THREADS];
  for (int i = 0; i < threads; i++)
    if (pthread_create(&made[i], NULL, nothing, NULL)) exit(1);
  for (int i = 0; i < threads; i++) pthread_join(made[i], NULL);
}

int main(int count, char **words) {
  if (count != 4) return 2;
  int threads = atoi(words[2]);
  uint32_t times = strtoul(words[3], NULL, 10);
  if (threads < 1 || threads > MOST_THREADS || times < 1) return 2;
  omp_set_dynamic(0);
  double begin = omp_get_wtime();
  if (!strcmp(words[1], "section")) {
    section(threads, times);
    double took = omp_get_wtime() - begin;
    printf("%d %d\n", (int32_t)A[0], (int32_t)A[NUMBERS - 1]);
    fprintf(stderr, "%.4f\n", took);
    return 0;
  }
  int is_team = !strcmp(words[1], "team");
  for (uint32_t i = 0; i < times; i++) is_team ? team(threads) : new_threads(threads);
  printf("%.2f\n", (omp_get_wtime() - begin) * 1e6 / times);
}
