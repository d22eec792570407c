#define _POSIX_C_SOURCE 199309L
#include "program.h"

#include <stdio.h>
#include <stdlib.h>
#include <string.h>
#include <time.h>

char script[SCRIPT + PAD];
size_t script_length;
struct times least, most;

void stop(int status, const char *what) {
  fprintf(stderr, "%s: %s\n", program_name, what);
  exit(status);
}

uint32_t pcg_word(uint64_t *state) {
  uint64_t old = *state;
  *state = old * 6364136223846793005u + (54u << 1 | 1);
  uint32_t word = (uint32_t)((old >> 18 ^ old) >> 27), turn = (uint32_t)(old >> 59);
  return word >> turn | word << (-turn & 31);
}

uint64_t pcg_start(uint32_t seed) {
  uint64_t state = (uint64_t)seed + (54u << 1 | 1);
  pcg_word(&state);
  return state;
}

void usual_times(uint32_t delay) {
  least = (struct times){64 * delay, 256 * delay, 512 * delay, 3 * delay, 8 * delay};
  most = (struct times){80 * delay, 256 * delay, 512 * delay, 4 * delay, 10 * delay};
}

/* The least of each time is rounded down to whole turns, and the greatest up. */
bool standard_times(bool newer, uint32_t delay, uint32_t nanoseconds) {
  uint64_t d = delay, ns = nanoseconds;
  if (ns == 0 || 166700 * d / ns > 65534)
    return false;
#define DOWN(time) (uint32_t)((time)*d / ns)
#define UP(time) (uint32_t)(((time)*d + ns - 1) / ns)
  least = (struct times){DOWN(166600), DOWN(83300), DOWN(166600), DOWN(newer ? 760 : 240), DOWN(newer ? 1590 : 570)};
  most = (struct times){UP(166700), UP(166600), UP(166700), UP(newer ? 850 : 260), UP(newer ? 1670 : 600)};
#undef DOWN
#undef UP
  return true;
}

uint32_t turns_to_settle(uint32_t nodes, uint32_t delay) {
  uint32_t usual = delay * (2000 + 4 * nodes * nodes + 8 * nodes);
  uint32_t with_loop = delay * (nodes + 1) + most.hold + most.timeout + 1;
  uint32_t without = delay * (14 * nodes + 384) + most.hold + most.forced + 35 * most.longer + 1;
  uint32_t longer = with_loop > without ? with_loop : without;
  return usual > longer ? usual : longer;
}

static double now(void) {
  struct timespec t;
  clock_gettime(CLOCK_MONOTONIC, &t);
  return 1e9 * (double)t.tv_sec + (double)t.tv_nsec;
}

static int by_size(const void *a, const void *b) {
  double x = *(const double *)a, y = *(const double *)b;
  return (x > y) - (x < y);
}

static void bench(int count) {
  double *took = malloc(sizeof *took * (size_t)count);
  if (!took)
    stop(2, "no memory");
  for (int i = 0; i < count; i++) {
    double start = now();
    run();
    took[i] = now() - start;
  }
  qsort(took, (size_t)count, sizeof *took, by_size);
  printf("ns_per_run median %.0f min %.0f\n", (took[(count - 1) / 2] + took[count / 2]) / 2, took[0]);
  free(took);
}

int main(int count, char **words) {
  int runs = count == 3 && !strcmp(words[1], "--bench") ? atoi(words[2]) : 0;
  if (count > 1 && runs < 1)
    stop(2, "the words are none, or --bench N; the script is standard input");
  script_length = fread(script, 1, SCRIPT + 1, stdin);
  if (script_length > SCRIPT)
    stop(1, "the script is too long");
  memset(script + script_length, '\n', PAD);
  if (runs) {
    bench(runs);
  } else {
    size_t length;
    run();
    const char *text = text_of_run(&length);
    fwrite(text, 1, length, stdout);
  }
  return fflush(stdout) ? 2 : 0;
}
