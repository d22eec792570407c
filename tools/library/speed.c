/* Times calls of libbusconf. `speed N` takes a capture from standard input, makes each call N times in each of eleven
 * batches, and writes the median time of one call in nanoseconds. `gap_for` does next to nothing, so it is what a call
 * over the border costs, and `empty` is what is measured of a call that does nothing at all. `speed N script` takes a
 * script, and times runs of it in eleven batches of N. */
#define _POSIX_C_SOURCE 199309L
#include "busconf.h"

#include <stdio.h>
#include <stdlib.h>
#include <time.h>

static uint32_t quads[253];
static size_t count = 0;
static struct busconf_node nodes[BUSCONF_MAX_NODES];
static struct busconf_bus bus;
static struct busconf_fault fault;
static struct busconf_reader reader;
static char script[1048577];
static size_t length = 0;
static char *text;
static size_t room = 0;
static volatile uint32_t sink;

static void call_empty(void) { sink = (uint32_t)count; }

static void call_read(void) {
  sink = busconf_read(quads, count, BUSCONF_IEEE2000, nodes, BUSCONF_MAX_NODES, &bus, &fault);
}

static void call_read_no_nodes(void) {
  sink = busconf_read(quads, count, BUSCONF_IEEE2000, nodes, 0, &bus, &fault);
}

static void call_push(void) {
  size_t n;
  busconf_reader_init(&reader);
  for (n = 0; n < count; n++) busconf_reader_push(&reader, quads[n]);
}

static void call_state(void) { sink = busconf_reader_state(&reader, &fault); }

static void call_crc(void) { sink = busconf_crc16(quads, count); }

static void call_gap(void) { sink = busconf_gap_for((uint8_t)count); }

static void call_run(void) {
  struct busconf_script_fault at;
  size_t needed;
  sink = busconf_run(script, length, text, room, &needed, &at);
}

static void call_advice(void) {
  struct busconf_script_fault at;
  size_t needed;
  sink = busconf_advice(script, length, text, room, &needed, &at);
}

static int by_value(const void *a, const void *b) {
  double x = *(const double *)a, y = *(const double *)b;
  return x < y ? -1 : x > y;
}

static void measure(const char *name, void (*call)(void), unsigned long times) {
  double batch[11];
  int k;
  unsigned long n;
  for (k = 0; k < 11; k++) {
    struct timespec from, to;
    clock_gettime(CLOCK_MONOTONIC, &from);
    for (n = 0; n < times; n++) call();
    clock_gettime(CLOCK_MONOTONIC, &to);
    batch[k] = ((double)(to.tv_sec - from.tv_sec) * 1e9 + (double)(to.tv_nsec - from.tv_nsec)) / (double)times;
  }
  qsort(batch, 11, sizeof *batch, by_value);
  printf("%s ns_per_call median %.1f min %.1f\n", name, batch[5], batch[0]);
}

/* Times runs of a script into a place that its text and its advice have room in. */
static int measure_script(unsigned long times) {
  struct busconf_script_fault at;
  size_t needed = 0;
  char none;
  length = fread(script, 1, sizeof script, stdin);
  if (busconf_run(script, length, &none, 0, &needed, &at) != BUSCONF_TOO_SHORT) return 1;
  if (busconf_advice(script, length, &none, 0, &room, &at) != BUSCONF_TOO_SHORT) return 1;
  if (room < needed) room = needed;
  text = (char *)malloc(room);
  if (!text) return 2;
  measure("run", call_run, times);
  measure("advice", call_advice, times);
  free(text);
  return 0;
}

int main(int argc, char **argv) {
  unsigned long times = argc > 1 ? strtoul(argv[1], NULL, 10) : 1000;
  unsigned char b[8];
  if (argc > 2) return measure_script(times);
  while (count < sizeof quads / sizeof *quads && fread(b, 1, 8, stdin) == 8)
    quads[count++] = (uint32_t)b[0] << 24 | (uint32_t)b[1] << 16 | (uint32_t)b[2] << 8 | b[3];
  printf("quadlets %zu\n", count);
  measure("empty", call_empty, times);
  measure("gap_for", call_gap, times);
  measure("read", call_read, times);
  measure("read_no_nodes", call_read_no_nodes, times);
  measure("reader_push_all", call_push, times);
  measure("reader_state", call_state, times);
  measure("crc16", call_crc, times);
  return 0;
}
