/* What both simulations stand on: the program around them, the coins of a seed, and the times of nodes. */
#ifndef BENCH_PROGRAM_H
#define BENCH_PROGRAM_H

#include <stdbool.h>
#include <stddef.h>
#include <stdint.h>

enum {
  NODES = 63,
  PORTS = 16,
  LIST = 252, /* quadlets of a node's list */
  SCRIPT = 1 << 20,
  PAD = 16 /* line feeds after the script */
};

extern char script[SCRIPT + PAD];
extern size_t script_length;

/* What a simulation gives: its name, a run of the script from its first byte to the last report, and the text of that run. */
extern const char program_name[];
void run(void);
const char *text_of_run(size_t *length);

_Noreturn void stop(int status, const char *what);

/* The next word of a generator of coins (PCG32), and its state for a seed. */
uint32_t pcg_word(uint64_t *state);
uint64_t pcg_start(uint32_t seed);

/* The least and the greatest of each time of a node, in turns. */
struct times {
  uint32_t hold, forced, timeout, shorter, longer;
};
extern struct times least, most;

/* The times of the usual profile, or of a standard where `delay` turns are `nanoseconds`; false where they don't suit. */
void usual_times(uint32_t delay);
bool standard_times(bool newer, uint32_t delay, uint32_t nanoseconds);

/* How many turns a settling takes. */
uint32_t turns_to_settle(uint32_t nodes, uint32_t delay);

#endif
