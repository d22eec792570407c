/* The script, read once and in place. It has to be valid, but what is wrong with a line's own words ends the program with
 * status 1 and the number of the line. */
#include "bus.h"

#include <stdio.h>
#include <stdlib.h>
#include <string.h>

const char program_name[] = "events";

struct node nodes[NODES];
uint32_t lists[NODES][LIST + 4];
struct wire wires[NODES * PORTS], *free_wires[NODES * PORTS];
int wire_count, free_count;
uint64_t names[NODES][2];
uint8_t name_lengths[NODES];
int node_count;
uint32_t delay, turns;
uint64_t soon[2];

static uint8_t name_table[256]; /* a node's number and 1 */
static uint32_t line_number;

static _Noreturn void fault(const char *what) {
  char told[80];
  snprintf(told, sizeof told, "line %u: %s", line_number, what);
  stop(1, told);
}

/* Bytes that end a word: 1 for a blank, 2 for the end of a line. */
static const uint8_t ends[256] = {[' '] = 1, ['\t'] = 1, ['\n'] = 2, ['\r'] = 2};

static const char *skip_blanks(const char *c) {
  while (*c == ' ' || *c == '\t')
    c++;
  return c;
}

static const char *end_of_word(const char *c) {
  while (!ends[(unsigned char)*c])
    c++;
  return c;
}

static const char *number(const char *c, uint32_t *value) {
  uint64_t x = 0;
  const char *start = c = skip_blanks(c);
  if (c[0] == '0' && c[1] == 'x') {
    start = c += 2;
    for (;; c++) {
      unsigned digit = (unsigned char)*c - '0', letter = ((unsigned char)*c | 32) - 'a';
      if (digit >= 10) {
        if (letter >= 6)
          break;
        digit = letter + 10;
      }
      x = x << 4 | digit;
    }
  } else {
    for (unsigned digit; (digit = (unsigned char)*c - '0') < 10; c++)
      x = x * 10 + digit;
  }
  if (c == start || c - start > 10 || x > UINT32_MAX || !ends[(unsigned char)*c])
    fault("a number that isn't valid");
  *value = (uint32_t)x;
  return c;
}

static const char *number_or_dash(const char *c, int *value) {
  uint32_t x = 0;
  c = skip_blanks(c);
  if (c[0] == '-' && ends[(unsigned char)c[1]]) {
    *value = -1;
    return c + 1;
  }
  c = number(c, &x);
  *value = (int)x;
  return c;
}

static const char *name(const char *c, uint64_t *out, unsigned *length) {
  char bytes[16] = {0};
  unsigned n = 0;
  c = skip_blanks(c);
  while (!ends[(unsigned char)c[n]]) {
    if (n == 16)
      fault("a name that isn't valid");
    bytes[n] = c[n];
    n++;
  }
  if (!n)
    fault("a name that isn't there");
  memcpy(out, bytes, 16);
  *length = n;
  return c + n;
}

static uint8_t *entry_of(const uint64_t *key) {
  uint64_t hash = (key[0] ^ key[1] * 0x9E3779B97F4A7C15u) * 0xD6E8FEB86659FD93u;
  for (uint8_t at = (uint8_t)(hash >> 56);; at++) {
    unsigned entry = name_table[at];
    if (!entry || (names[entry - 1][0] == key[0] && names[entry - 1][1] == key[1]))
      return &name_table[at];
  }
}

static const char *node_of(const char *c, struct node **n) {
  uint64_t key[2];
  unsigned length;
  c = name(c, key, &length);
  unsigned entry = *entry_of(key);
  if (!entry)
    fault("a name that isn't declared");
  *n = &nodes[entry - 1];
  return c;
}

static const char *end_of(const char *c, struct node **n, uint32_t *p) {
  c = number(node_of(c, n), p);
  if (*p >= (*n)->ports)
    fault("a port that isn't there");
  return c;
}

static bool is_word(const char *c, size_t length, const char *word) {
  return strlen(word) == length && !memcmp(c, word, length);
}

static const char *coins_of(const char *c, struct node *n) {
  for (c = skip_blanks(c); *c == '0' || *c == '1'; c++) {
    if (n->coin_count == 64)
      fault("too many coins");
    n->coin_bits |= (uint64_t)(*c == '1') << n->coin_count++;
  }
  if (!n->coin_count || !ends[(unsigned char)*c])
    fault("coins that aren't valid");
  return c;
}

/* Takes a key and its value. */
static const char *key_of(const char *c, struct node *n, uint32_t *seed) {
  const char *word = c;
  uint32_t value;
  c = end_of_word(c);
  size_t many = (size_t)(c - word);
  if (is_word(word, many, "coins"))
    return coins_of(c, n);
  if (is_word(word, many, "kind")) /* it changes no text */
    return end_of_word(skip_blanks(c));
  c = number(c, &value);
  if (is_word(word, many, "contender"))
    n->contender = value;
  else if (is_word(word, many, "seed"))
    *seed = value;
  else if (is_word(word, many, "speed"))
    n->speed = (uint8_t)value;
  else if (is_word(word, many, "link"))
    n->link = value;
  else if (is_word(word, many, "force"))
    n->next_force = value;
  else if (is_word(word, many, "power"))
    n->power = (uint8_t)value;
  else if (is_word(word, many, "gap"))
    n->next_gap = (uint8_t)value;
  else if (is_word(word, many, "gapreset"))
    n->resets_gap = value;
  else if (is_word(word, many, "hold"))
    n->hold = (uint16_t)value;
  else if (is_word(word, many, "short"))
    n->shorter = (uint16_t)value;
  else if (is_word(word, many, "long"))
    n->longer = (uint16_t)value;
  else
    fault("a key that isn't known");
  return c;
}

/* A node that has just powered on, but for its keys. */
static void power_on(struct node *n, uint32_t ports) {
  memset(n, 0, offsetof(struct node, out));
  n->ports = (uint8_t)ports;
  n->node_bit = 1ull << (n - nodes);
  n->list = lists[n - nodes];
  n->link = n->initiated = true;
  n->speed = 2;
  n->next_gap = 63;
  n->parent = n->id = -1;
  n->low = 0xFFFF;
  n->hold = (uint16_t)least.hold;
  n->shorter = (uint16_t)least.shorter;
  n->longer = (uint16_t)least.longer;
}

static const char *declare(const char *c) {
  unsigned length;
  uint32_t seed = (uint32_t)node_count, ports;
  uint64_t key[2];
  struct node *n = &nodes[node_count];
  if (node_count == NODES)
    fault("too many nodes");
  c = name(c, key, &length);
  uint8_t *entry = entry_of(key);
  if (*entry)
    fault("a name that is declared twice");
  c = number(c, &ports);
  if (ports < 1 || ports > PORTS)
    fault("a node that isn't valid");
  while (wheel_mask < least.timeout || wheel_mask < least.hold)
    wheel_mask = 2 * wheel_mask + 1;
  memcpy(names[node_count], key, 16);
  name_lengths[node_count] = (uint8_t)length;
  *entry = (uint8_t)++node_count;
  power_on(n, ports);
  for (c = skip_blanks(c); !ends[(unsigned char)*c]; c = skip_blanks(c))
    c = key_of(c, n, &seed);
  if (n->hold > wheel_mask || n->longer > wheel_mask || n->shorter > wheel_mask)
    fault("a time that isn't valid");
  n->gap = n->next_gap;
  n->force = n->next_force;
  if (n->resets_gap)
    n->next_gap = 63;
  n->coin_state = pcg_start(seed);
  arm(n, n->hold);
  return c;
}

static const char *times_of(const char *c) {
  uint32_t ns;
  const char *word = skip_blanks(c);
  c = end_of_word(word);
  bool newer = is_word(word, (size_t)(c - word), "1394a");
  if (!newer && !is_word(word, (size_t)(c - word), "1394-1995"))
    fault("a standard that isn't known");
  c = number(c, &ns);
  if (!standard_times(newer, delay, ns))
    fault("times that don't suit");
  return c;
}

static const char *pull_of(const char *c) {
  struct node *n;
  uint32_t port;
  c = end_of(c, &n, &port);
  pull(n, port);
  return c;
}

static const char *plug_of(const char *c) {
  struct node *a, *b;
  uint32_t p, q;
  c = end_of(c, &a, &p);
  c = end_of(c, &b, &q);
  plug(a, p, b, q);
  return c;
}

static const char *hold_of(const char *c) {
  struct node *n;
  uint32_t port, count;
  c = end_of(c, &n, &port);
  c = number(c, &count);
  hold(n, port, count);
  return c;
}

static const char *config_of(const char *c) {
  struct node *n;
  int root, gap;
  c = node_of(c, &n);
  c = number_or_dash(c, &root);
  c = number_or_dash(c, &gap);
  configure(n, root, gap);
  return c;
}

static const char *turn_of(const char *c) {
  uint32_t count;
  c = number(c, &count);
  run_turns(count);
  return c;
}

static const char *reset_of(const char *c) {
  struct node *n;
  c = node_of(c, &n);
  disturb(n);
  return c;
}

static const char *delay_of(const char *c) {
  uint32_t d;
  c = number(c, &d);
  if (d < 1 || d > 16 || node_count)
    fault("a delay that isn't valid");
  usual_times(delay = d);
  return c;
}

/* Whether a line begins with a word, and what stands after it. */
#define IS(word) (!memcmp(c, word, sizeof word - 1) && ends[(unsigned char)c[sizeof word - 1]])
#define REST(word) (c + sizeof word - 1)

static const char *command(const char *c) {
  if (IS("turn"))
    return turn_of(REST("turn"));
  if (IS("plug"))
    return plug_of(REST("plug"));
  if (IS("pull"))
    return pull_of(REST("pull"));
  if (IS("node"))
    return declare(REST("node"));
  if (IS("hold"))
    return hold_of(REST("hold"));
  if (IS("reset"))
    return reset_of(REST("reset"));
  if (IS("config"))
    return config_of(REST("config"));
  if (IS("delay"))
    return delay_of(REST("delay"));
  if (IS("times") && !node_count)
    return times_of(REST("times"));
  if (!IS("settle"))
    fault("a command that isn't known");
  settle();
  return REST("settle");
}

void run(void) {
  for (int i = 0; i < node_count; i++)
    disarm(&nodes[i]);
  memset(name_table, 0, sizeof name_table);
  node_count = wire_count = free_count = 0;
  turns = line_number = 0;
  soon[0] = soon[1] = 0;
  next = UINT32_MAX;
  wheel_mask = 4095;
  usual_times(delay = 4);
  begin_reports();
  const char *c = script, *end = script + script_length;
  while (c < end) {
    line_number++;
    c = skip_blanks(c);
    if (*c == '#') {
      c = memchr(c, '\n', (size_t)(end - c));
      if (!c)
        break;
    } else if (ends[(unsigned char)*c] != 2) {
      c = skip_blanks(command(c));
    }
    if (*c == '\r')
      c++;
    if (c < end && *c != '\n')
      fault("a line that isn't valid");
    c++;
  }
  line_number++;
  settle();
}
