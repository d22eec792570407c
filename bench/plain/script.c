/* The script, line by line. It has to be valid; what isn't known ends the program with status 1. */
#include "bus.h"

#include <stdlib.h>
#include <string.h>

const char program_name[] = "plain";

struct node nodes[NODES];
uint32_t lists[NODES][LIST];
struct wire wires[NODES * PORTS];
uint32_t signals[NODES * PORTS][2][ROOM];
int16_t far[NODES * PORTS];
char names[NODES][17];
int node_count;
uint32_t delay, turns;

static char work[SCRIPT + 1];

static uint32_t number(const char *word) {
  return (uint32_t)strtoul(word, NULL, word[0] == '0' && word[1] == 'x' ? 16 : 10);
}

static int number_or_dash(const char *word) {
  return strcmp(word, "-") ? (int)number(word) : -1;
}

static int node_of(const char *name) {
  for (int i = 0; i < node_count; i++)
    if (!strcmp(names[i], name))
      return i;
  stop(1, "a name that isn't declared");
  return -1;
}

static int end_of(const char *name, const char *port) {
  int node = node_of(name);
  uint32_t p = number(port);
  if (p >= nodes[node].ports)
    stop(1, "a port that isn't there");
  return node * PORTS + (int)p;
}

static void set_coins(struct node *n, const char *word) {
  n->coin_count = (uint8_t)strlen(word);
  for (int k = 0; k < n->coin_count; k++)
    n->coin_bits |= (uint64_t)(word[k] == '1') << k;
}

static void set_key(struct node *n, const char *key, const char *word) {
  uint32_t value = number(word);
  if (!strcmp(key, "speed"))
    n->speed = (uint8_t)value;
  else if (!strcmp(key, "link"))
    n->link = value;
  else if (!strcmp(key, "contender"))
    n->contender = value;
  else if (!strcmp(key, "force"))
    n->next_force = value;
  else if (!strcmp(key, "power"))
    n->power = (uint8_t)value;
  else if (!strcmp(key, "gap"))
    n->next_gap = (uint8_t)value;
  else if (!strcmp(key, "gapreset"))
    n->resets_gap = value;
  else if (!strcmp(key, "hold"))
    n->hold = (uint16_t)value;
  else if (!strcmp(key, "short"))
    n->shorter = (uint16_t)value;
  else if (!strcmp(key, "long"))
    n->longer = (uint16_t)value;
  else if (!strcmp(key, "seed"))
    n->coin_state = pcg_start(value);
  else if (!strcmp(key, "coins"))
    set_coins(n, word);
  else if (strcmp(key, "kind")) /* `kind` changes no text */
    stop(1, "a key that isn't known");
}

static void declare(char **words, int count) {
  uint32_t ports = number(words[2]);
  struct node *n = &nodes[node_count];
  if (node_count == NODES || ports < 1 || ports > PORTS || strlen(words[1]) > 16)
    stop(1, "a node that isn't valid");
  n->coin_state = pcg_start((uint32_t)node_count);
  strcpy(names[node_count++], words[1]);
  n->ports = (uint8_t)ports;
  n->link = n->initiated = true;
  n->speed = 2;
  n->next_gap = 63;
  n->parent = n->id = -1;
  n->shows[IDLE] = 0xFFFF;
  n->hold = (uint16_t)least.hold;
  n->shorter = (uint16_t)least.shorter;
  n->longer = (uint16_t)least.longer;
  for (int i = 3; i + 1 < count; i += 2)
    set_key(n, words[i], words[i + 1]);
  n->gap = n->next_gap;
  n->force = n->next_force;
  if (n->resets_gap)
    n->next_gap = 63;
}

static void times_of(const char *standard, const char *nanoseconds) {
  if (!standard_times(!strcmp(standard, "1394a"), delay, number(nanoseconds)))
    stop(1, "times that don't suit");
}

static void command(char **words, int count) {
  const char *word = words[0];
  if (!strcmp(word, "node") && count >= 3)
    declare(words, count);
  else if (!strcmp(word, "delay") && count == 2)
    usual_times(delay = number(words[1]));
  else if (!strcmp(word, "times") && count == 3)
    times_of(words[1], words[2]);
  else if (!strcmp(word, "plug") && count == 5)
    plug(end_of(words[1], words[2]), end_of(words[3], words[4]));
  else if (!strcmp(word, "pull") && count == 3)
    pull(end_of(words[1], words[2]));
  else if (!strcmp(word, "reset") && count == 2)
    disturb(&nodes[node_of(words[1])]);
  else if (!strcmp(word, "turn") && count == 2)
    run_turns(number(words[1]));
  else if (!strcmp(word, "hold") && count == 4)
    wires[far_of(end_of(words[1], words[2]))].held_until = turns + number(words[3]);
  else if (!strcmp(word, "settle") && count == 1)
    settle();
  else if (!strcmp(word, "config") && count == 4)
    configure(node_of(words[1]), number_or_dash(words[2]), number_or_dash(words[3]));
  else
    stop(1, "a command that isn't known");
}

void run(void) {
  enum { WORDS = 32 };
  char *words[WORDS];
  memset(nodes, 0, sizeof nodes);
  memset(wires, 0, sizeof wires);
  memset(far, -1, sizeof far);
  node_count = 0;
  usual_times(delay = 4);
  turns = 0;
  begin_reports();
  memcpy(work, script, script_length);
  for (char *line = work, *end = work + script_length, *next; line < end; line = next + 1) {
    int count = 0;
    next = memchr(line, '\n', (size_t)(end - line));
    if (!next)
      next = end;
    *next = 0;
    if (next > line && next[-1] == '\r')
      next[-1] = 0;
    for (char *c = strtok(line, " \t"); c && count < WORDS; c = strtok(NULL, " \t"))
      words[count++] = c;
    if (count && words[0][0] != '#')
      command(words, count);
  }
  settle();
}
