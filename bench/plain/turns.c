/* The turns, and what happens between two of them. */
#include "bus.h"

#include <string.h>

/* Takes from the wires to a node what is given in this turn. */
static void give(struct node *n) {
  EACH(p, n->coming) {
    struct wire *w = &wires[(n - nodes) * PORTS + p];
    if (turns < w->held_until && turns + 1 - w->born < (uint32_t)delay)
      continue;
    w->given = w->count;
    w->count = 0;
    w->side = !w->side;
    n->given |= 1u << p;
  }
  n->coming &= ~n->given;
}

static void receive(struct node *n) {
  EACH(p, n->given) {
    int end = (int)((n - nodes) * PORTS + p);
    const uint32_t *line = signals[end][!wires[end].side];
    for (int i = 0; i < wires[end].given; i++)
      take(n, p, line[i]);
  }
  n->given = 0;
}

/* Within one turn a list grows or becomes empty, so its length tells whether it changed. */
static void turn(void) {
  struct node *end = nodes + node_count;
  for (struct node *n = nodes; n < end; n++)
    if (n->coming)
      give(n);
  turns++;
  for (struct node *n = nodes; n < end; n++) {
    unsigned before = n->length;
    if (n->given)
      receive(n);
    tick(n);
    if (n->length != before)
      n->changed = turns;
  }
}

void run_turns(uint32_t count) {
  while (count--)
    turn();
}

void disturb(struct node *n) {
  if (n->length)
    n->changed = turns;
  enter_reset(n, true);
}

static void connect(int end, bool connected) {
  struct node *n = &nodes[end / PORTS];
  unsigned p = (unsigned)end % PORTS;
  n->connected = (n->connected & ~(1u << p)) | connected << p;
  show(n, p, connected ? RESET : IDLE);
  disturb(n);
}

void plug(int a, int b) {
  if (far[a] >= 0 || far[b] >= 0 || a / PORTS == b / PORTS)
    stop(1, "a cable that can't be plugged");
  far[a] = (int16_t)b;
  far[b] = (int16_t)a;
  connect(a, true);
  connect(b, true);
}

int far_of(int end) {
  if (far[end] < 0)
    stop(1, "an end that isn't plugged");
  return far[end];
}

void pull(int a) {
  int ends[2] = {a, far_of(a)};
  for (int i = 0; i < 2; i++) {
    far[ends[i]] = -1;
    memset(&wires[ends[i]], 0, sizeof wires[0]);
    nodes[ends[i] / PORTS].coming &= ~(1u << ends[i] % PORTS);
  }
  connect(ends[0], false);
  connect(ends[1], false);
}

uint64_t component(int node) {
  uint64_t set = 1ull << node, done = 0;
  while (set != done) {
    int i = __builtin_ctzll(set & ~done);
    done |= 1ull << i;
    EACH(p, nodes[i].connected)
      set |= 1ull << far[i * PORTS + (int)p] / PORTS;
  }
  return set;
}

void configure(int from, int root, int gap) {
  uint64_t set = component(from);
  for (int i = 0; i < node_count; i++) {
    if (!(set >> i & 1))
      continue;
    if (root >= 0)
      nodes[i].next_force = nodes[i].id == root;
    if (gap >= 0)
      nodes[i].next_gap = (uint8_t)gap;
  }
  disturb(&nodes[from]);
}
