/* The turns in which something happens, and what happens between two of them. */
#include "bus.h"

/* Takes what comes over a wire that may be held, or for which its lane had no room, if it is given in
 * this turn. */
static NEVER void hear_slowly(struct node *n, struct wire *w, unsigned side) {
  if (!w->late.count)
    w->born = turns - 1;
  append(&w->late, w->lanes[side].signals, w->lanes[side].count);
  append(&w->late, w->excess[side].signals, w->excess[side].count);
  w->lanes[side].count = w->excess[side].count = 0;
  if (turns - 1 < w->held_until && turns - w->born < delay) {
    n->coming[!side] |= w->bit;
    soon[!side] |= w->node_bit;
    return;
  }
  if (turns - 1 >= w->held_until)
    n->held &= (uint16_t)~w->bit;
  hear(n, w, w->late.signals, w->late.count);
  w->late.count = 0;
}

static inline void step(struct node *n, unsigned side) {
  unsigned coming = n->coming[side], before = n->length;
  n->coming[side] = 0;
  for (; coming; coming &= coming - 1) {
    struct wire *w = n->in[__builtin_ctz(coming)];
    struct lane *lane = &w->lanes[side];
    uint32_t count = lane->count;
    if (n->held & w->bit || count == ROOM) {
      hear_slowly(n, w, side);
      continue;
    }
    lane->count = 0;
    hear(n, w, lane->signals, count);
  }
  if (n->phase != READY && is_ready(n, turns)) {
    act(n);
    if (is_ready(n, turns + 1))
      soon[!side] |= n->node_bit;
  }
  if (n->length != before)
    n->changed = turns;
}

/* The nodes whose timers end in this turn. A node that is forced waits on for its timeout. */
static NEVER uint64_t take_due(void) {
  uint64_t due = wheel[turns & wheel_mask];
  wheel[turns & wheel_mask] = 0;
  EACH_NODE(i, due) {
    struct node *n = &nodes[i];
    n->due = 0;
    armed--;
    if (n->phase == TREE_START && turns - n->zero < least.timeout)
      arm(n, n->zero + least.timeout);
  }
  next = next_due(turns + 1);
  return due;
}

void run_turns(uint32_t count) {
  uint32_t end = turns + count;
  while (turns < end) {
    if (!soon[turns & 1]) {
      if (next > end) {
        turns = end;
        return;
      }
      turns = next - 1;
    }
    unsigned side = turns & 1;
    uint64_t active = soon[side];
    soon[side] = 0;
    if (++turns == next)
      active |= take_due();
    for (; active; active &= active - 1)
      step(&nodes[__builtin_ctzll(active)], side);
  }
}

void disturb(struct node *n) {
  if (n->length)
    n->changed = turns;
  enter_reset(n, turns, true);
}

void plug(struct node *a, unsigned p, struct node *b, unsigned q) {
  if (a->connected >> p & 1 || b->connected >> q & 1 || a == b)
    stop(1, "a cable that can't be plugged");
  a->out[p] = b->in[q] = new_wire(a, b, q);
  b->out[q] = a->in[p] = new_wire(b, a, p);
  for (int i = 0; i < 2; i++, a = b, p = q) {
    a->connected |= (uint16_t)(1u << p);
    a->low &= (uint16_t) ~(1u << p);
    a->high &= (uint16_t) ~(1u << p);
    disturb(a);
  }
}

void pull(struct node *a, unsigned p) {
  if (!(a->connected >> p & 1))
    stop(1, "an end that isn't plugged");
  struct wire *in[2] = {a->in[p], a->out[p]};
  for (int i = 0; i < 2; i++) {
    struct node *n = in[i]->node;
    unsigned rest = ~(unsigned)in[i]->bit;
    n->coming[0] &= (uint16_t)rest;
    n->coming[1] &= (uint16_t)rest;
    n->held &= (uint16_t)rest;
    n->connected &= (uint16_t)rest;
    n->low |= in[i]->bit;
    n->high &= (uint16_t)rest;
    free_wires[free_count++] = in[i];
  }
  disturb(in[0]->node);
  disturb(in[1]->node);
}

void hold(struct node *n, unsigned p, uint32_t count) {
  if (!(n->connected >> p & 1))
    stop(1, "an end that isn't plugged");
  struct wire *w = n->out[p];
  w->held_until = turns + count;
  w->node->held |= w->bit;
}

uint64_t component(unsigned node) {
  uint64_t set = 1ull << node, todo = set;
  while (todo) {
    const struct node *n = &nodes[__builtin_ctzll(todo)];
    uint64_t near = 0;
    EACH(p, n->connected)
      near |= n->out[p]->node_bit;
    todo = (todo & (todo - 1)) | (near & ~set);
    set |= near;
  }
  return set;
}

void configure(struct node *from, int root, int gap) {
  EACH_NODE(i, component((unsigned)(from - nodes))) {
    if (root >= 0)
      nodes[i].next_force = nodes[i].id == root;
    if (gap >= 0)
      nodes[i].next_gap = (uint8_t)gap;
  }
  disturb(from);
}
