/* The wires, and what is sent over them. */
#include "bus.h"

#include <stdlib.h>
#include <string.h>

void *enlarge(void *old, size_t size) {
  void *new = realloc(old, size);
  if (!new)
    stop(2, "no memory");
  return new;
}

NEVER void append(struct excess *to, const uint32_t *signals, uint32_t count) {
  if (!count)
    return;
  if (to->count + count > to->room) {
    to->room = 2 * (to->count + count);
    to->signals = enlarge(to->signals, to->room * sizeof *signals);
  }
  memcpy(to->signals + to->count, signals, count * sizeof *signals);
  to->count += count;
}

void put(struct wire *w, uint32_t s) {
  unsigned side = turns & 1;
  struct lane *lane = &w->lanes[side];
  uint32_t count = lane->count;
  if (count < ROOM) {
    lane->signals[count] = s;
    lane->count = count + 1;
  } else {
    append(&w->excess[side], &s, 1);
  }
  w->node->coming[side] |= w->bit;
  soon[side] |= w->node_bit;
}

/* The last signal that was sent in this turn, if there is one. */
static inline uint32_t *last_of(struct wire *w) {
  unsigned side = turns & 1;
  struct lane *lane = &w->lanes[side];
  struct excess *excess = &w->excess[side];
  if (lane->count == 0)
    return NULL;
  return lane->count < ROOM || !excess->count ? &lane->signals[lane->count - 1] : &excess->signals[excess->count - 1];
}

void put_all(struct node *n, unsigned set, uint32_t s) {
  EACH(p, set)
    put(n->out[p], s);
}

/* A second Reset at once does what the first did. */
void put_resets(struct node *n) {
  EACH(p, n->connected) {
    struct wire *w = n->out[p];
    uint32_t *last = last_of(w);
    if (!last || *last != RESET)
      put(w, RESET);
  }
}

/* Sends on what is new in the list of a node. */
void put_run(struct node *n, unsigned set, uint32_t at, uint32_t many) {
  EACH(p, set) {
    struct wire *w = n->out[p];
    uint32_t *last = last_of(w);
    if (last && IS_RUN(*last) && RUN_AT(*last) + RUN_MANY(*last) == at)
      *last += many << 16;
    else
      put(w, RUN(at, many));
  }
}

struct wire *new_wire(struct node *from, struct node *to, unsigned port) {
  struct wire *w = free_count ? free_wires[--free_count] : &wires[wire_count++];
  w->node = to;
  w->node_bit = to->node_bit;
  w->bit = (uint16_t)(1u << port);
  w->list = from->list;
  w->held_until = 0;
  w->lanes[0].count = w->lanes[1].count = 0;
  w->excess[0].count = w->excess[1].count = w->late.count = 0;
  return w;
}
