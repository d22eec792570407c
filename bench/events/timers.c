/* The timers: a wheel with a slot for each turn ahead, and a bit for each slot in use. */
#include "bus.h"

uint64_t wheel[WHEEL];
uint32_t wheel_mask, armed, next;

static uint64_t marks[WHEEL / 64];

void disarm(struct node *n) {
  if (n->due) {
    wheel[n->due & wheel_mask] &= ~n->node_bit;
    n->due = 0;
    armed--;
  }
}

void arm(struct node *n, uint32_t when) {
  uint32_t at = when & wheel_mask;
  disarm(n);
  n->due = when;
  armed++;
  wheel[at] |= n->node_bit;
  marks[at / 64] |= 1ull << at % 64;
  if (when < next)
    next = when;
}

/* The first turn from `from` on in which a timer ends. Marks of empty slots are wiped on the way. */
uint32_t next_due(uint32_t from) {
  uint32_t word = (from & wheel_mask) / 64;
  uint64_t set = marks[word] & ~0ull << from % 64;
  if (!armed)
    return UINT32_MAX;
  for (;; set = marks[word]) {
    for (; set; set &= set - 1) {
      uint32_t at = word * 64 + (uint32_t)__builtin_ctzll(set);
      if (wheel[at])
        return from + ((at - from) & wheel_mask);
      marks[word] &= ~(1ull << at % 64);
    }
    word = (word + 1) & wheel_mask / 64;
  }
}
