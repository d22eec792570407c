/* The nodes: what each does where it hears something, and where it is ready for more. */
#include "bus.h"

#include <string.h>

/* Puts packets into the list of a node, while there is room, and sends all of them on. */
static inline void relay(struct node *n, unsigned set, const uint32_t *run, uint32_t many) {
  uint32_t at = n->length, kept = at + many <= LIST ? many : LIST - at;
  uint32_t *to = n->list + at;
  for (uint32_t i = 0; i < kept; i += 4)
    memcpy(to + i, run + i, 4 * sizeof *to);
  n->length = (uint16_t)(at + kept);
  if (kept)
    put_run(n, set, at, kept);
  for (; kept < many; kept++)
    put_all(n, set, run[kept]);
}

NEVER void enter_reset(struct node *n, uint32_t zero, bool cause) {
  n->phase = RESET_START;
  n->granted = n->timed_out = false;
  n->initiated = cause;
  n->parent = n->id = -1;
  n->length = 0;
  n->child = n->asked = n->named = n->wait = 0;
  n->draws = n->first_draws = 0;
  n->gap = n->next_gap;
  n->force = n->next_force;
  if (n->resets_gap)
    n->next_gap = 63;
  n->zero = zero;
  arm(n, zero + n->hold);
  put_resets(n);
}

static unsigned draw(struct node *n) {
  unsigned coin;
  if (n->coin_count == 0) {
    coin = pcg_word(&n->coin_state) >> 31;
  } else {
    coin = n->coin_bits >> n->coin_place & 1;
    if (++n->coin_place == n->coin_count)
      n->coin_place = 0;
  }
  if (n->draws < 32)
    n->first_draws |= coin << n->draws;
  if (n->draws < 65535)
    n->draws++;
  return coin;
}

int slots_of(const struct node *n) {
  return n->ports <= 3 ? 3 : n->ports <= 11 ? 11 : 16;
}

/* Bit k of a set becomes bit 30 - 2k. */
static uint32_t spread(uint32_t x) {
  x = (x << 8 | x) & 0x00FF00FF;
  x = (x << 4 | x) & 0x0F0F0F0F;
  x = (x << 2 | x) & 0x33333333;
  x = (x << 1 | x) & 0x55555555;
  x = x >> 16 | x << 16;
  x = (x >> 8 & 0x00FF00FF) | (x & 0x00FF00FF) << 8;
  x = (x >> 4 & 0x0F0F0F0F) | (x & 0x0F0F0F0F) << 4;
  return (x >> 2 & 0x33333333) | (x & 0x33333333) << 2;
}

/* The self-ID packets of a node whose parent port is `up`: a port is 1 if it isn't connected, 2 if it
 * is the parent's, and else 3. */
int group(const struct node *n, int id, int up, uint32_t *out) {
  int slots = slots_of(n);
  uint32_t head = 2u << 30 | (uint32_t)id << 24, all = (1u << n->ports) - 1;
  uint32_t s = spread(n->connected) << 1 | spread(up < 0 ? all : all & ~(1u << up));
  out[0] = head | (uint32_t)n->link << 22 | (uint32_t)n->gap << 16 | (uint32_t)n->speed << 14 |
           (uint32_t)n->contender << 11 | (uint32_t)n->power << 8 | (s >> 24 & 0xFC) | (uint32_t)n->initiated << 1 |
           (slots > 3);
  if (slots == 3)
    return 1;
  out[1] = head | 1u << 23 | (s >> 8 & 0x3FFFC) | (slots > 11);
  if (slots == 11)
    return 2;
  out[2] = head | 1u << 23 | 1u << 20 | (s << 8 & 0x3FF00);
  return 3;
}

/* The number of nodes that have named themselves in a list: its packets zero. */
static int named_in(const uint32_t *list, unsigned length) {
  uint64_t others = 0, two;
  unsigned i = 0;
  for (; i + 2 <= length; i += 2) {
    memcpy(&two, list + i, sizeof two);
    others += two >> 23 & 0x0000000100000001;
  }
  if (i < length)
    others += list[i] >> 23 & 1;
  return (int)(length - (uint32_t)(others + (others >> 32)));
}

void hear(struct node *n, const struct wire *w, const uint32_t *s, uint32_t count) {
  unsigned bit = w->bit;
  for (uint32_t k = 0; k < count; k++) {
    uint32_t x = s[k];
    if (x >> 31) {
      if (n->phase < SELF_IDENT)
        continue;
      if (IS_RUN(x)) {
        relay(n, n->connected & ~bit, w->list + RUN_AT(x), RUN_MANY(x));
      } else {
        uint32_t packet[4] = {x};
        relay(n, n->connected & ~bit, packet, 1);
      }
    } else if (x < LEVELS) {
      n->low = (uint16_t)(x & 1 ? n->low | bit : n->low & ~bit);
      n->high = (uint16_t)(x & 2 ? n->high | bit : n->high & ~bit);
      if (x == RESET && n->phase != RESET_START)
        enter_reset(n, turns - 1, false);
    } else if (n->phase == SELF_IDENT) {
      if (x == DONE)
        n->named |= n->child & bit;
      else if (n->parent >= 0 && 1u << n->parent == bit)
        n->granted = true;
    }
  }
}

/* Whether a node does something in turn `t` if it hears nothing in it. */
bool is_ready(const struct node *n, uint32_t t) {
  unsigned others, unnamed;
  switch (n->phase) {
  case RESET_START:
    return t - n->zero >= n->hold;
  case RESET_WAIT: /* no port shows Reset or Child */
    return !(n->connected & ~(n->low ^ n->high));
  case TREE_START:
    others = n->connected & (n->low | ~n->high);
    return !others || (!(others & (others - 1)) && (!n->force || t - n->zero >= least.forced)) ||
           (!n->timed_out && t - n->zero >= least.timeout);
  case CHILD_SHAKE: /* the children show Idle */
    return !(n->child & (~n->low | n->high));
  case PARENT_SHAKE: /* the parent shows Parent or Child */
    return n->parent < 0 || n->high >> n->parent & 1;
  case CONTEND:
    return t - n->zero >= n->wait;
  case SELF_IDENT:
    unnamed = n->child & ~n->named;
    return n->granted && (!unnamed || !(n->asked & unnamed & -unnamed));
  }
  return false;
}

static void identify(struct node *n) {
  uint32_t packets[4] = {0};
  unsigned unnamed = n->child & ~n->named;
  if (unnamed) {
    n->asked |= unnamed & -unnamed;
    put_all(n, unnamed & -unnamed, GRANT);
    return;
  }
  int id = named_in(n->list, n->length);
  uint32_t count = (uint32_t)group(n, id, n->parent, packets);
  n->phase = READY;
  n->id = (int8_t)id;
  relay(n, n->connected, packets, count);
  if (n->parent >= 0)
    put(n->out[n->parent], DONE);
}

/* The node knows its children, or its time is out. */
static void start_tree(struct node *n) {
  unsigned others = n->connected & (n->low | ~n->high);
  if (others && ((others & (others - 1)) || (n->force && turns - n->zero < least.forced))) {
    n->timed_out = true;
    return;
  }
  disarm(n);
  n->phase = CHILD_SHAKE;
  n->timed_out = false;
  n->child = (uint16_t)(n->connected & ~others);
  put_all(n, n->child, CHILD);
  if (others) {
    n->parent = (int8_t)__builtin_ctz(others);
    put(n->out[n->parent], PARENT);
  }
}

/* The parent answers, or asks too. */
static void shake_with_parent(struct node *n) {
  if (n->parent < 0) {
    n->phase = SELF_IDENT;
    n->granted = true;
    return;
  }
  put(n->out[n->parent], IDLE);
  if (n->low >> n->parent & 1) {
    n->phase = SELF_IDENT;
  } else {
    n->phase = CONTEND;
    n->zero = turns;
    n->wait = draw(n) ? n->longer : n->shorter;
    arm(n, turns + n->wait);
  }
}

static void contend(struct node *n) {
  if (n->high >> n->parent & ~n->low >> n->parent & 1) {
    n->phase = CHILD_SHAKE;
    n->child |= (uint16_t)(1u << n->parent);
    put(n->out[n->parent], CHILD);
    n->parent = -1;
  } else {
    n->phase = PARENT_SHAKE;
    put(n->out[n->parent], PARENT);
  }
}

/* What a node that is ready does. */
void act(struct node *n) {
  switch (n->phase) {
  case RESET_START:
    n->phase = RESET_WAIT;
    put_all(n, n->connected, IDLE);
    break;
  case RESET_WAIT:
    n->phase = TREE_START;
    n->zero = turns;
    arm(n, turns + (n->force && least.forced < least.timeout ? least.forced : least.timeout));
    break;
  case TREE_START:
    start_tree(n);
    break;
  case CHILD_SHAKE:
    n->phase = PARENT_SHAKE;
    break;
  case PARENT_SHAKE:
    shake_with_parent(n);
    break;
  case CONTEND:
    contend(n);
    break;
  case SELF_IDENT:
    identify(n);
    break;
  }
}
