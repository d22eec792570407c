/* The nodes: what each does at a signal and at a tick of its clock. */
#include "bus.h"

static void put(struct node *n, unsigned p, uint32_t s) {
  int end = far[(n - nodes) * PORTS + p];
  struct wire *w = &wires[end];
  uint32_t *line = signals[end][w->side];
  if (w->count == 0) {
    w->born = turns;
    nodes[end / PORTS].coming |= 1u << end % PORTS;
  } else if (s == RESET && line[w->count - 1] == RESET) {
    return; /* a second Reset at once does what the first did */
  } else if (w->count == ROOM) {
    stop(2, "a wire is full");
  }
  line[w->count++] = s;
}

static void put_all(struct node *n, unsigned set, uint32_t s) {
  EACH(p, set)
    put(n, p, s);
}

void show(struct node *n, unsigned p, int level) {
  for (int i = 0; i < LEVELS; i++)
    n->shows[i] &= ~(1u << p);
  n->shows[level] |= 1u << p;
}

static void keep(struct node *n, uint32_t q) {
  if (n->length < LIST) {
    lists[n - nodes][n->length++] = q;
    n->zeros += IS_PACKET_ZERO(q);
  }
}

void enter_reset(struct node *n, bool cause) {
  n->phase = RESET_START;
  n->timer = n->wait = 0;
  n->child = n->asked = n->named = 0;
  n->parent = n->id = -1;
  n->granted = n->timed_out = false;
  n->length = n->zeros = 0;
  n->draws = n->first_draws = 0;
  n->initiated = cause;
  n->gap = n->next_gap;
  n->force = n->next_force;
  if (n->resets_gap)
    n->next_gap = 63;
  put_all(n, n->connected, RESET);
}

static unsigned draw(struct node *n) {
  unsigned coin;
  if (n->coin_count == 0) {
    coin = pcg_word(&n->coin_state) >> 31;
  } else {
    coin = n->coin_bits >> n->coin_place & 1;
    n->coin_place = (n->coin_place + 1) % n->coin_count;
  }
  if (n->draws < 32)
    n->first_draws |= coin << n->draws;
  if (n->draws < 65535)
    n->draws++;
  return coin;
}

int slots_of(const struct node *n) {
  return n->ports <= 3 ? 3 : n->ports <= 11 ? 11 : 16;
}

/* The self-ID packets of a node whose parent port is `up`. */
int group(const struct node *n, int id, int up, uint32_t *out) {
  int slots = slots_of(n), count = 1;
  uint32_t s[PORTS] = {0}, head = 2u << 30 | (uint32_t)id << 24;
  for (int p = 0; p < n->ports; p++)
    s[p] = !(n->connected >> p & 1) ? 1 : p == up ? 2 : 3;
  out[0] = head | (uint32_t)n->link << 22 | n->gap << 16 | n->speed << 14 | n->contender << 11 | n->power << 8 |
           s[0] << 6 | s[1] << 4 | s[2] << 2 | n->initiated << 1 | (slots > 3);
  if (slots > 3) {
    out[count] = head | 1u << 23 | (slots > 11);
    for (int p = 3; p < 11; p++)
      out[count] |= s[p] << (16 - 2 * (p - 3));
    count++;
  }
  if (slots > 11) {
    out[count] = head | 1u << 23 | 1u << 20;
    for (int p = 11; p < 16; p++)
      out[count] |= s[p] << (16 - 2 * (p - 11));
    count++;
  }
  return count;
}

void take(struct node *n, unsigned p, uint32_t s) {
  if (IS_PACKET(s)) {
    if (n->phase >= SELF_IDENT) {
      keep(n, s);
      put_all(n, n->connected & ~(1u << p), s);
    }
  } else if (s == RESET) {
    show(n, p, RESET);
    if (n->phase != RESET_START)
      enter_reset(n, false);
  } else if (s < LEVELS) {
    show(n, p, (int)s);
  } else if (n->phase == SELF_IDENT) {
    if (s == GRANT && n->parent == (int)p)
      n->granted = true;
    else if (s == DONE)
      n->named |= n->child & 1u << p;
  }
}

static void identify(struct node *n) {
  uint32_t packets[3];
  unsigned unnamed = n->child & ~n->named;
  if (!n->granted)
    return;
  if (unnamed) {
    unsigned lowest = unnamed & -unnamed;
    if (!(n->asked & lowest)) {
      n->asked |= lowest;
      put_all(n, lowest, GRANT);
    }
    return;
  }
  int count = group(n, n->zeros, n->parent, packets);
  n->phase = READY;
  n->id = (int8_t)n->zeros;
  for (int i = 0; i < count; i++) {
    keep(n, packets[i]);
    put_all(n, n->connected, packets[i]);
  }
  if (n->parent >= 0)
    put(n, (unsigned)n->parent, DONE);
}

/* All ports but one show Parent, or all of them do: the node knows its children. */
static void start_tree(struct node *n) {
  unsigned others = n->connected & ~n->shows[PARENT];
  if (!others || (!(others & (others - 1)) && (!n->force || n->timer >= least.forced))) {
    n->phase = CHILD_SHAKE;
    n->timed_out = false;
    n->child = n->connected & ~others;
    put_all(n, n->child, CHILD);
    if (others) {
      n->parent = (int8_t)__builtin_ctz(others);
      put(n, (unsigned)n->parent, PARENT);
    }
  } else if (n->timer >= least.timeout) {
    n->timed_out = true;
  }
}

/* The parent answers, or asks too. */
static void shake_with_parent(struct node *n) {
  if (n->parent < 0) {
    n->phase = SELF_IDENT;
    n->granted = true;
  } else if (n->shows[CHILD] >> n->parent & 1) {
    n->phase = SELF_IDENT;
    put(n, (unsigned)n->parent, IDLE);
  } else if (n->shows[PARENT] >> n->parent & 1) {
    n->phase = CONTEND;
    n->timer = 0;
    n->wait = draw(n) ? n->longer : n->shorter;
    put(n, (unsigned)n->parent, IDLE);
  }
}

static void contend(struct node *n) {
  if (n->timer < n->wait)
    return;
  if (n->shows[PARENT] >> n->parent & 1) {
    n->phase = CHILD_SHAKE;
    n->child |= 1u << n->parent;
    put(n, (unsigned)n->parent, CHILD);
    n->parent = -1;
  } else {
    n->phase = PARENT_SHAKE;
    put(n, (unsigned)n->parent, PARENT);
  }
}

void tick(struct node *n) {
  if (n->timer < 65535)
    n->timer++;
  switch (n->phase) {
  case RESET_START:
    if (n->timer >= n->hold) {
      n->phase = RESET_WAIT;
      n->timer = 0;
      put_all(n, n->connected, IDLE);
    }
    break;
  case RESET_WAIT:
    if (!(n->connected & (n->shows[RESET] | n->shows[CHILD]))) {
      n->phase = TREE_START;
      n->timer = 0;
    }
    break;
  case TREE_START:
    start_tree(n);
    break;
  case CHILD_SHAKE:
    if (!(n->child & ~n->shows[IDLE]))
      n->phase = PARENT_SHAKE;
    break;
  case PARENT_SHAKE:
    shake_with_parent(n);
    break;
  case CONTEND:
    contend(n);
    break;
  case SELF_IDENT:
    identify(n);
    break;
  }
}
