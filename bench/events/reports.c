/* The reports: the parts of the bus, and how each ended. */
#include "bus.h"

#include <string.h>

enum { CHUNK = 1 << 15 }; /* of text, more than a component's */

static char *text, *text_at, *text_end;
static uint32_t reports;

void begin_reports(void) {
  text_at = text;
  reports = 0;
}

const char *text_of_run(size_t *length) {
  *length = (size_t)(text_at - text);
  return text;
}

static void room_for_text(void) {
  if (text_end - text_at < CHUNK) {
    size_t length = (size_t)(text_at - text), room = 2 * (size_t)(text_end - text) + 2 * CHUNK;
    text = enlarge(text, room);
    text_at = text + length;
    text_end = text + room;
  }
}

#define SAY(words) (memcpy(text_at, words, sizeof words - 1), text_at += sizeof words - 1)

static void say_number(uint32_t x) {
  char digits[10], *at = digits + sizeof digits;
  if (x < 10) {
    *text_at++ = (char)('0' + x);
    return;
  }
  if (x < 100) {
    *text_at++ = (char)('0' + x / 10);
    *text_at++ = (char)('0' + x % 10);
    return;
  }
  do
    *--at = (char)('0' + x % 10);
  while (x /= 10);
  size_t length = (size_t)(digits + sizeof digits - at);
  memcpy(text_at, at, length);
  text_at += length;
}

static void say_name(unsigned i) {
  *text_at++ = ' ';
  memcpy(text_at, names[i], 16);
  text_at += name_lengths[i];
}

static void say_names(uint64_t set) {
  EACH_NODE(i, set)
    say_name((unsigned)i);
  *text_at++ = '\n';
}

/* What is left when nodes with fewer than two cables to what is left are taken away. */
static uint64_t core_of(uint64_t set) {
  uint8_t cables[NODES] = {0};
  uint64_t leaves = 0;
  unsigned ends = 0;
  EACH_NODE(i, set) {
    cables[i] = (uint8_t)__builtin_popcount(nodes[i].connected);
    ends += cables[i];
    leaves |= (uint64_t)(cables[i] < 2) << i;
  }
  if (ends / 2 < (unsigned)__builtin_popcountll(set))
    return 0; /* a tree */
  while (leaves) {
    int i = __builtin_ctzll(leaves);
    leaves &= leaves - 1;
    set &= ~(1ull << i);
    EACH(p, nodes[i].connected) {
      unsigned far = (unsigned)(nodes[i].out[p]->node - nodes);
      if (set >> far & 1 && --cables[far] < 2)
        leaves |= 1ull << far;
    }
  }
  return set;
}

struct walk {
  int count, order[NODES], place[NODES], up[NODES];
};

static void walk_from(struct walk *w, unsigned node, int up) {
  const struct node *n = &nodes[node];
  EACH(p, up < 0 ? n->connected : n->connected & ~(1u << up)) {
    const struct wire *out = n->out[p];
    walk_from(w, (unsigned)(out->node - nodes), __builtin_ctz(out->bit));
  }
  w->up[node] = up;
  w->place[node] = w->count;
  w->order[w->count++] = (int)node;
}

/* Whether every node of the set agrees on the tree of the cables, seen from its only root. */
static bool find_tree(uint64_t set, struct walk *w) {
  uint32_t wanted[3 * NODES];
  int root = -1, length = 0;
  EACH_NODE(i, set)
    if (nodes[i].parent < 0) {
      if (root >= 0)
        return false;
      root = (int)i;
    }
  if (root < 0)
    return false;
  w->count = 0;
  walk_from(w, (unsigned)root, -1);
  for (int id = 0; id < w->count; id++) {
    int i = w->order[id];
    if (nodes[i].id != id)
      return false;
    length += group(&nodes[i], id, w->up[i], wanted + length);
  }
  EACH_NODE(i, set)
    if (nodes[i].length != length || memcmp(nodes[i].list, wanted, sizeof *wanted * (size_t)length))
      return false;
  return true;
}

static void say_digit(unsigned digit) {
  *text_at++ = (char)('0' + digit);
}

static void say_ports(const struct walk *w, int i) {
  const struct node *n = &nodes[i];
  SAY(" ports");
  for (int p = 0; p < n->ports; p++) {
    if (!(n->connected >> p & 1)) {
      SAY(" .");
    } else {
      *text_at++ = ' ';
      *text_at++ = p == w->up[i] ? '^' : 'v';
      say_number((uint32_t)w->place[n->out[p]->node - nodes]);
    }
  }
  for (int p = n->ports; p < slots_of(n); p++)
    SAY(" -");
}

static void say_node(const struct walk *w, int id) {
  const struct node *n = &nodes[w->order[id]];
  SAY("node ");
  say_number((uint32_t)id);
  SAY(" link ");
  say_digit(n->link);
  SAY(" gap ");
  say_number(n->gap);
  SAY(" speed ");
  say_digit(n->speed);
  SAY(" contender ");
  say_digit(n->contender);
  SAY(" power ");
  say_digit(n->power);
  SAY(" initiated ");
  say_digit(n->initiated);
  say_ports(w, w->order[id]);
  SAY(" name");
  say_name((unsigned)w->order[id]);
  *text_at++ = '\n';
}

static void say_tree(const struct walk *w) {
  int elected = -1;
  SAY("tree root");
  say_name((unsigned)w->order[w->count - 1]);
  *text_at++ = '\n';
  for (int id = 0; id < w->count; id++) {
    const struct node *n = &nodes[w->order[id]];
    say_node(w, id);
    if (n->link && n->contender)
      elected = id;
  }
  SAY("nodes ");
  say_number((uint32_t)w->count);
  SAY(" root ");
  say_number((uint32_t)w->count - 1);
  SAY(" irm ");
  if (elected < 0)
    SAY("none");
  else
    say_number((uint32_t)elected);
  *text_at++ = '\n';
}

/* Two neighbours that drew 32 equal coins. */
static void say_contention(uint64_t set) {
  EACH_NODE(i, set) {
    const struct node *a = &nodes[i];
    uint64_t pairs = 0;
    EACH(p, a->draws >= 32 ? a->connected : 0) {
      const struct node *b = a->out[p]->node;
      if (b > a && b->draws >= 32 && a->first_draws == b->first_draws)
        pairs |= 1ull << (b - nodes);
    }
    if (pairs) {
      SAY("contention");
      say_name((unsigned)i);
      say_name((unsigned)__builtin_ctzll(pairs));
      *text_at++ = '\n';
      return;
    }
  }
  stop(2, "a component that isn't settled");
}

void settle(void) {
  uint64_t seen = 0;
  struct walk w;
  run_turns(turns_to_settle((uint32_t)node_count, delay));
  room_for_text();
  SAY("report ");
  say_number(++reports);
  SAY(" turn ");
  say_number(turns);
  *text_at++ = '\n';
  for (unsigned first = 0; first < (unsigned)node_count; first++) {
    if (seen >> first & 1)
      continue;
    uint64_t set = component(first), core = core_of(set);
    uint32_t rounds = 0, changed = 0;
    seen |= set;
    EACH_NODE(i, set) {
      rounds = nodes[i].draws > rounds ? nodes[i].draws : rounds;
      changed = nodes[i].changed > changed ? nodes[i].changed : changed;
    }
    room_for_text();
    SAY("component rounds ");
    say_number(rounds);
    SAY(" changed ");
    say_number(changed);
    SAY(" nodes");
    say_names(set);
    if (core) {
      SAY("loop");
      say_names(core);
    } else if (find_tree(set, &w)) {
      say_tree(&w);
    } else {
      say_contention(set);
    }
  }
}
