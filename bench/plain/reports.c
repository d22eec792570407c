/* The reports: the parts of the bus, and how each ended. */
#include "bus.h"

#include <stdarg.h>
#include <stdio.h>
#include <string.h>

enum { TEXT = 8 << 20 };

static char text[TEXT];
static size_t text_length;
static uint32_t reports;

void begin_reports(void) {
  text_length = reports = 0;
}

const char *text_of_run(size_t *length) {
  *length = text_length;
  return text;
}

static void say(const char *form, ...) {
  va_list args;
  va_start(args, form);
  int n = vsnprintf(text + text_length, TEXT - text_length, form, args);
  va_end(args);
  if (n < 0 || (size_t)n >= TEXT - text_length)
    stop(2, "the text is too long");
  text_length += (size_t)n;
}

static void say_names(uint64_t set) {
  for (int i = 0; i < node_count; i++)
    if (set >> i & 1)
      say(" %s", names[i]);
  say("\n");
}

/* What is left when nodes with fewer than two cables to what is left are taken away. */
static uint64_t core_of(uint64_t set) {
  for (uint64_t before = 0; before != set;) {
    before = set;
    for (int i = 0; i < node_count; i++) {
      int cables = 0;
      EACH(p, nodes[i].connected)
        cables += (int)(set >> far[i * PORTS + (int)p] / PORTS & 1);
      if (cables < 2)
        set &= ~(1ull << i);
    }
  }
  return set;
}

struct walk {
  int count, order[NODES], place[NODES], up[NODES];
};

static void walk_from(struct walk *w, int node, int up) {
  EACH(p, nodes[node].connected)
    if ((int)p != up) {
      int end = far[node * PORTS + (int)p];
      walk_from(w, end / PORTS, end % PORTS);
    }
  w->up[node] = up;
  w->place[node] = w->count;
  w->order[w->count++] = node;
}

/* Whether every node of the set agrees on the tree of the cables, seen from its only root. */
static bool find_tree(uint64_t set, struct walk *w) {
  static uint32_t wanted[4 * NODES];
  int root = -1, length = 0;
  for (int i = 0; i < node_count; i++)
    if (set >> i & 1 && nodes[i].parent < 0) {
      if (root >= 0)
        return false;
      root = i;
    }
  if (root < 0)
    return false;
  w->count = 0;
  walk_from(w, root, -1);
  for (int id = 0; id < w->count; id++) {
    int i = w->order[id];
    if (nodes[i].id != id)
      return false;
    length += group(&nodes[i], id, w->up[i], wanted + length);
  }
  for (int id = 0; id < w->count; id++) {
    int i = w->order[id];
    if (nodes[i].length != length || memcmp(lists[i], wanted, sizeof *wanted * (size_t)length))
      return false;
  }
  return true;
}

static void say_tree(const struct walk *w) {
  int elected = -1;
  say("tree root %s\n", names[w->order[w->count - 1]]);
  for (int id = 0; id < w->count; id++) {
    int i = w->order[id];
    const struct node *n = &nodes[i];
    say("node %d link %d gap %d speed %d contender %d power %d initiated %d ports", id, n->link, n->gap, n->speed,
        n->contender, n->power, n->initiated);
    for (int p = 0; p < slots_of(n); p++) {
      if (p >= n->ports)
        say(" -");
      else if (!(n->connected >> p & 1))
        say(" .");
      else
        say(" %c%d", p == w->up[i] ? '^' : 'v', w->place[far[i * PORTS + p] / PORTS]);
    }
    say(" name %s\n", names[i]);
    if (n->link && n->contender)
      elected = id;
  }
  say("nodes %d root %d irm ", w->count, w->count - 1);
  if (elected < 0)
    say("none\n");
  else
    say("%d\n", elected);
}

/* Two neighbours that drew 32 equal coins. */
static void say_contention(uint64_t set) {
  for (int a = 0; a < node_count; a++)
    for (int b = a + 1; b < node_count; b++)
      EACH(p, set >> a & 1 ? nodes[a].connected : 0)
        if (far[a * PORTS + (int)p] / PORTS == b && nodes[a].draws >= 32 && nodes[b].draws >= 32 &&
            nodes[a].first_draws == nodes[b].first_draws) {
          say("contention %s %s\n", names[a], names[b]);
          return;
        }
  stop(2, "a component that isn't settled");
}

void settle(void) {
  uint64_t seen = 0;
  struct walk w;
  run_turns(turns_to_settle((uint32_t)node_count, delay));
  say("report %u turn %u\n", ++reports, turns);
  for (int first = 0; first < node_count; first++) {
    if (seen >> first & 1)
      continue;
    uint64_t set = component(first), core = core_of(set);
    uint32_t rounds = 0, changed = 0;
    seen |= set;
    for (int i = 0; i < node_count; i++)
      if (set >> i & 1) {
        rounds = nodes[i].draws > rounds ? nodes[i].draws : rounds;
        changed = nodes[i].changed > changed ? nodes[i].changed : changed;
      }
    say("component rounds %u changed %u nodes", rounds, changed);
    say_names(set);
    if (core) {
      say("loop");
      say_names(core);
    } else if (find_tree(set, &w)) {
      say_tree(&w);
    } else {
      say_contention(set);
    }
  }
}
