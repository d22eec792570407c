/* The simulation by events: what an engineer would write by hand who wants it fast. A node takes a step only in a turn in
 * which a signal reaches it, its timer ends, or its last step left something to be done; all other turns are passed over.
 * Sets of nodes and ports are bits, what a node shows at its ports is two bits a port, and a run of packets is kept and
 * sent on as a whole. */
#ifndef EVENTS_BUS_H
#define EVENTS_BUS_H

#include "../program.h"

enum {
  WHEEL = 1 << 16, /* slots; no time is longer */
  ROOM = 7         /* signals that a lane has room for */
};

/* Signals. With the top bit set it is a self-ID packet, or a run of packets that stand in the list of
 * the node that sends: where, and how many. A list isn't written anew before what was sent is given,
 * since a node holds a reset for longer than any signal is under way. */
enum { RESET, IDLE, PARENT, CHILD, LEVELS, GRANT = LEVELS, DONE };
#define RUN(at, many) (3u << 30 | (uint32_t)(many) << 16 | (uint32_t)(at))
#define IS_RUN(s) ((s) >> 30 == 3)
#define RUN_AT(s) ((s)&0xFFFF)
#define RUN_MANY(s) ((s) >> 16 & 0x3FFF)

enum { RESET_START, RESET_WAIT, TREE_START, CHILD_SHAKE, PARENT_SHAKE, CONTEND, SELF_IDENT, READY };

struct lane {
  uint32_t count, signals[ROOM];
};

struct excess {
  uint32_t count, room, *signals;
};

/* The wire to a port. What is sent in a turn stands in one lane and is given in the next turn from
 * there, while the other lane takes what is sent then. What finds no room in the lane stands behind it
 * in `excess`, and what is held back in `late`. */
struct wire {
  struct lane lanes[2];
  uint64_t node_bit; /* the end that it leads to: a bit of the node, the node, the port */
  struct node *node;
  const uint32_t *list; /* of the node that sends */
  uint16_t bit;
  uint32_t held_until, born; /* turns done: when it isn't held any more, when the oldest was sent */
  struct excess excess[2], late;
};

struct node {
  /* these are set anew by a reset, up to `low` */
  uint8_t phase;
  bool granted, timed_out, initiated;
  int8_t parent, id; /* -1: none */
  uint16_t length;   /* of the list */
  uint16_t child, asked, named, wait;
  uint32_t draws, first_draws;
  uint16_t low, high; /* the level that each port shows, a bit of it in each */
  uint16_t connected;
  uint16_t held;      /* the ports whose wires may be held */
  uint16_t coming[2]; /* the ports to which something is under way, by lanes */
  uint16_t hold;
  uint8_t gap, force;
  uint8_t next_gap, next_force;
  uint32_t zero; /* turns done when the timer was 0 */
  uint32_t due;  /* the turn in which the timer ends, or 0 */
  uint64_t node_bit;
  uint32_t *list;
  uint32_t changed;
  uint16_t shorter, longer;
  bool link, contender, resets_gap;
  uint8_t speed, power, ports, coin_count, coin_place;
  uint64_t coin_bits, coin_state;
  struct wire *out[PORTS], *in[PORTS]; /* the wires from here and to here */
};

extern struct node nodes[NODES];
extern uint32_t lists[NODES][LIST + 4]; /* they are copied by fours */
extern struct wire wires[NODES * PORTS], *free_wires[NODES * PORTS];
extern int wire_count, free_count;
extern uint64_t names[NODES][2];
extern uint8_t name_lengths[NODES];
extern int node_count;
extern uint32_t delay, turns;
extern uint64_t soon[2]; /* the nodes that have a part in the next turn, by sides */

#define EACH(p, set)                                                                                                   \
  for (unsigned left_ = (set), p; left_ && (p = (unsigned)__builtin_ctz(left_), true); left_ &= left_ - 1)
#define EACH_NODE(i, set)                                                                                              \
  for (uint64_t nodes_ = (set), i; nodes_ && (i = (uint64_t)__builtin_ctzll(nodes_), true); nodes_ &= nodes_ - 1)

#define NEVER __attribute__((noinline))

/* timers.c */
extern uint64_t wheel[WHEEL];
extern uint32_t wheel_mask, armed, next; /* before turn `next` no timer ends */
void disarm(struct node *n);
void arm(struct node *n, uint32_t when);
uint32_t next_due(uint32_t from);

/* wires.c */
void *enlarge(void *old, size_t size);
void append(struct excess *to, const uint32_t *signals, uint32_t count);
void put(struct wire *w, uint32_t s);
void put_all(struct node *n, unsigned set, uint32_t s);
void put_resets(struct node *n);
void put_run(struct node *n, unsigned set, uint32_t at, uint32_t many);
struct wire *new_wire(struct node *from, struct node *to, unsigned port);

/* nodes.c */
void enter_reset(struct node *n, uint32_t zero, bool cause);
int slots_of(const struct node *n);
int group(const struct node *n, int id, int up, uint32_t *out);
void hear(struct node *n, const struct wire *w, const uint32_t *s, uint32_t count);
bool is_ready(const struct node *n, uint32_t t);
void act(struct node *n);

/* turns.c */
void run_turns(uint32_t count);
void disturb(struct node *n);
void plug(struct node *a, unsigned p, struct node *b, unsigned q);
void pull(struct node *a, unsigned p);
void hold(struct node *n, unsigned p, uint32_t count);
uint64_t component(unsigned node);
void configure(struct node *from, int root, int gap);

/* reports.c */
void begin_reports(void);
void settle(void);

#endif
