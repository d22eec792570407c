/* The plain simulation: what an engineer would write by hand. Every node takes a step in every turn, the world stands in
 * fixed arrays, and no turn is skipped however idle it is. */
#ifndef PLAIN_BUS_H
#define PLAIN_BUS_H

#include "../program.h"

enum { ROOM = 512 }; /* signals on one wire: a list and what else the turns of a delay can bring */

/* Signals. A number with its top bit set is a self-ID packet; only those travel. */
enum { RESET, IDLE, PARENT, CHILD, LEVELS, GRANT = LEVELS, DONE };
#define IS_PACKET(s) ((s) >> 31)
#define IS_PACKET_ZERO(q) (!((q) >> 23 & 1))

enum { RESET_START, RESET_WAIT, TREE_START, CHILD_SHAKE, PARENT_SHAKE, CONTEND, SELF_IDENT, READY };

/* Sets of ports are bits. Each port stands in exactly one of the four sets `shows`. */
struct node {
  uint8_t phase;
  bool granted, timed_out, force;
  int8_t parent, id; /* -1: none */
  uint16_t timer, wait;
  uint16_t connected, child, asked, named;
  uint16_t shows[LEVELS];
  uint16_t coming; /* ports whose wire to here has signals */
  uint16_t given;  /* of these, the ports whose signals are taken in this turn */
  uint16_t hold, shorter, longer;
  uint16_t length, zeros; /* of the list: quadlets, and packet zeros among them */
  uint32_t draws, first_draws, changed;
  bool next_force, initiated, link, contender, resets_gap;
  uint8_t gap, next_gap, speed, power, ports, coin_count, coin_place;
  uint64_t coin_bits, coin_state;
};

/* The wire to a port. All its signals are given at once, so the age of the oldest is enough, and
 * two sides are enough to keep what is given apart from what is sent in the same turn. */
struct wire {
  uint32_t born;       /* turns done when the oldest signal was sent */
  uint32_t held_until; /* turns done at which it isn't held any more */
  uint16_t count, given;
  uint8_t side;
};

extern struct node nodes[NODES];
extern uint32_t lists[NODES][LIST];
extern struct wire wires[NODES * PORTS]; /* by the end they lead to */
extern uint32_t signals[NODES * PORTS][2][ROOM];
extern int16_t far[NODES * PORTS]; /* the other end of the cable, or -1 */
extern char names[NODES][17];
extern int node_count;

extern uint32_t turns, delay;

#define EACH(p, set)                                                                                                   \
  for (unsigned left_ = (set), p; left_ && (p = (unsigned)__builtin_ctz(left_), true); left_ &= left_ - 1)

/* nodes.c */
void show(struct node *n, unsigned p, int level);
void enter_reset(struct node *n, bool cause);
void take(struct node *n, unsigned p, uint32_t s);
void tick(struct node *n);
int slots_of(const struct node *n);
int group(const struct node *n, int id, int up, uint32_t *out);

/* turns.c */
void run_turns(uint32_t count);
void disturb(struct node *n);
void plug(int a, int b);
void pull(int a);
int far_of(int end);
uint64_t component(int node);
void configure(int from, int root, int gap);

/* reports.c */
void begin_reports(void);
void settle(void);

#endif
