/* busconf: FireWire cable buses, read, planned and run by functions that are proved to meet their contracts.
 *
 * C89 to C23 and C++98 to C++20. Link with -lbusconf; docs/LIBRARY.md says what the proof covers at this border, and has
 * a table of the names that changed.
 *
 * For every call:
 * - A length counts the elements at the pointer before it, and no call reads or writes past a length. Where it is 0, the
 *   pointer isn't looked at and may be null. Every other pointer isn't null and is aligned for its type.
 * - The places that one call is given don't overlap, and nothing else writes or reads them while it runs.
 *   They stay the caller's: no call keeps a pointer, and none hands memory out.
 * - No call keeps state, so each may run in any thread at any time. A call that says `takes memory`
 *   takes it by malloc and frees it before it returns: it isn't for signal handlers. The others take none.
 * - What an answer doesn't say is written stays as it was.
 */
#ifndef BUSCONF_H
#define BUSCONF_H

#include <stddef.h>
#include <stdint.h>

#ifdef __cplusplus
extern "C" {
#endif

/* ---- The version
 *
 * BUSCONF_VERSION is the version of this header, and busconf_version that of the library that a program runs with: a
 * million times the first part, a thousand times the second, and the third. Until 1.0, names, records and numbers may
 * change when the second part rises. The number in the soname, libbusconf.so.0, rises when older programs no longer run.
 */
#define BUSCONF_VERSION 3000 /* 0.3.0 */

/* The version of the library. */
uint32_t busconf_version(void);

/* ---- What a call answers */

enum busconf_status {
  BUSCONF_OK = 0,           /* the call did what it is for */
  BUSCONF_REFUSED = 1,      /* what was read has a fault, which is told */
  BUSCONF_NO_MEMORY = 2,    /* there was no memory */
  BUSCONF_TOO_SHORT = 3,    /* a place is too short for what is told; the length that it needs is told */
  BUSCONF_NO_STANDARD = 4,  /* the standard is neither 1995 nor 2000 */
  BUSCONF_NO_CANDIDATE = 5, /* no node is eligible as root: none has an active link and contends */
  BUSCONF_INCOMPLETE = 6,   /* the list has to go on before it can be a bus tree's */
  BUSCONF_OUT_OF_RANGE = 7, /* a number is past what it may be: a channel 63, units 4915, an ID 62 */
  BUSCONF_TOO_LONG = 8,     /* the script has more than 1,048,576 bytes */
  BUSCONF_NO_NAME = 9       /* no node may have the name: it is 1 to 16 letters a to z, digits and _, a letter first */
};

/* ---- By which standard nodes show themselves */

enum busconf_standard {
  BUSCONF_IEEE1995 = 1995, /* IEEE Std 1394-1995: 3, 11, 19 or 27 slots in up to four packets */
  BUSCONF_IEEE2000 = 2000  /* IEEE Std 1394a-2000: 3, 11 or 16 slots in up to three packets */
};

/* ---- Records */

/* A bus has at most so many nodes, */
#define BUSCONF_MAX_NODES 63u
/* and a node so many slots. */
#define BUSCONF_MAX_SLOTS 27u
/* Where there is no node, this stands for its ID: 63 means all nodes. */
#define BUSCONF_ID_NONE 63u

/* What a slot leads to: the two bits of its port status. */
enum busconf_slot_status {
  BUSCONF_SLOT_ABSENT = 0,    /* the node has no such port */
  BUSCONF_SLOT_UNPLUGGED = 1, /* no node is at the other end */
  BUSCONF_SLOT_UP = 2,        /* to the parent */
  BUSCONF_SLOT_DOWN = 3       /* to a child */
};

struct busconf_slot {
  uint8_t status; /* an enum busconf_slot_status */
  uint8_t peer;   /* the ID of the node at the other end, or BUSCONF_ID_NONE */
};

struct busconf_node {
  uint8_t id;         /* 0 to 62, in the order of self identify */
  uint8_t link;       /* L: 1 where the link is active, else 0 */
  uint8_t gap;        /* gap_cnt, 0 to 63 */
  uint8_t speed;      /* sp, 0 to 3: S100, S200, S400, and 3 as later standards use it */
  uint8_t contender;  /* c: 1 where it may become isochronous resource manager, else 0 */
  uint8_t power;      /* pwr, the power class, 0 to 7 */
  uint8_t initiated;  /* i: 1 where the node initiated the bus reset, else 0 */
  uint8_t slot_count; /* 3, 11, 16, 19 or 27 */
  struct busconf_slot slots[BUSCONF_MAX_SLOTS]; /* those behind the last are absent */
};

struct busconf_bus {
  uint8_t nodes;   /* 1 to 63 */
  uint8_t root;    /* the ID of the root, which is the last */
  uint8_t manager; /* the ID of the isochronous resource manager, or BUSCONF_ID_NONE */
};

/* The kinds of faults of a list or a capture. `at` counts quadlets of the list from 0. */
enum busconf_fault_kind {
  BUSCONF_FAULT_NOT_SELF_ID = 1,      /* the quadlet is no self-ID packet */
  BUSCONF_FAULT_WRONG_ID = 2,         /* the packet has the phy_ID `found` in place of `wanted` */
  BUSCONF_FAULT_BAD_ORDER = 3,        /* the packet isn't the next of its node's group */
  BUSCONF_FAULT_CUT = 4,              /* the list ends where a further packet has to stand */
  BUSCONF_FAULT_TWO_PARENTS = 5,      /* more than one slot of the node leads to a parent */
  BUSCONF_FAULT_EMPTY = 6,            /* the list has no quadlet */
  BUSCONF_FAULT_TOO_FEW_CHILDREN = 7, /* the node wants `wanted` children, and `found` trees wait */
  BUSCONF_FAULT_TREES_LEFT = 8,       /* the root wants `wanted` children, and `found` trees wait */
  BUSCONF_FAULT_AFTER_ROOT = 9,       /* the list goes on behind the root */
  BUSCONF_FAULT_NO_ROOT = 10,         /* the list ends before a root */
  BUSCONF_FAULT_TOO_MANY = 11,        /* the list goes on behind 63 nodes */
  /* of a capture alone; `at` counts pairs from 0 */
  BUSCONF_FAULT_BAD_LENGTH = 12,      /* the bytes end within this pair */
  BUSCONF_FAULT_BAD_INVERSE = 13      /* the first pair whose second quadlet isn't the inverse of its first */
};

struct busconf_fault {
  size_t at;      /* the place */
  uint8_t kind;   /* an enum busconf_fault_kind */
  uint8_t found;  /* where the kind has it, else 0 */
  uint8_t wanted; /* where the kind has it, else 0 */
};

/* The kinds of PHY packets (IEEE 1394a-2000, PHY packets). */
enum busconf_packet_kind {
  BUSCONF_PACKET_CONFIG = 1,    /* PHY configuration packet: phy_id (root_ID), force (R), set_gap (T), gap, rest */
  BUSCONF_PACKET_LINK_ON = 2,   /* link-on packet: phy_id, rest */
  BUSCONF_PACKET_SELF_ZERO = 3, /* self-ID packet zero: phy_id, link, gap, speed, delay, contender, power, p0, p1, p2,
                                   initiated, more */
  BUSCONF_PACKET_SELF_MORE = 4, /* further self-ID packet: phy_id, n, kept, fields, r, more */
  BUSCONF_PACKET_EXTENDED = 5,  /* extended PHY packet, whole in rest: its top two bits are 00, neither R nor T is set */
  BUSCONF_PACKET_OTHER = 6      /* no packet that is defined, whole in rest: its top two bits are 11 */
};

struct busconf_packet {
  uint32_t rest;     /* 16 bits of a configuration packet, 24 of a link-on packet, else the whole quadlet */
  uint16_t fields;   /* eight port fields of two bits, the first at the top */
  uint8_t kind;      /* an enum busconf_packet_kind */
  uint8_t phy_id;    /* 0 to 63 */
  uint8_t force;     /* R, 0 or 1 */
  uint8_t set_gap;   /* T, 0 or 1 */
  uint8_t gap;       /* gap_cnt, 0 to 63 */
  uint8_t link;      /* L, 0 or 1 */
  uint8_t speed;     /* sp, 0 to 3 */
  uint8_t delay;     /* the two bits behind sp, 0 to 3 */
  uint8_t contender; /* c, 0 or 1 */
  uint8_t power;     /* pwr, 0 to 7 */
  uint8_t p0;        /* port fields, 0 to 3 */
  uint8_t p1;
  uint8_t p2;
  uint8_t initiated; /* i, 0 or 1 */
  uint8_t more;      /* m, 0 or 1 */
  uint8_t n;         /* 0 to 7 */
  uint8_t kept;      /* two reserved bits, 0 to 3 */
  uint8_t r;         /* 0 or 1 */
};

/* A cable of a bus, or none: then both IDs are BUSCONF_ID_NONE, and the other numbers 0. */
struct busconf_cable {
  uint8_t parent;     /* the ID of the node nearer to the root */
  uint8_t port;       /* its port */
  uint8_t child;      /* the ID of the node further from the root */
  uint8_t child_port; /* its port */
  uint8_t speed;      /* the less of both nodes' speed codes, where 3 counts as 2 */
};

/* What differs between two buses, an old one and a new one. */
enum busconf_change_kind {
  BUSCONF_CHANGE_WENT = 1,      /* the node old_id of the old bus isn't in the new one; it hung on old_cable */
  BUSCONF_CHANGE_CAME = 2,      /* the node new_id of the new bus wasn't in the old one; it hangs on new_cable */
  BUSCONF_CHANGE_MOVED = 3,     /* the node hung on old_cable, which isn't in the new bus, and hangs on new_cable, which
                                   wasn't in the old one; there may be one of them alone */
  BUSCONF_CHANGE_LINK = 4,      /* it said old_value of its link, and says new_value: 1 active, else 0 */
  BUSCONF_CHANGE_GAP = 5,       /* the same of its gap count */
  BUSCONF_CHANGE_SPEED = 6,     /* of its speed code */
  BUSCONF_CHANGE_CONTENDER = 7, /* of whether it contends, 1 or 0 */
  BUSCONF_CHANGE_POWER = 8,     /* of its power class */
  BUSCONF_CHANGE_ROOT = 9,      /* the root was the node old_id of the old bus and is new_id of the new one, another one */
  BUSCONF_CHANGE_MANAGER = 10   /* the same of the isochronous resource manager, which there may not be */
};

struct busconf_change {
  uint8_t kind;                   /* an enum busconf_change_kind */
  uint8_t old_id;                 /* the node's ID in the old bus, or BUSCONF_ID_NONE */
  uint8_t new_id;                 /* its ID in the new bus, or BUSCONF_ID_NONE */
  uint8_t old_value;              /* where the kind has it, else 0 */
  uint8_t new_value;              /* where the kind has it, else 0 */
  struct busconf_cable old_cable; /* of the old bus, where the kind has it, else none; none at the root too */
  struct busconf_cable new_cable; /* of the new bus, where the kind has it, else none; none at the root too */
};

/* Which of two lists is meant. */
enum busconf_list {
  BUSCONF_LIST_OLD = 1,
  BUSCONF_LIST_NEW = 2
};

struct busconf_plan {
  uint32_t packet; /* the first quadlet of the PHY configuration packet that makes the root root */
  uint8_t root;    /* the ID of the root, an eligible node of least reach, the highest of these */
  uint8_t hops;    /* the cables on the longest path of the bus */
  uint8_t gap;     /* the gap count for them */
  uint8_t reach;   /* the root's reach: its greatest distance to a node, in cables */
};

/* ---- Reading a list
 *
 * A list is the first quadlets of the self-ID packets of a bus, in the order in which they came, each in the
 * byte order of the machine. A call that takes a list takes `standard`, BUSCONF_IEEE1995 or BUSCONF_IEEE2000,
 * and answers, beside what is said of it,
 * - BUSCONF_REFUSED, where no bus tree of the standard emits the list: `fault` is its one fault;
 * - BUSCONF_NO_MEMORY or BUSCONF_NO_STANDARD.
 */

/* Reads a list. BUSCONF_OK: `bus` is the bus and nodes[0] to nodes[bus->nodes - 1] its nodes, by ID.
 * BUSCONF_TOO_SHORT: `bus` is the bus, but it has more nodes than the `room` at `nodes`.
 * A bus has BUSCONF_MAX_NODES nodes at most. Takes memory. */
enum busconf_status busconf_read(const uint32_t *quads, size_t count, uint32_t standard, struct busconf_node *nodes,
                                 size_t room, struct busconf_bus *bus, struct busconf_fault *fault);

/* Reads the bytes of a capture (docs/CAPTURES.md): of each packet its quadlet and then the bitwise inverse of it, each
 * with its highest byte first. It is busconf_read of the first quadlets, and before that BUSCONF_REFUSED with the faults
 * BUSCONF_FAULT_BAD_LENGTH and BUSCONF_FAULT_BAD_INVERSE. Takes memory. */
enum busconf_status busconf_read_capture(const uint8_t *bytes, size_t count, uint32_t standard,
                                         struct busconf_node *nodes, size_t room, struct busconf_bus *bus,
                                         struct busconf_fault *fault);

/* Tells the line of a fault as `busconf read` writes it, in ASCII with its line feed and with no byte 0 behind it.
 * BUSCONF_OK: the first `*needed` bytes at `place` are the line. BUSCONF_TOO_SHORT: `*needed` is how many they are; no
 * line has more than 128. BUSCONF_REFUSED: there is no such kind. The line of BUSCONF_FAULT_EMPTY has pair 0, whatever
 * the record's place. */
enum busconf_status busconf_fault_text(const struct busconf_fault *fault, char *place, size_t room, size_t *needed);

/* Tells the sentence of a list's fault: what was found and what was wanted, in ASCII with its line feed and with no
 * byte 0 behind it. `quads` is the list that has the fault; of it the sentence has the quadlet at the fault's place and
 * the one before. `standard` is the one by which the list was read, BUSCONF_IEEE1995 or BUSCONF_IEEE2000. BUSCONF_OK:
 * the first `*needed` bytes at `place` are the sentence. BUSCONF_TOO_SHORT: `*needed` is how many they are; no sentence
 * has more than 160. BUSCONF_REFUSED: the kind isn't BUSCONF_FAULT_NOT_SELF_ID to BUSCONF_FAULT_TOO_MANY, whatever the
 * standard. BUSCONF_NO_STANDARD. */
enum busconf_status busconf_sentence(const uint32_t *quads, size_t count, uint32_t standard,
                                     const struct busconf_fault *fault, char *place, size_t room, size_t *needed);

/* Tells the sentence of a capture's fault, as `busview packets` writes it, and by BUSCONF_IEEE1995 as `busview packets
 * --1995`. `bytes` are those of the capture that has the fault. As busconf_sentence, and with BUSCONF_FAULT_BAD_LENGTH
 * and BUSCONF_FAULT_BAD_INVERSE besides, and BUSCONF_NO_MEMORY. Takes memory. */
enum busconf_status busconf_sentence_capture(const uint8_t *bytes, size_t count, uint32_t standard,
                                             const struct busconf_fault *fault, char *place, size_t room,
                                             size_t *needed);

/* Tells the hops of a list's bus, 0 to 62: the cables on its longest path. Takes memory. */
enum busconf_status busconf_hops(const uint32_t *quads, size_t count, uint32_t standard, uint8_t *hops,
                                 struct busconf_fault *fault);

/* The gap count for so many hops, 0 to 63: that of the standard's table, and 63 past its end. */
uint8_t busconf_gap_for(uint8_t hops);

/* Tells the root that suits a list's bus best. BUSCONF_NO_CANDIDATE: no node is eligible. Takes memory. */
enum busconf_status busconf_plan(const uint32_t *quads, size_t count, uint32_t standard, struct busconf_plan *plan,
                                 struct busconf_fault *fault);

/* Tells the image of the topology map of a list's bus (IEEE Std 1394-1995, TOPOLOGY_MAP). BUSCONF_OK: the first
 * `*needed` quadlets at `place` are the image. BUSCONF_TOO_SHORT: `*needed` is how many they are. Takes memory. */
enum busconf_status busconf_topology_map(const uint32_t *quads, size_t count, uint32_t standard, uint32_t generation,
                                         uint32_t *place, size_t room, size_t *needed, struct busconf_fault *fault);

/* Tells the rows of the speed map of a list's bus, 64 bytes a node: the byte at 64 * from + to is the least speed
 * code on the path between two nodes, both ends included, where 3 counts as 2, and 0 behind the last node.
 * BUSCONF_OK and BUSCONF_TOO_SHORT as for busconf_topology_map, in bytes. Takes memory. */
enum busconf_status busconf_speed_rows(const uint32_t *quads, size_t count, uint32_t standard, uint8_t *place,
                                       size_t room, size_t *needed, struct busconf_fault *fault);

/* Tells the image of that speed map (IEEE Std 1394-1995, SPEED_MAP), as busconf_topology_map. Takes memory. */
enum busconf_status busconf_speed_map(const uint32_t *quads, size_t count, uint32_t standard, uint32_t generation,
                                      uint32_t *place, size_t room, size_t *needed, struct busconf_fault *fault);

/* Tells what differs between the buses of two lists, which are read by one standard: an old one of `old_count` quadlets
 * and a new one. After a bus reset each node may have another ID, so nodes are matched by how they hang together, along
 * ports of the same number. Which node is which is a guess; by that guess exactly what differs is told.
 * BUSCONF_OK: the first `*needed` records at `place` are the changes, none where nothing differs. BUSCONF_TOO_SHORT:
 * `*needed` is how many they are. BUSCONF_REFUSED: `*list` is BUSCONF_LIST_OLD or BUSCONF_LIST_NEW, the list that no bus
 * tree emits, and `fault` its fault; the old one's, where neither is a bus's. Takes memory. */
enum busconf_status busconf_diff(const uint32_t *old_quads, size_t old_count, const uint32_t *new_quads, size_t count,
                                 uint32_t standard, struct busconf_change *place, size_t room, size_t *needed,
                                 uint8_t *list, struct busconf_fault *fault);

/* ---- Reading a list as it comes
 *
 * A reader is a place of the caller's, of fixed size, which only busconf_reader_init and busconf_reader_push write. It is
 * initialised once and again after each bus reset, given one quadlet after the other, and asked at any time, by either
 * standard. None of these calls takes memory, so an interrupt handler may make them.
 */

/* It keeps one quadlet more than any bus tree emits, which is 63 groups of four. */
#define BUSCONF_READER_QUADS 253u

struct busconf_reader {
  uint32_t count;
  uint32_t quads[BUSCONF_READER_QUADS]; /* the first `count` of them were given */
};

/* Makes a reader that was given nothing. */
void busconf_reader_init(struct busconf_reader *reader);

/* Gives a reader the next quadlet. */
void busconf_reader_push(struct busconf_reader *reader, uint32_t quad);

/* Tells what the list is that a reader was given, by IEEE 1394a-2000.
 * BUSCONF_OK: a bus tree emits it, and busconf_reader_bus tells it.
 * BUSCONF_REFUSED: `fault` is its fault, and stays that however the list goes on.
 * BUSCONF_INCOMPLETE: `fault` is its fault if it ends here: BUSCONF_FAULT_EMPTY, BUSCONF_FAULT_NO_ROOT or
 * BUSCONF_FAULT_CUT. */
enum busconf_status busconf_reader_state(const struct busconf_reader *reader, struct busconf_fault *fault);

/* Tells the bus of the list that a reader was given, by `standard`, BUSCONF_IEEE1995 or BUSCONF_IEEE2000.
 * BUSCONF_OK: `bus` is the bus and nodes[0] to nodes[bus->nodes - 1] its nodes, by ID.
 * BUSCONF_TOO_SHORT: `bus` is the bus, but it has more nodes than the `room` at `nodes`.
 * A bus has BUSCONF_MAX_NODES nodes at most. BUSCONF_REFUSED and BUSCONF_INCOMPLETE as for busconf_reader_state.
 * BUSCONF_NO_STANDARD. */
enum busconf_status busconf_reader_bus(const struct busconf_reader *reader, uint32_t standard,
                                       struct busconf_node *nodes, size_t room, struct busconf_bus *bus,
                                       struct busconf_fault *fault);

/* ---- PHY packets */

/* Tells the packet that a quadlet shows. Every quadlet shows exactly one. The fields that its kind doesn't have
 * are 0. */
void busconf_decode(uint32_t quad, struct busconf_packet *packet);

/* Tells the quadlet of a packet. BUSCONF_REFUSED where the packet's kind is none or a field that its kind has
 * doesn't fit its bits. A flag that isn't 0 counts as 1; of a configuration packet's `rest` the low 16 bits
 * count; a field that the kind doesn't have isn't looked at. */
enum busconf_status busconf_encode(const struct busconf_packet *packet, uint32_t *quad);

/* ---- Scripts (docs/SCRIPTS.md)
 *
 * A script is a text of at most 1,048,576 bytes that names nodes, plugs cables and asks for reports. Each call that takes one
 * runs it from its first line to the `settle` behind its last, with the machines of its nodes, and answers
 * - BUSCONF_OK: the first `*needed` bytes at `place` are what is told, with no byte 0 behind them;
 * - BUSCONF_TOO_SHORT: `*needed` is how many they are, and nothing is written;
 * - BUSCONF_REFUSED: `fault` is the fault of the script's first bad line, and nothing is written;
 * - BUSCONF_TOO_LONG, for a script of more bytes, or BUSCONF_NO_MEMORY.
 * Where the place is too short the run is done all the same, so a place that is long enough at once saves a run.
 */

/* The kinds of faults of a script. */
enum busconf_script_fault_kind {
  BUSCONF_SCRIPT_WORD = 1,            /* a byte that isn't permitted, or words that are no command */
  BUSCONF_SCRIPT_NUMBER = 2,          /* a word stands for a number, or for coins, and hasn't its form */
  BUSCONF_SCRIPT_NAME = 3,            /* a word stands for a name and isn't one */
  BUSCONF_SCRIPT_TWICE = 4,           /* a key stands twice, or coins beside a seed, or the name is declared */
  BUSCONF_SCRIPT_LATE = 5,            /* the command comes too late in the script */
  BUSCONF_SCRIPT_TOO_MANY_NODES = 6,  /* it is the 64th node */
  BUSCONF_SCRIPT_NO_NODE = 7,         /* no node has this name */
  BUSCONF_SCRIPT_NO_PORT = 8,         /* the node has no such port */
  BUSCONF_SCRIPT_IN_USE = 9,          /* a cable is in the port */
  BUSCONF_SCRIPT_SAME_NODE = 10,      /* both ends are at one node */
  BUSCONF_SCRIPT_NOT_PLUGGED = 11,    /* no cable is in the port */
  BUSCONF_SCRIPT_RANGE = 12,          /* a number isn't in its range */
  BUSCONF_SCRIPT_NOT_SETTLED = 13,    /* the node's part of the bus isn't a settled tree, or wasn't reported as one */
  BUSCONF_SCRIPT_NO_MANAGER = 14,     /* the tree has no isochronous resource manager */
  BUSCONF_SCRIPT_NOT_MANAGER = 15,    /* the node isn't the bus manager of its tree */
  BUSCONF_SCRIPT_TOO_MANY_TURNS = 16, /* the turns pass the script's limit */
  BUSCONF_SCRIPT_TOO_MANY_MAPS = 17   /* it is the 101st `maps` */
};

struct busconf_script_fault {
  uint32_t line; /* from 1; a fault behind the last line has the number of lines and 1 */
  uint8_t kind;  /* an enum busconf_script_fault_kind */
};

/* Tells what a script prints, as `busconf run` writes it. Takes memory. */
enum busconf_status busconf_run(const char *script, size_t count, char *place, size_t room, size_t *needed,
                                struct busconf_script_fault *fault);

/* Tells which cables of a script's bus to pull, so that no loop is left, and what the bus then comes to, as
 * `busconf advice` writes it. Takes memory. */
enum busconf_status busconf_advice(const char *script, size_t count, char *place, size_t room, size_t *needed,
                                   struct busconf_script_fault *fault);

/* Tells what happens on a script's bus, turn by turn, as `busview trace` writes it. Takes memory. */
enum busconf_status busconf_trace(const char *script, size_t count, char *place, size_t room, size_t *needed,
                                  struct busconf_script_fault *fault);

/* The events of a trace: what happens, at a node and on a port of it. */
enum busconf_event_kind {
  /* an act of the script */
  BUSCONF_EVENT_PLUG = 1,      /* a cable is plugged into the port and into other_port of the node `other` */
  BUSCONF_EVENT_PULL = 2,      /* the cable is pulled out of the port */
  BUSCONF_EVENT_RESET = 3,     /* the node is made to reset the bus */
  BUSCONF_EVENT_HOLD = 4,      /* the port is held for `value` turns */
  BUSCONF_EVENT_CONFIG = 5,    /* the node sends a PHY configuration packet with root ID `value` and gap count `second`,
                                  either of which may be BUSCONF_NUMBER_NONE */
  /* what happens at the node */
  BUSCONF_EVENT_ENTERS = 6,    /* it enters the state `value`, an enum busconf_state */
  BUSCONF_EVENT_TIMEOUT = 7,   /* its configuration times out */
  BUSCONF_EVENT_TO_PARENT = 8, /* the port comes to lead to its parent */
  BUSCONF_EVENT_TO_CHILD = 9,  /* the port comes to lead to a child */
  BUSCONF_EVENT_COIN = 10,     /* it draws a coin, `second`, and waits `value` turns; the coin is 0 or 1, or
                                  BUSCONF_NUMBER_NONE behind the first 32 since the reset */
  BUSCONF_EVENT_PHY_ID = 11,   /* it takes the ID `value` */
  BUSCONF_EVENT_SENDS = 12,    /* it sends on the port the signal `value`, an enum busconf_signal */
  BUSCONF_EVENT_MISSES = 13    /* its clock misses this turn, so that it doesn't tick */
};

/* The states of a node by the standard's names. Self-ID is entered at S0. */
enum busconf_state {
  BUSCONF_STATE_R0 = 0, /* reset start */
  BUSCONF_STATE_R1 = 1, /* reset wait */
  BUSCONF_STATE_T0 = 2, /* tree ID start */
  BUSCONF_STATE_T1 = 3, /* child handshake */
  BUSCONF_STATE_T2 = 4, /* parent handshake */
  BUSCONF_STATE_T3 = 5, /* root contention */
  BUSCONF_STATE_S0 = 6, /* self-ID start */
  BUSCONF_STATE_A0 = 7  /* idle */
};

/* What a node sends. */
enum busconf_signal {
  BUSCONF_SIGNAL_RESET = 0,  /* BUS_RESET */
  BUSCONF_SIGNAL_IDLE = 1,   /* IDLE */
  BUSCONF_SIGNAL_PARENT = 2, /* TX_PARENT_NOTIFY */
  BUSCONF_SIGNAL_CHILD = 3,  /* TX_CHILD_NOTIFY */
  BUSCONF_SIGNAL_GRANT = 4,  /* TX_GRANT */
  BUSCONF_SIGNAL_PACKET = 5, /* a self-ID packet, whose first quadlet is `second` */
  BUSCONF_SIGNAL_DONE = 6    /* TX_IDENT_DONE */
};

/* Where a number of an event isn't there, this stands for it. */
#define BUSCONF_NUMBER_NONE 4294967295u

/* Names are parts of the text in which the event was found: where they begin, in bytes from 0, and their length. */
struct busconf_event {
  size_t name;         /* the name of the node */
  size_t name_length;  /* 1 to 16 */
  size_t other;        /* the name of the other node of BUSCONF_EVENT_PLUG, else 0 */
  size_t other_length; /* its length, else 0 */
  uint32_t turn;       /* how many turns are done */
  uint32_t port;       /* the node's port, where the kind has one, else 0 */
  uint32_t other_port; /* the other node's port of BUSCONF_EVENT_PLUG, else 0 */
  uint32_t value;      /* what the kind says, else 0 */
  uint32_t second;     /* what the kind says, else 0 */
  uint8_t kind;        /* an enum busconf_event_kind */
};

/* Tells the event whose line stands at the place `at` of a trace's text, in bytes from 0. BUSCONF_OK: `event` is the
 * event, exactly its line stands there, and `*next` is the place behind its line feed. BUSCONF_REFUSED: `at` is the end
 * of the text, or no event's line stands there. */
enum busconf_status busconf_trace_event(const char *text, size_t count, size_t at, struct busconf_event *event,
                                        size_t *next);

/* Is called for an event with what busconf_trace_each was given for it. `line` is the event's line, of `length` bytes with
 * its line feed, and the names of the event are parts of it. Both are there until this returns. It must return: a
 * longjmp or an exception of C++ out of it would leave the memory of busconf_trace_each behind. */
typedef int (*busconf_event_call)(void *context, const struct busconf_event *event, const char *line, size_t length);

/* Calls back for each event of a script's bus, in the order in which they happen, until a call returns something other
 * than 0 or the last event is told. BUSCONF_OK, BUSCONF_REFUSED, BUSCONF_TOO_LONG and BUSCONF_NO_MEMORY as for
 * busconf_trace; only with BUSCONF_OK was there a call. BUSCONF_INCOMPLETE: at some line no event was found, and those
 * before it were told. Takes memory. */
enum busconf_status busconf_trace_each(const char *script, size_t count, busconf_event_call call, void *context,
                                       struct busconf_script_fault *fault);

/* Tells what changes on a script's bus as a Value Change Dump (IEEE Std 1364-2005, 18.2), as `busview waves` writes it.
 * Takes memory. */
enum busconf_status busconf_waves(const char *script, size_t count, char *place, size_t room, size_t *needed,
                                  struct busconf_script_fault *fault);

/* Tells the capture of the tree in which the node with a name stands in the end, as `busview capture` writes it: the
 * bytes that busconf_read_capture reads. BUSCONF_REFUSED comes also where no node has the name or its part of the bus
 * isn't a tree, with the number of lines and 1. BUSCONF_NO_NAME. Takes memory. */
enum busconf_status busconf_capture(const char *script, size_t count, const char *name, size_t length, uint8_t *place,
                                    size_t room, size_t *needed, struct busconf_script_fault *fault);

/* Tells the line of a script's fault as `busconf run` writes it, in ASCII with its line feed and with no byte 0 behind
 * it. BUSCONF_OK: the first `*needed` bytes at `place` are the line. BUSCONF_TOO_SHORT: `*needed` is how many they are;
 * no line has more than 48. BUSCONF_REFUSED: there is no such kind. */
enum busconf_status busconf_script_fault_text(const struct busconf_script_fault *fault, char *place, size_t room,
                                              size_t *needed);

/* Tells the sentence of a script's fault as `busview trace` and `busview explain` write it: which word is at fault,
 * where it stands, and what may stand there. `script` is the one that has the fault. As busconf_script_fault_text, but
 * of any length, and BUSCONF_TOO_LONG and BUSCONF_NO_MEMORY. Takes memory. */
enum busconf_status busconf_script_sentence(const char *script, size_t count, const struct busconf_script_fault *fault,
                                            char *place, size_t room, size_t *needed);

/* ---- Configuration ROMs (IEEE Std 1212) */

/* The kinds of blocks, */
enum busconf_block_kind {
  BUSCONF_BLOCK_DIRECTORY = 1,
  BUSCONF_BLOCK_LEAF = 2
};

/* and what is known of the CRC that a block keeps. */
enum busconf_block_crc {
  BUSCONF_CRC_GOOD = 1,
  BUSCONF_CRC_BAD = 2,
  BUSCONF_CRC_PAST = 3 /* it is over more quadlets than there are; no block has this */
};

struct busconf_block {
  uint16_t at;       /* the place of its header, in quadlets from 0 */
  uint16_t length;   /* how many quadlets stand behind its header */
  uint16_t kept;     /* of a bad CRC the one that is kept, else 0 */
  uint16_t computed; /* of a bad CRC the one that is computed, else 0 */
  uint8_t kind;      /* an enum busconf_block_kind */
  uint8_t crc;       /* an enum busconf_block_crc */
};

/* The kinds of faults of bytes that are no ROM, in the order in which they are looked for, and of a ROM's blocks. */
enum busconf_rom_fault_kind {
  BUSCONF_ROM_LENGTH = 1,     /* the bytes end within a quadlet, behind `at` whole ones */
  BUSCONF_ROM_TOO_LONG = 2,   /* there are more than 256 quadlets; `at` is 256 */
  BUSCONF_ROM_EMPTY = 3,      /* there is no quadlet */
  BUSCONF_ROM_NO_INFO = 4,    /* the first byte is 0, so there is no bus information block */
  BUSCONF_ROM_MINIMAL = 5,    /* the first byte is 1: a minimal ROM, of one quadlet */
  BUSCONF_ROM_CUT = 6,        /* the bus information block or the root directory isn't whole; `at` is the length */
  BUSCONF_ROM_BUS_NAME = 7,   /* quadlet 1 is `found` and not the bus's name, 0x31333934 */
  BUSCONF_ROM_OUTSIDE = 8,    /* the block at `at`, or its header, isn't inside of the ROM */
  BUSCONF_ROM_SELF_TARGET = 9 /* the entry at `at` leads to itself */
};

struct busconf_rom_fault {
  size_t at;      /* the place, in quadlets from 0 */
  uint32_t found; /* of BUSCONF_ROM_BUS_NAME, else 0 */
  uint8_t kind;   /* an enum busconf_rom_fault_kind */
};

/* Tells the blocks that the root directory of a ROM leads to, itself included, by rising place; at one place a
 * directory comes first. `bytes` are the ROM's, each quadlet with its highest byte first.
 * BUSCONF_OK: the first `*needed` records at `place` are the blocks. BUSCONF_TOO_SHORT: `*needed` is how many they
 * are. BUSCONF_REFUSED: `fault` is why there are none. BUSCONF_NO_MEMORY. Takes memory. */
enum busconf_status busconf_rom_check(const uint8_t *bytes, size_t count, struct busconf_block *place, size_t room,
                                      size_t *needed, struct busconf_rom_fault *fault);

/* Tells the line of a ROM's fault as `busconf rom` writes it, in ASCII with its line feed and with no byte 0 behind it.
 * BUSCONF_OK: the first `*needed` bytes at `place` are the line. BUSCONF_TOO_SHORT: `*needed` is how many they are; no
 * line has more than 48. BUSCONF_REFUSED: there is no such kind. */
enum busconf_status busconf_rom_fault_text(const struct busconf_rom_fault *fault, char *place, size_t room,
                                           size_t *needed);

/* ---- The registers of an isochronous resource manager (IEEE Std 1394-1995, 8.3.2.3.6 to 8.3.2.3.8)
 *
 * The record is the caller's. Of a value past its register's width the low bits count. None of these calls takes
 * memory.
 */

struct busconf_registers {
  uint32_t bus_manager_id;        /* 6 bits: the bus manager's ID, or 63 while there is none */
  uint32_t bandwidth_available;   /* 13 bits: allocation units that are left, at first 4915 */
  uint32_t channels_available_hi; /* a bit for each of the channels 0 to 31, from the top; 1 means free */
  uint32_t channels_available_lo; /* the same for the channels 32 to 63 */
};

/* The response to an access: `rcode` is complete 0, type error 6 or address error 7, and `value` what a read or a lock
 * found, or 0. */
struct busconf_reply {
  uint32_t value;
  uint8_t rcode;
};

/* What was seen of the bandwidth and the channels. */
struct busconf_seen {
  uint32_t bandwidth;
  uint32_t hi;
  uint32_t lo;
};

/* Why an allocation or a release is refused, in this order. */
enum busconf_grant_kind {
  BUSCONF_GRANT_NO_CHANNEL = 1,   /* the channel was seen held, at an allocation, or free, at a release */
  BUSCONF_GRANT_NO_BANDWIDTH = 2, /* `detail`, the bandwidth seen, is too little, or with the units passes 4915 */
  BUSCONF_GRANT_CHANGED = 3       /* the register at the offset `detail` now holds `now` in place of what was seen */
};

struct busconf_grant {
  uint32_t detail;
  uint32_t now;
  uint8_t kind; /* an enum busconf_grant_kind */
};

/* Gives the registers the values that a bus reset restores. */
void busconf_registers_reset(struct busconf_registers *regs);

/* Reads the register at an offset: 0x21C, 0x220, 0x224 or 0x228. */
void busconf_registers_read(const struct busconf_registers *regs, uint32_t offset, struct busconf_reply *reply);

/* Refuses to write: the registers are changed by locks alone. */
void busconf_registers_write(const struct busconf_registers *regs, uint32_t offset, uint32_t value,
                             struct busconf_reply *reply);

/* Locks the register at an offset. Of the extended transaction codes `kind` compare_swap, 2, alone is permitted: the
 * register becomes `value` where it holds `arg`. Where the access is refused nothing changes. */
void busconf_registers_lock(struct busconf_registers *regs, uint32_t offset, uint8_t kind, uint32_t arg,
                            uint32_t value, struct busconf_reply *reply);

/* Looks at the bandwidth and the channels, as allocations and releases are asked for by what was seen. */
void busconf_registers_look(const struct busconf_registers *regs, struct busconf_seen *seen);

/* Takes a channel and units of bandwidth. BUSCONF_REFUSED: `fault` says why, and nothing changes.
 * BUSCONF_OUT_OF_RANGE. */
enum busconf_status busconf_registers_allocate(struct busconf_registers *regs, const struct busconf_seen *seen,
                                               uint8_t channel, uint16_t units, struct busconf_grant *fault);

/* Gives them back, as busconf_registers_allocate. */
enum busconf_status busconf_registers_release(struct busconf_registers *regs, const struct busconf_seen *seen,
                                              uint8_t channel, uint16_t units, struct busconf_grant *fault);

/* The attempt of a node, 0 to 62, to become bus manager. BUSCONF_OK: it is, and `*manager` is its ID.
 * BUSCONF_REFUSED: `*manager` is the one that is, and nothing changes. BUSCONF_OUT_OF_RANGE. */
enum busconf_status busconf_registers_attempt(struct busconf_registers *regs, uint8_t id, uint8_t *manager);

/* ---- CRC */

/* The CRC of quadlets (IEEE Std 1212): the remainder of their bits, the highest first and followed by sixteen zero
 * bits, divided by x^16 + x^12 + x^5 + 1. */
uint16_t busconf_crc16(const uint32_t *quads, size_t count);

/* ---- Names that changed
 *
 * A program that uses an old name is warned with the new one by gcc and clang. For other compilers the old names aren't
 * declared. Two fields changed too: `far` is `peer` in a slot, and `reach` in a plan.
 */
#if defined(__clang__) || (defined(__GNUC__) && __GNUC__ >= 6)
#define BUSCONF_RENAMED(old, now) old __attribute__((deprecated("its name is " #now))) = now
enum busconf_renamed {
  BUSCONF_RENAMED(BUSCONF_VALID, BUSCONF_OK),
  BUSCONF_RENAMED(BUSCONF_NO_NODE, BUSCONF_ID_NONE),
  BUSCONF_RENAMED(BUSCONF_ABSENT, BUSCONF_SLOT_ABSENT),
  BUSCONF_RENAMED(BUSCONF_UNPLUGGED, BUSCONF_SLOT_UNPLUGGED),
  BUSCONF_RENAMED(BUSCONF_UP, BUSCONF_SLOT_UP),
  BUSCONF_RENAMED(BUSCONF_DOWN, BUSCONF_SLOT_DOWN),
  BUSCONF_RENAMED(BUSCONF_NOT_SELF_ID, BUSCONF_FAULT_NOT_SELF_ID),
  BUSCONF_RENAMED(BUSCONF_WRONG_ID, BUSCONF_FAULT_WRONG_ID),
  BUSCONF_RENAMED(BUSCONF_BAD_ORDER, BUSCONF_FAULT_BAD_ORDER),
  BUSCONF_RENAMED(BUSCONF_CUT, BUSCONF_FAULT_CUT),
  BUSCONF_RENAMED(BUSCONF_TWO_PARENTS, BUSCONF_FAULT_TWO_PARENTS),
  BUSCONF_RENAMED(BUSCONF_EMPTY, BUSCONF_FAULT_EMPTY),
  BUSCONF_RENAMED(BUSCONF_TOO_FEW_CHILDREN, BUSCONF_FAULT_TOO_FEW_CHILDREN),
  BUSCONF_RENAMED(BUSCONF_TREES_LEFT, BUSCONF_FAULT_TREES_LEFT),
  BUSCONF_RENAMED(BUSCONF_AFTER_ROOT, BUSCONF_FAULT_AFTER_ROOT),
  BUSCONF_RENAMED(BUSCONF_NO_ROOT, BUSCONF_FAULT_NO_ROOT),
  BUSCONF_RENAMED(BUSCONF_TOO_MANY, BUSCONF_FAULT_TOO_MANY),
  BUSCONF_RENAMED(BUSCONF_BAD_LENGTH, BUSCONF_FAULT_BAD_LENGTH),
  BUSCONF_RENAMED(BUSCONF_BAD_INVERSE, BUSCONF_FAULT_BAD_INVERSE),
  BUSCONF_RENAMED(BUSCONF_CONFIG, BUSCONF_PACKET_CONFIG),
  BUSCONF_RENAMED(BUSCONF_LINK_ON, BUSCONF_PACKET_LINK_ON),
  BUSCONF_RENAMED(BUSCONF_SELF_ZERO, BUSCONF_PACKET_SELF_ZERO),
  BUSCONF_RENAMED(BUSCONF_SELF_MORE, BUSCONF_PACKET_SELF_MORE),
  BUSCONF_RENAMED(BUSCONF_EXTENDED, BUSCONF_PACKET_EXTENDED),
  BUSCONF_RENAMED(BUSCONF_OTHER, BUSCONF_PACKET_OTHER),
  BUSCONF_RENAMED(BUSCONF_DIRECTORY, BUSCONF_BLOCK_DIRECTORY),
  BUSCONF_RENAMED(BUSCONF_LEAF, BUSCONF_BLOCK_LEAF),
  BUSCONF_RENAMED(BUSCONF_NO_INFO, BUSCONF_ROM_NO_INFO),
  BUSCONF_RENAMED(BUSCONF_MINIMAL, BUSCONF_ROM_MINIMAL),
  BUSCONF_RENAMED(BUSCONF_BUS_NAME, BUSCONF_ROM_BUS_NAME),
  BUSCONF_RENAMED(BUSCONF_OUTSIDE, BUSCONF_ROM_OUTSIDE),
  BUSCONF_RENAMED(BUSCONF_SELF_TARGET, BUSCONF_ROM_SELF_TARGET),
  BUSCONF_RENAMED(BUSCONF_NO_CHANNEL, BUSCONF_GRANT_NO_CHANNEL),
  BUSCONF_RENAMED(BUSCONF_NO_BANDWIDTH, BUSCONF_GRANT_NO_BANDWIDTH),
  BUSCONF_RENAMED(BUSCONF_CHANGED, BUSCONF_GRANT_CHANGED)
};
#undef BUSCONF_RENAMED
#endif

#ifdef __cplusplus
}
#endif

#endif
