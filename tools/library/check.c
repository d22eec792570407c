/* Calls libbusconf over captures, with places of exactly the size that is needed, one less, and none. Each place is a
 * block of its own, so that valgrind sees what is written past it. `check STANDARD FILE..`; it says what fails, and
 * else how much it did. */
#include "busconf.h"

#include <stdio.h>
#include <stdlib.h>
#include <string.h>

static unsigned long failed = 0;
static const char *file = "";

static void expect(int holds, const char *what) {
  if (!holds) {
    printf("FAILED %s: %s\n", file, what);
    failed++;
  }
}

/* A block of exactly so many bytes, filled with a byte. It isn't null. */
static void *block(size_t bytes, int with) {
  void *at = malloc(bytes ? bytes : 1);
  if (!at) exit(2);
  memset(at, with, bytes ? bytes : 1);
  return at;
}

static int filled(const void *at, size_t from, size_t to, int with) {
  const unsigned char *b = (const unsigned char *)at;
  for (; from < to; from++)
    if (b[from] != with) return 0;
  return 1;
}

static int same_fault(const struct busconf_fault *a, const struct busconf_fault *b) {
  return a->at == b->at && a->kind == b->kind && a->found == b->found && a->wanted == b->wanted;
}

/* The first quadlets of a capture, in a block of exactly their size. The count is (size_t)-1 where the bytes are no
 * whole pairs. */
static uint32_t *load(const char *path, size_t *count) {
  FILE *in = fopen(path, "rb");
  unsigned char b[8];
  uint32_t *quads = (uint32_t *)block(0, 0), *exact;
  size_t got, n = 0;
  if (!in) exit(2);
  while ((got = fread(b, 1, 8, in)) == 8) {
    quads = (uint32_t *)realloc(quads, (n + 1) * sizeof *quads);
    quads[n++] = (uint32_t)b[0] << 24 | (uint32_t)b[1] << 16 | (uint32_t)b[2] << 8 | b[3];
  }
  fclose(in);
  exact = (uint32_t *)block(n * sizeof *exact, 0);
  memcpy(exact, quads, n * sizeof *exact);
  free(quads);
  *count = got ? (size_t)-1 : n;
  return exact;
}

/* Reads with room for so many nodes. */
static uint32_t read_into(const uint32_t *quads, size_t count, uint32_t standard, size_t room, struct busconf_bus *bus,
                          struct busconf_fault *fault) {
  size_t bytes = room * sizeof(struct busconf_node), id, slot;
  struct busconf_node *nodes = (struct busconf_node *)block(bytes, 0xa5);
  uint32_t status = busconf_read(quads, count, standard, nodes, room, bus, fault);
  if (status != BUSCONF_OK) expect(filled(nodes, 0, bytes, 0xa5), "nodes stay where nothing is shown");
  else {
    expect(filled(nodes, bus->nodes * sizeof *nodes, bytes, 0xa5), "what stands behind the nodes stays");
    for (id = 0; id < bus->nodes; id++) {
      expect(nodes[id].id == id, "nodes stand by ID");
      for (slot = 0; slot < BUSCONF_MAX_SLOTS; slot++) {
        struct busconf_slot at = nodes[id].slots[slot], back;
        int leads = at.status == BUSCONF_SLOT_UP || at.status == BUSCONF_SLOT_DOWN;
        expect(leads == (at.peer != BUSCONF_ID_NONE), "a slot leads to a node where it is up or down");
        if (leads) {
          size_t k, found = 0;
          for (k = 0; k < nodes[at.peer].slot_count; k++) {
            back = nodes[at.peer].slots[k];
            found += back.peer == id && back.status == (at.status == BUSCONF_SLOT_UP ? BUSCONF_SLOT_DOWN : BUSCONF_SLOT_UP);
          }
          expect(found == 1, "a slot leads back");
        }
      }
    }
  }
  free(nodes);
  return status;
}

typedef enum busconf_status (*image_call)(const uint32_t *, size_t, uint32_t, uint32_t, uint32_t *, size_t, size_t *,
                                          struct busconf_fault *);

static void check_image(image_call call, const uint32_t *quads, size_t count, uint32_t standard, uint32_t status) {
  struct busconf_fault fault;
  size_t needed = 77, again = 77;
  uint32_t *none = (uint32_t *)block(0, 0), *place;
  expect(call(quads, count, standard, 7, none, 0, &needed, &fault) == (status ? status : BUSCONF_TOO_SHORT),
         "an image has no room in none");
  free(none);
  if (status) {
    expect(needed == 77, "no length is told of no image");
    return;
  }
  place = (uint32_t *)block((needed - 1) * 4, 0xa5);
  expect(call(quads, count, standard, 7, place, needed - 1, &again, &fault) == BUSCONF_TOO_SHORT, "one less");
  expect(again == needed && filled(place, 0, (needed - 1) * 4, 0xa5), "the length is told and nothing is written");
  free(place);
  place = (uint32_t *)block(needed * 4, 0xa5);
  expect(call(quads, count, standard, 7, place, needed, &again, &fault) == BUSCONF_OK, "exactly as much");
  expect(again == needed && place[0] >> 16 == needed - 1 && place[1] == 7, "the image has its length and generation");
  expect((place[0] & 0xffffu) == busconf_crc16(place + 1, needed - 1), "the image keeps its CRC");
  free(place);
}

static void check_rows(const uint32_t *quads, size_t count, uint32_t standard, const struct busconf_bus *bus) {
  struct busconf_fault fault;
  size_t needed = 0, all = 64 * (size_t)bus->nodes, a, b;
  uint8_t *less = (uint8_t *)block(all - 1, 0xa5), *rows = (uint8_t *)block(all, 0xa5);
  expect(busconf_speed_rows(quads, count, standard, less, all - 1, &needed, &fault) == BUSCONF_TOO_SHORT, "rows");
  expect(needed == all && filled(less, 0, all - 1, 0xa5), "rows have 64 bytes a node");
  expect(busconf_speed_rows(quads, count, standard, rows, all, &needed, &fault) == BUSCONF_OK, "all rows");
  for (a = 0; a < bus->nodes; a++)
    for (b = 0; b < 64; b++)
      expect(b < bus->nodes ? rows[64 * a + b] == rows[64 * b + a] : rows[64 * a + b] == 0, "speeds go both ways");
  free(less);
  free(rows);
}

/* The bus of a reader, told with room for so many nodes, is that of its list. */
static void check_reader_bus(const struct busconf_reader *reader, uint32_t standard, const struct busconf_bus *bus,
                             const struct busconf_node *nodes, size_t room) {
  size_t bytes = room * sizeof *nodes;
  struct busconf_node *place = (struct busconf_node *)block(bytes, 0xa5);
  struct busconf_bus told;
  struct busconf_fault fault;
  uint32_t status = busconf_reader_bus(reader, standard, place, room, &told, &fault);
  expect(told.nodes == bus->nodes && told.root == bus->root && told.manager == bus->manager, "the bus of a reader");
  if (room < bus->nodes) expect(status == BUSCONF_TOO_SHORT && filled(place, 0, bytes, 0xa5), "no room for the nodes");
  else {
    size_t used = bus->nodes * sizeof *nodes;
    expect(status == BUSCONF_OK && memcmp(place, nodes, used) == 0, "the nodes of a reader");
    expect(filled(place, used, bytes, 0xa5), "what stands behind the nodes of a reader stays");
  }
  free(place);
}

static void check_no_standard(const struct busconf_reader *reader, uint32_t standard) {
  struct busconf_bus bus = {7, 7, 7};
  struct busconf_fault fault = {7, 7, 7, 7};
  uint32_t status = busconf_reader_bus(reader, standard, NULL, 0, &bus, &fault);
  expect(status == BUSCONF_NO_STANDARD && bus.nodes == 7 && fault.at == 7, "no standard of a reader");
}

/* A reader that is given the list one by one agrees with busconf_read of what it was given. */
static void check_reader(const uint32_t *quads, size_t count, uint32_t standard) {
  static struct busconf_node nodes[BUSCONF_MAX_NODES];
  struct busconf_reader *reader = (struct busconf_reader *)block(sizeof *reader, 0xa5);
  size_t n;
  int over = 0;
  busconf_reader_init(reader);
  for (n = 0; n <= count; n++) {
    struct busconf_bus bus, none = {7, 7, 7};
    struct busconf_fault told, read, of_state;
    uint32_t state = busconf_reader_bus(reader, standard, NULL, 0, &none, &told);
    uint32_t status = busconf_read(quads, n, standard, nodes, BUSCONF_MAX_NODES, &bus, &read);
    if (standard == BUSCONF_IEEE2000) {
      uint32_t alone = busconf_reader_state(reader, &of_state);
      expect(alone == (state == BUSCONF_TOO_SHORT ? BUSCONF_OK : state), "the state of a reader");
      expect(alone == BUSCONF_OK || same_fault(&of_state, &told), "the state's fault");
    }
    expect((state == BUSCONF_TOO_SHORT) == (status == BUSCONF_OK), "the reader says when a list is whole");
    if (status == BUSCONF_OK) {
      check_reader_bus(reader, standard, &bus, nodes, bus.nodes - 1u);
      check_reader_bus(reader, standard, &bus, nodes, bus.nodes);
      check_reader_bus(reader, standard, &bus, nodes, BUSCONF_MAX_NODES);
    } else expect(none.nodes == 7 && none.root == 7 && none.manager == 7, "no bus is told of a list that has none");
    if (status == BUSCONF_REFUSED) {
      int ends = read.kind == BUSCONF_FAULT_EMPTY || read.kind == BUSCONF_FAULT_NO_ROOT || read.kind == BUSCONF_FAULT_CUT;
      expect(same_fault(&told, &read), "the reader tells the list's fault");
      expect(state == (ends ? BUSCONF_INCOMPLETE : BUSCONF_REFUSED), "the reader says whether the fault lasts");
    }
    expect(!over || state == BUSCONF_REFUSED, "a fault lasts");
    over = state == BUSCONF_REFUSED;
    if (n < count) busconf_reader_push(reader, quads[n]);
  }
  check_no_standard(reader, standard + 1);
  free(reader);
}

/* The lines of faults, in a place of exactly their size and of one byte less. */
static void check_texts(void) {
  struct busconf_fault fault = {7, 0, 8, 9};
  unsigned kind;
  file = "texts";
  for (kind = 0; kind < 256; kind++) {
    size_t needed = 500, again = 500;
    char *place = (char *)block(0, 0);
    uint32_t status;
    fault.kind = (uint8_t)kind;
    status = busconf_fault_text(&fault, place, 0, &needed);
    free(place);
    if (kind < BUSCONF_FAULT_NOT_SELF_ID || kind > BUSCONF_FAULT_BAD_INVERSE) {
      expect(status == BUSCONF_REFUSED && needed == 500, "no such kind");
      continue;
    }
    expect(status == BUSCONF_TOO_SHORT && needed <= 128, "a line has no room in none");
    place = (char *)block(needed - 1, 0xa5);
    expect(busconf_fault_text(&fault, place, needed - 1, &again) == BUSCONF_TOO_SHORT && again == needed, "one less");
    expect(filled(place, 0, needed - 1, 0xa5), "no line is cut");
    free(place);
    place = (char *)block(needed, 0xa5);
    expect(busconf_fault_text(&fault, place, needed, &again) == BUSCONF_OK && again == needed, "exactly as much");
    expect(memcmp(place, kind == BUSCONF_FAULT_EMPTY ? "refused pair 0 " : "refused pair 7 ", 15) == 0 &&
               place[needed - 1] == '\n',
           "a line is whole");
    free(place);
  }
}

/* The bytes of a capture, read as they are, are read as their list is. */
static void check_bytes(const uint32_t *quads, size_t count, uint32_t standard) {
  uint8_t *bytes = (uint8_t *)block(8 * count, 0);
  struct busconf_bus a, b;
  struct busconf_fault of_list, of_bytes;
  struct busconf_node *nodes = (struct busconf_node *)block(BUSCONF_MAX_NODES * sizeof *nodes, 0);
  size_t n;
  uint32_t status = read_into(quads, count, standard, BUSCONF_MAX_NODES, &a, &of_list);
  for (n = 0; n < 8 * count; n++) bytes[n] = (uint8_t)((n & 4 ? ~quads[n / 8] : quads[n / 8]) >> (24 - n % 4 * 8));
  expect(busconf_read_capture(bytes, 8 * count, standard, nodes, BUSCONF_MAX_NODES, &b, &of_bytes) == status, "bytes");
  if (status == BUSCONF_REFUSED) expect(same_fault(&of_list, &of_bytes), "bytes have the list's fault");
  if (count) {
    expect(busconf_read_capture(bytes, 8 * count - 1, standard, nodes, BUSCONF_MAX_NODES, &b, &of_bytes)
               == BUSCONF_REFUSED && of_bytes.kind == BUSCONF_FAULT_BAD_LENGTH && of_bytes.at == count - 1, "one byte less");
    bytes[8 * count - 1] ^= 1;
    expect(busconf_read_capture(bytes, 8 * count, standard, nodes, BUSCONF_MAX_NODES, &b, &of_bytes) == BUSCONF_REFUSED
               && of_bytes.kind == BUSCONF_FAULT_BAD_INVERSE && of_bytes.at == count - 1, "one bit turned");
  }
  free(nodes);
  free(bytes);
}

static void check_capture(const char *path, uint32_t standard) {
  size_t count, n;
  uint32_t *quads = load(path, &count), status, again;
  struct busconf_bus bus, one;
  struct busconf_fault fault;
  struct busconf_plan plan;
  uint8_t hops = 200;
  file = path;
  if (count == (size_t)-1) {
    free(quads);
    return;
  }
  status = read_into(quads, count, standard, 0, &bus, &fault);
  expect(status == BUSCONF_TOO_SHORT || status == BUSCONF_REFUSED, "no bus has room in none");
  if (status == BUSCONF_TOO_SHORT) {
    expect(read_into(quads, count, standard, bus.nodes, &one, &fault) == BUSCONF_OK, "exactly the nodes");
    expect(one.nodes == bus.nodes && one.root == bus.root && one.manager == bus.manager, "one bus");
    again = read_into(quads, count, standard, bus.nodes - 1u, &one, &fault);
    expect(again == BUSCONF_TOO_SHORT && one.nodes == bus.nodes, "one node less");
    check_rows(quads, count, standard, &bus);
    status = BUSCONF_OK;
  }
  check_image(busconf_topology_map, quads, count, standard, status);
  check_image(busconf_speed_map, quads, count, standard, status);
  expect(busconf_hops(quads, count, standard, &hops, &fault) == status, "hops");
  expect(status ? hops == 200 : hops < bus.nodes, "hops are those of the bus, or stay");
  again = busconf_plan(quads, count, standard, &plan, &fault);
  if (!status) {
    expect(again == (bus.manager == BUSCONF_ID_NONE ? BUSCONF_NO_CANDIDATE : BUSCONF_OK), "a plan where one is elected");
    if (!again) {
      struct busconf_packet packet;
      busconf_decode(plan.packet, &packet);
      expect(packet.kind == BUSCONF_PACKET_CONFIG && packet.phy_id == plan.root && packet.gap == plan.gap && packet.force
                 && packet.set_gap, "the plan's packet says what the plan says");
      expect(plan.hops == hops && plan.gap == busconf_gap_for(hops), "the plan's gap is that of the hops");
    }
  }
  for (n = 0; n < count; n++) {
    struct busconf_packet packet;
    uint32_t quad = ~quads[n];
    busconf_decode(quads[n], &packet);
    expect(busconf_encode(&packet, &quad) == BUSCONF_OK && quad == quads[n], "a packet is written as it was read");
  }
  expect(read_into(quads, count, 1996, 0, &bus, &fault) == BUSCONF_NO_STANDARD, "no standard");
  check_bytes(quads, count, standard);
  check_reader(quads, count, standard);
  free(quads);
}

/* Quadlets of each kind, and packets that are none. */
static void check_packets(void) {
  static const uint32_t quads[] = {0x817f88d4u, 0x8483555cu, 0x01c50000u, 0x42000000u, 0x03040000u, 0xc0000001u};
  static const uint8_t kinds[] = {BUSCONF_PACKET_SELF_ZERO, BUSCONF_PACKET_SELF_MORE, BUSCONF_PACKET_CONFIG, BUSCONF_PACKET_LINK_ON, BUSCONF_PACKET_EXTENDED,
                                  BUSCONF_PACKET_OTHER};
  struct busconf_packet packet;
  uint32_t quad = 5;
  size_t n;
  file = "packets";
  for (n = 0; n < sizeof quads / sizeof *quads; n++) {
    busconf_decode(quads[n], &packet);
    expect(packet.kind == kinds[n], "the kind of a quadlet");
    expect(busconf_encode(&packet, &quad) == BUSCONF_OK && quad == quads[n], "both ways");
  }
  quad = 5;
  packet.kind = 0;
  expect(busconf_encode(&packet, &quad) == BUSCONF_REFUSED && quad == 5, "no kind");
  busconf_decode(quads[0], &packet);
  packet.gap = 64;
  expect(busconf_encode(&packet, &quad) == BUSCONF_REFUSED && quad == 5, "a field that doesn't fit");
}

/* A channel and bandwidth are taken and given back; the bus manager is elected once. */
static void check_registers(void) {
  struct busconf_registers regs, first;
  struct busconf_reply reply;
  struct busconf_seen seen;
  struct busconf_grant fault;
  uint8_t manager = 200;
  file = "registers";
  busconf_registers_reset(&first);
  regs = first;
  expect(regs.bus_manager_id == 63 && regs.bandwidth_available == 4915, "the values after a reset");
  busconf_registers_look(&regs, &seen);
  expect(busconf_registers_allocate(&regs, &seen, 31, 915, &fault) == BUSCONF_OK, "a channel is taken");
  expect(regs.bandwidth_available == 4000 && regs.channels_available_hi == 0xfffffffeu, "its bit and its units");
  expect(busconf_registers_allocate(&regs, &seen, 32, 1, &fault) == BUSCONF_REFUSED, "what was seen changed");
  expect(fault.kind == BUSCONF_GRANT_CHANGED && fault.detail == 0x220 && fault.now == 4000, "by which register");
  busconf_registers_look(&regs, &seen);
  expect(busconf_registers_allocate(&regs, &seen, 31, 1, &fault) == BUSCONF_REFUSED, "the channel is held");
  expect(fault.kind == BUSCONF_GRANT_NO_CHANNEL, "no channel");
  expect(busconf_registers_allocate(&regs, &seen, 32, 4001, &fault) == BUSCONF_REFUSED, "too much");
  expect(fault.kind == BUSCONF_GRANT_NO_BANDWIDTH && fault.detail == 4000, "no bandwidth");
  expect(busconf_registers_allocate(&regs, &seen, 64, 1, &fault) == BUSCONF_OUT_OF_RANGE, "no such channel");
  expect(busconf_registers_release(&regs, &seen, 31, 915, &fault) == BUSCONF_OK, "it is given back");
  expect(memcmp(&regs, &first, sizeof regs) == 0, "all is as at first");
  busconf_registers_read(&regs, 0x220, &reply);
  expect(reply.rcode == 0 && reply.value == 4915, "a read");
  busconf_registers_read(&regs, 0x21d, &reply);
  expect(reply.rcode == 7 && reply.value == 0, "no register");
  busconf_registers_write(&regs, 0x220, 1, &reply);
  expect(reply.rcode == 6, "no write");
  busconf_registers_lock(&regs, 0x220, 2, 4915, 0xffff, &reply);
  expect(reply.value == 4915 && regs.bandwidth_available == 0x1fff, "a lock, cut to the width");
  expect(busconf_registers_attempt(&regs, 63, &manager) == BUSCONF_OUT_OF_RANGE && manager == 200, "no node");
  expect(busconf_registers_attempt(&regs, 5, &manager) == BUSCONF_OK && manager == 5, "the first is elected");
  expect(busconf_registers_attempt(&regs, 6, &manager) == BUSCONF_REFUSED && manager == 5, "and no second");
}

int main(int argc, char **argv) {
  uint32_t standard = argc > 1 ? (uint32_t)strtoul(argv[1], NULL, 10) : 0;
  int n;
  check_packets();
  check_texts();
  check_registers();
  for (n = 2; n < argc; n++) check_capture(argv[n], standard);
  if (!failed) printf("check: %d captures by %u\n", argc - 2, (unsigned)standard);
  return failed ? 1 : 0;
}
