/* What a recorder does with the capture of a bus reset: it takes the bytes from standard input and says what bus it is.
 * `recorder 1995` reads by IEEE Std 1394-1995. The text is that of `busconf read`. */
#include "busconf.h"

#include <stdio.h>
#include <stdlib.h>

/* The most bytes of a capture that the program busconf takes. */
#define MOST_BYTES 1048576

static void put_fault(const struct busconf_fault *fault) {
  char line[128];
  size_t length = 0;
  if (busconf_fault_text(fault, line, sizeof line, &length) == BUSCONF_OK) fwrite(line, 1, length, stdout);
}

static void put_slot(struct busconf_slot slot) {
  switch ((enum busconf_slot_status)slot.status) {
  case BUSCONF_SLOT_ABSENT: printf(" -"); break;
  case BUSCONF_SLOT_UNPLUGGED: printf(" ."); break;
  case BUSCONF_SLOT_UP: printf(" ^%u", (unsigned)slot.peer); break;
  case BUSCONF_SLOT_DOWN: printf(" v%u", (unsigned)slot.peer); break;
  }
}

static void put_bus(const struct busconf_bus *bus, const struct busconf_node *nodes) {
  unsigned id, slot;
  for (id = 0; id < bus->nodes; id++) {
    const struct busconf_node *n = &nodes[id];
    printf("node %u link %u gap %u speed %u contender %u power %u initiated %u ports", (unsigned)n->id,
           (unsigned)n->link, (unsigned)n->gap, (unsigned)n->speed, (unsigned)n->contender, (unsigned)n->power,
           (unsigned)n->initiated);
    for (slot = 0; slot < n->slot_count; slot++) put_slot(n->slots[slot]);
    printf("\n");
  }
  printf("nodes %u root %u irm ", (unsigned)bus->nodes, (unsigned)bus->root);
  if (bus->manager == BUSCONF_ID_NONE) printf("none\n");
  else printf("%u\n", (unsigned)bus->manager);
}

int main(int argc, char **argv) {
  static uint8_t bytes[MOST_BYTES];
  static struct busconf_node nodes[BUSCONF_MAX_NODES];
  struct busconf_bus bus;
  struct busconf_fault fault;
  uint32_t standard = BUSCONF_IEEE2000;
  size_t count = fread(bytes, 1, sizeof bytes, stdin);
  enum busconf_status status;
  if (argc > 1) standard = (uint32_t)strtoul(argv[1], NULL, 10);
  status = busconf_read_capture(bytes, count, standard, nodes, BUSCONF_MAX_NODES, &bus, &fault);
  if (status == BUSCONF_REFUSED) {
    put_fault(&fault);
    return 1;
  }
  if (status != BUSCONF_OK) {
    fprintf(stderr, "recorder: status %u\n", (unsigned)status);
    return 5;
  }
  put_bus(&bus, nodes);
  return 0;
}
