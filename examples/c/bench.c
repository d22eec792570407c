/* A test bench: `bench SCRIPT < CAPTURE` runs the script of a bus and compares the list that a device recorded on it with
 * the tree that the bus comes to. It says of each node whether the list shows it so, and ends with status 0 where it
 * shows all. Who initiated the reset isn't compared. */
#include "busconf.h"

#include <stdio.h>
#include <stdlib.h>
#include <string.h>

/* The bytes of a file, with a 0 behind them. */
static char *load(const char *path, size_t *count) {
  FILE *file = fopen(path, "rb");
  char *bytes = (char *)malloc(1048577);
  if (!file || !bytes) exit(2);
  *count = fread(bytes, 1, 1048576, file);
  bytes[*count] = 0;
  fclose(file);
  return bytes;
}

/* What a script prints, with a 0 behind it, or null where it is refused. The first call tells the length. */
static char *run(const char *script, size_t count) {
  struct busconf_script_fault fault;
  char *text;
  size_t length = 0;
  enum busconf_status status = busconf_run(script, count, NULL, 0, &length, &fault);
  if (status == BUSCONF_REFUSED) {
    printf("the script has the fault %u in line %lu\n", (unsigned)fault.kind, (unsigned long)fault.line);
    return NULL;
  }
  text = (char *)malloc(length + 1);
  if (status != BUSCONF_TOO_SHORT || !text) exit(2);
  if (busconf_run(script, count, text, length, &length, &fault) != BUSCONF_OK) exit(2);
  text[length] = 0;
  return text;
}

static uint32_t quadlet(const unsigned char *b) {
  return (uint32_t)b[0] << 24 | (uint32_t)b[1] << 16 | (uint32_t)b[2] << 8 | b[3];
}

/* Gives a reader what a device recorded, one packet after the other, as the device does. */
static enum busconf_status record(struct busconf_reader *device, struct busconf_fault *fault) {
  unsigned char b[8];
  size_t pair;
  busconf_reader_init(device);
  for (pair = 0; fread(b, 1, sizeof b, stdin) == sizeof b; pair++) {
    if (quadlet(b + 4) != (uint32_t)~quadlet(b)) {
      fault->at = pair;
      fault->kind = BUSCONF_FAULT_BAD_INVERSE;
      fault->found = fault->wanted = 0;
      return BUSCONF_REFUSED;
    }
    busconf_reader_push(device, quadlet(b));
  }
  return busconf_reader_state(device, fault);
}

static void put_fault(const struct busconf_reader *device, const struct busconf_fault *fault) {
  char text[160];
  size_t length = 0;
  if (busconf_fault_text(fault, text, sizeof text, &length) == BUSCONF_OK) fwrite(text, 1, length, stdout);
  if (busconf_sentence(device->quads, device->count, BUSCONF_IEEE2000, fault, text, sizeof text, &length)
      == BUSCONF_OK)
    fwrite(text, 1, length, stdout);
}

/* The slots of a node as reports write them. */
static void slots_text(const struct busconf_node *node, char *to) {
  static const char *const signs[] = {" -", " .", " ^", " v"};
  unsigned slot;
  for (slot = 0; slot < node->slot_count; slot++) {
    struct busconf_slot it = node->slots[slot];
    to += sprintf(to, "%s", signs[it.status & 3]);
    if (it.peer != BUSCONF_ID_NONE) to += sprintf(to, "%u", (unsigned)it.peer);
  }
  strcpy(to, " name ");
}

/* Whether a report's line is that of a node. */
static int is_line_of(const char *line, const struct busconf_node *node) {
  unsigned id, link, gap, speed, contender, power;
  char slots[256];
  int behind = 0;
  if (sscanf(line, "node %u link %u gap %u speed %u contender %u power %u initiated %*u ports%n", &id, &link, &gap, &speed,
             &contender, &power, &behind) != 6 || !behind)
    return 0;
  slots_text(node, slots);
  return id == node->id && link == node->link && gap == node->gap && speed == node->speed
      && contender == node->contender && power == node->power && strncmp(line + behind, slots, strlen(slots)) == 0;
}

/* Compares the nodes with the last tree of a text, and says how many of its lines aren't theirs. */
static int compare(const char *text, const struct busconf_bus *bus, const struct busconf_node *nodes) {
  const char *line = text, *next;
  int differ = 0;
  unsigned id = 0;
  while ((next = strstr(line, "tree root ")) != NULL) line = next + 1;
  for (line = strchr(line, '\n'); line && strncmp(++line, "node ", 5) == 0; line = strchr(line, '\n'), id++) {
    int alike = id < bus->nodes && is_line_of(line, &nodes[id]);
    const char *name = strstr(line, " name ");
    if (!name) return -1;
    printf("node %u %.*s: %s\n", id, (int)strcspn(name + 6, "\n"), name + 6, alike ? "as expected" : "not as expected");
    differ += !alike;
  }
  if (id != bus->nodes) printf("%u nodes expected, %u recorded\n", id, (unsigned)bus->nodes);
  return differ + (id != bus->nodes);
}

int main(int argc, char **argv) {
  struct busconf_reader device;
  struct busconf_node nodes[BUSCONF_MAX_NODES];
  struct busconf_bus bus;
  struct busconf_fault fault;
  size_t count = 0;
  char *script, *text;
  int differ;
  if (argc != 2) return 2;
  if (record(&device, &fault) != BUSCONF_OK) {
    put_fault(&device, &fault);
    return 1;
  }
  if (busconf_read(device.quads, device.count, BUSCONF_IEEE2000, nodes, BUSCONF_MAX_NODES, &bus, &fault)) return 2;
  script = load(argv[1], &count);
  text = run(script, count);
  differ = text ? compare(text, &bus, nodes) : 1;
  free(text);
  free(script);
  return differ ? 1 : 0;
}
