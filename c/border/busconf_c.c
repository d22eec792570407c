/* The calls of the crate busconf_c that take a length. */
#include "border.h"

PROVED(busconf_read);
PROVED(busconf_read_capture);
PROVED(busconf_sentence_capture);
PROVED(busconf_hops);
PROVED(busconf_plan);
PROVED(busconf_diff);
PROVED(busconf_topology_map);
PROVED(busconf_speed_rows);
PROVED(busconf_speed_map);
PROVED(busconf_rom_check);
PROVED(busconf_rom_fault_text);

enum busconf_status busconf_read(const uint32_t *quads, size_t count, uint32_t standard, struct busconf_node *nodes,
                                 size_t room, struct busconf_bus *bus, struct busconf_fault *fault) {
  return proved_busconf_read(FROM(quads, count), count, standard, PLACE(nodes, room), room, bus, fault);
}

enum busconf_status busconf_read_capture(const uint8_t *bytes, size_t count, uint32_t standard,
                                         struct busconf_node *nodes, size_t room, struct busconf_bus *bus,
                                         struct busconf_fault *fault) {
  return proved_busconf_read_capture(FROM(bytes, count), count, standard, PLACE(nodes, room), room, bus, fault);
}

enum busconf_status busconf_sentence_capture(const uint8_t *bytes, size_t count, uint32_t standard,
                                             const struct busconf_fault *fault, char *place, size_t room,
                                             size_t *needed) {
  return proved_busconf_sentence_capture(FROM(bytes, count), count, standard, fault, PLACE(place, room), room, needed);
}

enum busconf_status busconf_hops(const uint32_t *quads, size_t count, uint32_t standard, uint8_t *hops,
                                 struct busconf_fault *fault) {
  return proved_busconf_hops(FROM(quads, count), count, standard, hops, fault);
}

enum busconf_status busconf_plan(const uint32_t *quads, size_t count, uint32_t standard, struct busconf_plan *plan,
                                 struct busconf_fault *fault) {
  return proved_busconf_plan(FROM(quads, count), count, standard, plan, fault);
}

enum busconf_status busconf_diff(const uint32_t *old_quads, size_t old_count, const uint32_t *new_quads, size_t count,
                                 uint32_t standard, struct busconf_change *place, size_t room, size_t *needed,
                                 uint8_t *list, struct busconf_fault *fault) {
  return proved_busconf_diff(FROM(old_quads, old_count), old_count, FROM(new_quads, count), count, standard,
                             PLACE(place, room), room, needed, list, fault);
}

enum busconf_status busconf_topology_map(const uint32_t *quads, size_t count, uint32_t standard, uint32_t generation,
                                         uint32_t *place, size_t room, size_t *needed, struct busconf_fault *fault) {
  return proved_busconf_topology_map(FROM(quads, count), count, standard, generation, PLACE(place, room), room, needed,
                                     fault);
}

enum busconf_status busconf_speed_rows(const uint32_t *quads, size_t count, uint32_t standard, uint8_t *place,
                                       size_t room, size_t *needed, struct busconf_fault *fault) {
  return proved_busconf_speed_rows(FROM(quads, count), count, standard, PLACE(place, room), room, needed, fault);
}

enum busconf_status busconf_speed_map(const uint32_t *quads, size_t count, uint32_t standard, uint32_t generation,
                                      uint32_t *place, size_t room, size_t *needed, struct busconf_fault *fault) {
  return proved_busconf_speed_map(FROM(quads, count), count, standard, generation, PLACE(place, room), room, needed,
                                  fault);
}

enum busconf_status busconf_rom_check(const uint8_t *bytes, size_t count, struct busconf_block *place, size_t room,
                                      size_t *needed, struct busconf_rom_fault *fault) {
  return proved_busconf_rom_check(FROM(bytes, count), count, PLACE(place, room), room, needed, fault);
}

enum busconf_status busconf_rom_fault_text(const struct busconf_rom_fault *fault, char *place, size_t room,
                                           size_t *needed) {
  return proved_busconf_rom_fault_text(fault, PLACE(place, room), room, needed);
}
