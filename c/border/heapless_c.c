/* The calls of the crate heapless_c that take a length. */
#include "border.h"

PROVED(busconf_reader_bus);
PROVED(busconf_crc16);
PROVED(busconf_fault_text);
PROVED(busconf_sentence);
PROVED(busconf_trace_event);

enum busconf_status busconf_reader_bus(const struct busconf_reader *reader, uint32_t standard,
                                       struct busconf_node *nodes, size_t room, struct busconf_bus *bus,
                                       struct busconf_fault *fault) {
  return proved_busconf_reader_bus(reader, standard, PLACE(nodes, room), room, bus, fault);
}

uint16_t busconf_crc16(const uint32_t *quads, size_t count) {
  return proved_busconf_crc16(FROM(quads, count), count);
}

enum busconf_status busconf_fault_text(const struct busconf_fault *fault, char *place, size_t room, size_t *needed) {
  return proved_busconf_fault_text(fault, PLACE(place, room), room, needed);
}

enum busconf_status busconf_sentence(const uint32_t *quads, size_t count, uint32_t standard,
                                     const struct busconf_fault *fault, char *place, size_t room, size_t *needed) {
  return proved_busconf_sentence(FROM(quads, count), count, standard, fault, PLACE(place, room), room, needed);
}

enum busconf_status busconf_trace_event(const char *text, size_t count, size_t at, struct busconf_event *event,
                                        size_t *next) {
  return proved_busconf_trace_event(FROM(text, count), count, at, event, next);
}
