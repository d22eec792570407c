/* What a program that was compiled against the header rests on: the size of each record and the place of each field, on
 * x86-64 and on AArch64. It is compiled and never run, as C and as C++; an array of -1 elements is a compile error. With
 * MISSES_A_CASE it has a switch that misses a case, of which compilers warn. */
#include "busconf.h"

#define SIZE(record, bytes) typedef char size_of_##record[sizeof(struct busconf_##record) == (bytes) ? 1 : -1]
#define AT(record, field, place) \
  typedef char place_of_##record##_##field[offsetof(struct busconf_##record, field) == (place) ? 1 : -1]

SIZE(slot, 2);
AT(slot, status, 0);
AT(slot, peer, 1);

SIZE(node, 62);
AT(node, id, 0);
AT(node, link, 1);
AT(node, gap, 2);
AT(node, speed, 3);
AT(node, contender, 4);
AT(node, power, 5);
AT(node, initiated, 6);
AT(node, slot_count, 7);
AT(node, slots, 8);

SIZE(bus, 3);
AT(bus, nodes, 0);
AT(bus, root, 1);
AT(bus, manager, 2);

SIZE(fault, 16);
AT(fault, at, 0);
AT(fault, kind, 8);
AT(fault, found, 9);
AT(fault, wanted, 10);

SIZE(packet, 24);
AT(packet, rest, 0);
AT(packet, fields, 4);
AT(packet, kind, 6);
AT(packet, phy_id, 7);
AT(packet, force, 8);
AT(packet, set_gap, 9);
AT(packet, gap, 10);
AT(packet, link, 11);
AT(packet, speed, 12);
AT(packet, delay, 13);
AT(packet, contender, 14);
AT(packet, power, 15);
AT(packet, p0, 16);
AT(packet, p1, 17);
AT(packet, p2, 18);
AT(packet, initiated, 19);
AT(packet, more, 20);
AT(packet, n, 21);
AT(packet, kept, 22);
AT(packet, r, 23);

SIZE(cable, 5);
AT(cable, parent, 0);
AT(cable, port, 1);
AT(cable, child, 2);
AT(cable, child_port, 3);
AT(cable, speed, 4);

SIZE(change, 15);
AT(change, kind, 0);
AT(change, old_id, 1);
AT(change, new_id, 2);
AT(change, old_value, 3);
AT(change, new_value, 4);
AT(change, old_cable, 5);
AT(change, new_cable, 10);

SIZE(plan, 8);
AT(plan, packet, 0);
AT(plan, root, 4);
AT(plan, hops, 5);
AT(plan, gap, 6);
AT(plan, reach, 7);

SIZE(reader, 1016);
AT(reader, count, 0);
AT(reader, quads, 4);

SIZE(script_fault, 8);
AT(script_fault, line, 0);
AT(script_fault, kind, 4);

SIZE(event, 56);
AT(event, name, 0);
AT(event, name_length, 8);
AT(event, other, 16);
AT(event, other_length, 24);
AT(event, turn, 32);
AT(event, port, 36);
AT(event, other_port, 40);
AT(event, value, 44);
AT(event, second, 48);
AT(event, kind, 52);

SIZE(block, 10);
AT(block, at, 0);
AT(block, length, 2);
AT(block, kept, 4);
AT(block, computed, 6);
AT(block, kind, 8);
AT(block, crc, 9);

SIZE(rom_fault, 16);
AT(rom_fault, at, 0);
AT(rom_fault, found, 8);
AT(rom_fault, kind, 12);

SIZE(registers, 16);
AT(registers, bus_manager_id, 0);
AT(registers, bandwidth_available, 4);
AT(registers, channels_available_hi, 8);
AT(registers, channels_available_lo, 12);

SIZE(reply, 8);
AT(reply, value, 0);
AT(reply, rcode, 4);

SIZE(seen, 12);
AT(seen, bandwidth, 0);
AT(seen, hi, 4);
AT(seen, lo, 8);

SIZE(grant, 12);
AT(grant, detail, 0);
AT(grant, now, 4);
AT(grant, kind, 8);

/* What a call answers is handed back as a uint32_t is. */
typedef char size_of_status[sizeof(enum busconf_status) == sizeof(uint32_t) ? 1 : -1];

int leads_on(const struct busconf_slot *slot);

int leads_on(const struct busconf_slot *slot) {
  switch ((enum busconf_slot_status)slot->status) {
  case BUSCONF_SLOT_ABSENT:
  case BUSCONF_SLOT_UNPLUGGED:
    return 0;
#ifndef MISSES_A_CASE
  case BUSCONF_SLOT_UP:
#endif
  case BUSCONF_SLOT_DOWN:
    return 1;
  }
  return 0;
}
