"use strict";
// The words of packets and nodes, and of the faults of pairs, as busconf and busview write them.

const PORT_WORDS = ["absent", "inactive", "parent", "child"];

const hex = (quadlet) => quadlet.toString(16).padStart(8, "0");

// The fields of a packet with their names. Reserved fields are left out where they are 0.
function fieldsOf(packet, quadlet) {
  const reserved = (name, value) => (value ? [[name, value]] : []);
  const port = (number, status) => [`p${number}`, PORT_WORDS[status]];
  switch (packet.kind) {
    case "selfZero":
      return [
        ["phy_ID", packet.phyId], ["L", packet.link], ["gap_cnt", packet.gap], ["sp", packet.speed],
        ...reserved("del", packet.delay), ["c", packet.contender], ["pwr", packet.power], port(0, packet.p0),
        port(1, packet.p1), port(2, packet.p2), ["i", packet.initiated], ["m", packet.more],
      ];
    case "selfMore": {
      const status = (k) => (packet.fields >> (14 - 2 * k)) & 3;
      const ports = [0, 1, 2, 3, 4, 5, 6, 7].map((k) => port(3 + 8 * packet.n + k, status(k)));
      return [
        ["phy_ID", packet.phyId], ...reserved("rsv", packet.kept), ...ports, ...reserved("r", packet.r),
        ["m", packet.more],
      ];
    }
    case "config":
      return [
        ["root_ID", packet.phyId], ["R", packet.force], ["T", packet.setGap], ["gap_cnt", packet.gap],
        ...reserved("rsv", packet.rest),
      ];
    case "linkOn":
      return [["phy_ID", packet.phyId], ...reserved("rsv", packet.rest)];
    case "extended":
      return [["phy_ID", (quadlet >>> 24) & 63], ["type", (quadlet >>> 18) & 15]];
    default:
      return [];
  }
}

function kindOf(packet) {
  const kinds = {
    selfZero: "self-ID zero", selfMore: `self-ID n ${packet.n}`, config: "PHY configuration", linkOn: "link-on",
    extended: "extended",
  };
  return kinds[packet.kind] ?? "no PHY packet";
}

// What was found and wanted at a pair, as `busview packets` writes it.
function sentenceOfPair(pair, kind) {
  if (kind === BAD_LENGTH) return "Found the end of the input inside this pair, wanted 8 bytes: a quadlet and its inverse.";
  const wanted = hex(~pair.first >>> 0);
  return `Found the second quadlet ${hex(pair.second)}, wanted ${wanted}, the bitwise inverse of the first.`;
}

// The hops of a bus and the gap count that the standard's table gives for them, as `busview tree` writes them.
function lineOfHops(hops, table) {
  if (hops === 0) return "hops 0, any gap count will do";
  return hops > 15 ? `hops ${hops}, more than the 15 of the table` : `hops ${hops}, gap count ${table} by the table`;
}

// Whether the gap counts of a bus agree, and if so whether the count suits the hops, as `busview tree` writes it.
function lineOfGaps(bus, hops, table) {
  const { gap } = bus.nodes[bus.root];
  const others = bus.nodes.filter((node) => node.gap !== gap).map((node) => `, ${node.gap} at node ${node.id}`);
  if (others.length > 0) return `gap counts differ: ${gap} at the root${others.join("")}`;
  return `gap counts agree: ${gap}${verdictOfGap(gap, hops, table)}`;
}

function verdictOfGap(gap, hops, table) {
  if (hops === 0) return "";
  if (hops > 15) {
    if (gap === 63) return ", the greatest there is";
    return gap < 40 ? ", less than the table's 40 for 15 hops: too small" : ", less than 63, the greatest: may be too small";
  }
  if (gap === table) return ", as by the table";
  return gap > table ? `, more than the table's ${table}: safe, only slower` : `, less than the table's ${table}: too small`;
}

// The lines of `busconf read`.
function linesOfBus(bus) {
  const last = `nodes ${bus.nodes.length} root ${bus.root} irm ${bus.manager === NO_ID ? "none" : bus.manager}`;
  return [...bus.nodes.map(lineOfNode), last];
}

function lineOfNode(node) {
  const names = ["link", "gap", "speed", "contender", "power", "initiated"];
  const ports = node.slots.map((slot) => ["-", ".", `^${slot.peer}`, `v${slot.peer}`][slot.status]);
  return `node ${node.id} ${names.map((name) => `${name} ${node[name]}`).join(" ")} ports ${ports.join(" ")}`;
}
