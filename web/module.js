"use strict";
// The calls of the module busconf.wasm, which c/include/busconf.h describes. The module has a memory with addresses of
// 64 bits. This script adds a page of 65,536 bytes to it, in which the records of its calls lie.

const PAGE = 65536;

// Where each record lies in that page. A reader has 1,016 bytes, 63 nodes have 3,906, and a quadlet has 4.
const PLACES = { reader: 0, nodes: 2048, bus: 8192, fault: 8256, packet: 8320, needed: 8384, list: 12288, text: 16384 };

const MAX_NODES = 63;
const MAX_TEXT = 256;
// As many quadlets as a reader keeps. No list is judged by those behind them.
const MAX_LIST = 253;
const NODE_BYTES = 62;
const NO_ID = 63;
const OK = 0;

const SLOT = { absent: 0, unplugged: 1, up: 2, down: 3 };
const PACKET_KINDS = ["", "config", "linkOn", "selfZero", "selfMore", "extended", "other"];
// The kinds of faults that a capture alone has.
const BAD_LENGTH = 12;
const BAD_INVERSE = 13;

class Library {
  constructor(bytes) {
    this.calls = new WebAssembly.Instance(new WebAssembly.Module(bytes)).exports;
    this.start = this.calls.memory.buffer.byteLength;
    this.calls.memory.grow(1n);
  }

  // The address of a record, as the calls take it.
  at(place) {
    return BigInt(this.start + place);
  }

  // What stands in the memory from a record on.
  view(place) {
    return new DataView(this.calls.memory.buffer, this.start + place, PAGE - place);
  }

  // The packet that a quadlet shows.
  decode(quadlet) {
    this.calls.busconf_decode(quadlet, this.at(PLACES.packet));
    const record = this.view(PLACES.packet);
    const names = [
      "phyId", "force", "setGap", "gap", "link", "speed", "delay", "contender", "power", "p0", "p1", "p2", "initiated",
      "more", "n", "kept", "r",
    ];
    const bytes = Object.fromEntries(names.map((name, at) => [name, record.getUint8(7 + at)]));
    const kind = PACKET_KINDS[record.getUint8(6)];
    return { kind, rest: record.getUint32(0, true), fields: record.getUint16(4, true), ...bytes };
  }

  // The bus whose nodes emit these quadlets by the standard of a year, or the one fault of the list.
  read(quadlets, year) {
    const reader = this.at(PLACES.reader);
    this.calls.busconf_reader_init(reader);
    for (const quadlet of quadlets) this.calls.busconf_reader_push(reader, quadlet);
    const status = this.calls.busconf_reader_bus(
      reader, year, this.at(PLACES.nodes), BigInt(MAX_NODES), this.at(PLACES.bus), this.at(PLACES.fault));
    return status === OK ? { bus: this.bus() } : { fault: this.fault() };
  }

  bus() {
    const record = this.view(PLACES.bus);
    const nodes = [];
    for (let id = 0; id < record.getUint8(0); id++) nodes.push(this.node(id));
    return { nodes, root: record.getUint8(1), manager: record.getUint8(2) };
  }

  node(id) {
    const record = this.view(PLACES.nodes + NODE_BYTES * id);
    const names = ["id", "link", "gap", "speed", "contender", "power", "initiated"];
    const node = Object.fromEntries(names.map((name, at) => [name, record.getUint8(at)]));
    node.slots = [];
    for (let slot = 0; slot < record.getUint8(7); slot++) {
      node.slots.push({ status: record.getUint8(8 + 2 * slot), peer: record.getUint8(9 + 2 * slot) });
    }
    return node;
  }

  fault() {
    const record = this.view(PLACES.fault);
    return {
      at: Number(record.getBigUint64(0, true)), kind: record.getUint8(8), found: record.getUint8(9),
      wanted: record.getUint8(10),
    };
  }

  putFault({ at, kind, found = 0, wanted = 0 }) {
    const record = this.view(PLACES.fault);
    record.setBigUint64(0, BigInt(at), true);
    [kind, found, wanted].forEach((byte, place) => record.setUint8(8 + place, byte));
  }

  // The line of a fault, as `busconf read` writes it.
  line(fault) {
    this.putFault(fault);
    const text = [this.at(PLACES.text), BigInt(MAX_TEXT), this.at(PLACES.needed)];
    this.calls.busconf_fault_text(this.at(PLACES.fault), ...text);
    return this.text();
  }

  // What was found in a list and what was wanted, as `busview packets` writes it.
  sentence(quadlets, year, fault) {
    this.putFault(fault);
    const list = quadlets.slice(0, MAX_LIST);
    list.forEach((quadlet, at) => this.view(PLACES.list).setUint32(4 * at, quadlet, true));
    const text = [this.at(PLACES.text), BigInt(MAX_TEXT), this.at(PLACES.needed)];
    this.calls.busconf_sentence(
      this.at(PLACES.list), BigInt(list.length), year, this.at(PLACES.fault), ...text);
    return this.text();
  }

  // The text that a call wrote, without its line feed.
  text() {
    const count = Number(this.view(PLACES.needed).getBigUint64(0, true));
    const bytes = new Uint8Array(this.calls.memory.buffer, this.start + PLACES.text, count);
    return String.fromCharCode(...bytes).trimEnd();
  }

  // The gap count that the standard's table gives for so many hops.
  gapFor(hops) {
    return this.calls.busconf_gap_for(hops);
  }
}
