"use strict";
// Reads what `busview import` reads, by the same rules: which bytes a text spells, how packets stand among quadlets, and
// in which order their bytes are. Unlike `import` it names no fault: what isn't read gives null.

// What is between words, and how a text begins that is a dump, with what ends the data of its lines.
const BETWEEN = /[ \t\r\n,:;\-"'()[\]{}]/;
const DUMPS = [
  ["00000000:", "the output of xxd", /  /],
  ["00000000  ", "the output of hexdump -C", /\|/],
  ["0000000 ", "the output of hexdump or od", /(?!)/],
  ["000000 ", "the output of hexdump or od", /(?!)/],
  ["0000  ", "a dump of Wireshark", /  /],
];
// Where the bytes of a quadlet are, the highest first.
const BIG = [0, 1, 2, 3];
const LITTLE = [3, 2, 1, 0];
const ORDERS = [BIG, LITTLE, [2, 3, 0, 1], [1, 0, 3, 2]];
const ORDER_WORDS = ["", ", the lowest byte first", ", halves swapped", ", the bytes of each half swapped"];

// The list that bytes or a text name, with what they were taken for; or null.
function importList(bytes) {
  const named = namedBytes(bytes);
  if (!named || named.bytes.length === 0 || named.bytes.length % 4 !== 0) return null;
  const found = packetsAmong(quadletsOf(Uint8Array.from(named.bytes)));
  return found && { form: `${named.form}: ${found.form}`, lists: [listOfPackets(found.packets)] };
}

// ---- Bytes

function namedBytes(bytes) {
  const marked = hexOf(bytes.subarray(0, 3)) === "efbbbf" ? bytes.subarray(3) : bytes;
  if (marked.every((byte) => byte < 128)) return textBytes(new TextDecoder("latin1").decode(marked));
  for (const end of ["0a", "0d0a"]) {
    const count = end.length / 2;
    if (bytes.length % 4 === count && hexOf(bytes.subarray(-count)) === end) return { form: "bytes", bytes: [...bytes.subarray(0, -count)] };
  }
  return { form: "bytes", bytes: [...bytes] };
}

// The bytes that the words of a text spell.
function textBytes(text) {
  const dump = DUMPS.find(([front]) => text.startsWith(front));
  const end = dump ? dump[2] : /#|\/\//;
  const lines = text.split("\n").map((line) => dump ? line.replace(/^[^ \t]*[ \t]*/, "") : line);
  const data = lines.map((line) => line.split(end)[0] + "\n").join("");
  const within = data.includes("{") ? data.slice(data.indexOf("{") + 1).split("}")[0] : data;
  if (data.split("{").length > 2) return null;
  const spelled = within.split(BETWEEN).filter(Boolean).map(wordBytes);
  return spelled.every(Boolean) ? { form: dump ? dump[1] : "words of digits", bytes: spelled.flat() } : null;
}

function wordBytes(word) {
  if (/^[0-9]{10}$/.test(word)) return Number(word) < 2 ** 32 ? [...bytesOf([Number(word)])] : null;
  const digits = word.replace(/^0[xX]/, "").replace(/[hHuU]$/, "");
  return /^(?:[0-9a-fA-F]{2})+$/.test(digits) ? [...bytesOfDigits(digits)] : null;
}

// ---- Packets

function packetsAmong(quads) {
  if (quads.length > 1 && isInverse(quads[0], quads[1])) {
    const firsts = goodFirsts(quads);
    if (2 * firsts.length !== quads.length) return null;
    return inOrder(firsts, ORDERS, [goUp, arePackets], "packets and their inverses");
  }
  if (quads.length > 2 && isInverse(quads[1], quads[2])) {
    const found = inOrder(goodFirsts(quads.slice(1)), [LITTLE, BIG], [goUp, beginAtZero], "the self-ID buffer of an OHCI controller");
    return found && { ...found, packets: toRoot(found.packets) };
  }
  if (isMap(quads)) return mapList(quads);
  return inOrder(quads, ORDERS, [goUp, arePackets], "packets without inverses");
}

function isInverse(quad, other) {
  return (quad ^ other) >>> 0 === 0xffffffff;
}

// The first quadlets of the pairs before the first that isn't one.
function goodFirsts(quads) {
  const found = [];
  for (let at = 0; at + 1 < quads.length && isInverse(quads[at], quads[at + 1]); at += 2) found.push(quads[at]);
  return found;
}

// The lengths of a topology map fit.
function isMap(quads) {
  return quads.length >= 3 && quads[0] >>> 16 < quads.length && (quads[2] & 0xffff) + 2 === quads[0] >>> 16;
}

// The list of a topology map whose CRC and count of nodes are right.
function mapList(quads) {
  const image = quads.slice(0, (quads[0] >>> 16) + 1);
  const packets = image.slice(3);
  const nodes = packets.filter((quad) => quad >>> 30 === 2 && !(quad >>> 23 & 1)).length;
  const isGood = (image[0] & 0xffff) === crcOf(bytesOf(image.slice(1))) && image[2] >>> 16 === nodes;
  return isGood ? { form: "a topology map", packets } : null;
}

// The CRC of IEEE Std 1212, over bytes with the highest of a quadlet first.
function crcOf(bytes) {
  let crc = 0;
  for (const byte of bytes) {
    crc ^= byte << 8;
    for (let bit = 0; bit < 8; bit++) crc = crc & 0x8000 ? (crc << 1 ^ 0x1021) & 0xffff : crc << 1 & 0xffff;
  }
  return crc;
}

// The packets in the first order of bytes that passes the first test that one passes.
function inOrder(quads, orders, tests, form) {
  for (const test of tests) {
    for (const order of orders) {
      const packets = quads.map((quad) => ordered(order, quad));
      if (test(packets)) return { form: form + ORDER_WORDS[ORDERS.indexOf(order)], packets };
    }
  }
  return null;
}

function ordered(order, quad) {
  return order.reduce((found, place) => (found << 8 | quad >>> 24 - 8 * place & 255) >>> 0, 0);
}

function arePackets(packets) {
  return packets.every((packet) => packet >>> 30 === 2);
}

// IDs begin with 0 and go up by one.
function goUp(packets) {
  const ids = packets.map((packet) => packet >>> 24 & 63);
  return arePackets(packets) && ids[0] === 0 && ids.every((id, at) => at === 0 || [0, 1].includes(id - ids[at - 1]));
}

function beginAtZero(packets) {
  return packets.length > 0 && packets[0] >>> 24 === 128;
}

// The packets up to those of the first node of which no port leads to a parent.
function toRoot(packets) {
  let up = false;
  for (const [at, packet] of packets.entries()) {
    const ports = packet >>> 23 & 1 ? 8 : 3;
    for (let port = 0; port < ports; port++) up = up || (packet >>> 2 + 2 * port & 3) === 2;
    if (!(packet & 1) && !up) return packets.slice(0, at + 1);
    if (!(packet & 1)) up = false;
  }
  return packets;
}

function listOfPackets(packets) {
  return { name: "", pairs: packets.map((first) => ({ first, second: ~first >>> 0 })), rest: 0 };
}
