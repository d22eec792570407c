"use strict";
// Reads what is pasted or dropped. Each form is tried in turn, and gives lists of packets, or nothing where the text
// isn't of that form. A list has a name, its pairs of quadlets, and how many bytes are left behind the last whole pair.
// The second quadlet of a pair is null where the form shows packets without their inverses.

// `inverses` says how quadlets stand where the form doesn't: "pairs", "alone", or "found", as they look. What doesn't look
// like packets then is read as `busview import` reads it, if it does.
function readText(text, inverses) {
  return orImported(formsOfText(text, inverses), new TextEncoder().encode(text), inverses);
}

function readBytes(bytes, inverses) {
  return orImported(formsOfBytes(bytes, inverses), bytes, inverses);
}

function orImported(read, bytes, inverses) {
  const looksSo = read.lists?.every((list) => list.pairs.every((pair) => pair.first >>> 30 === 2));
  return (inverses === "found" && !looksSo && importList(bytes)) || read;
}

function formsOfText(text, inverses) {
  const plain = text.replace(/^\uFEFF/, "");
  for (const [name, read] of TEXT_FORMS) {
    const lists = read(plain, inverses);
    if (lists) return { form: name, lists };
  }
  return { error: "This text isn't in a form that this page reads." };
}

function formsOfBytes(bytes, inverses) {
  const text = textOf(bytes);
  if (text !== null) return formsOfText(text, inverses);
  if (beginsTurned(bytes, 0)) return turned(bytes, 0, "a capture with the bytes of its quadlets turned round");
  if (beginsTurned(bytes, 4)) return turned(bytes, 4, "the self-ID buffer of an OHCI controller");
  return { form: "bytes", lists: [listOfBytes("", bytes, inverses)] };
}

const TEXT_FORMS = [
  ["a trace of the Linux kernel", readTrace],
  ["the log of the Linux kernel's driver", readLog],
  ["the output of xxd", readXxd],
  ["the output of hexdump -C", readHexdump],
  ["hexadecimal words", readWords],
  ["hexadecimal digits", readDigits],
];

// ---- Texts

// Lines with `self_ids=`, `packet_data=` or `self_id_sequence=`. The last is of one node; those of a card that follow each
// other in one generation are one list.
function readTrace(text) {
  const lists = [];
  const open = new Map();
  for (const line of text.split("\n")) {
    const alone = numbersOf(line, "self_ids");
    const pairs = numbersOf(line, "packet_data");
    const ofNode = numbersOf(line, "self_id_sequence");
    const name = nameOfEvent(line);
    const card = line.match(/\bcard_index=(\w+)/)?.[1] ?? "";
    if (ofNode && open.get(card)?.name === name) {
      addFirsts(open.get(card), ofNode);
      continue;
    }
    if (ofNode) lists.push(opened(open, card, listOfFirsts(name, ofNode)));
    if (alone) lists.push(listOfFirsts(name, alone));
    if (pairs) lists.push(listOfPairs(name, bytesOf(pairs)));
  }
  return lists.length > 0 ? lists : null;
}

// The numbers of a field of an event, which end before the next field.
function numbersOf(line, field) {
  const found = line.match(new RegExp(`\\b${field}=(.*?)(?=\\s\\w+=|$)`));
  return found && (found[1].match(/\b(0x[0-9a-f]{1,8}|\d{1,10})\b/gi) ?? []).map(Number);
}

function nameOfEvent(line) {
  const card = line.match(/\bcard_index=(\w+)/);
  const generation = line.match(/\bgeneration(?:_at_completion)?=(\w+)/);
  return [card && `card ${card[1]}`, generation && `generation ${generation[1]}`].filter(Boolean).join(", ");
}

// Lines with `selfID 0: 807f8094, ..`. A line with `2 selfIDs, generation 1` begins a list of its device, and the lines of
// several devices may come in turn.
function readLog(text) {
  const lists = [];
  const open = new Map();
  for (const line of text.split("\n")) {
    const device = line.match(/\bfirewire_ohci (\S+): /)?.[1] ?? "";
    const begin = line.match(/\b\d+ selfIDs, generation (\d+)/);
    const packet = line.match(/\bselfID [0n]: ([0-9a-f]{8})\b/i);
    if (begin) lists.push(opened(open, device, { ...listOfFirsts(`generation ${begin[1]}`, []), device }));
    if (packet && !open.has(device)) lists.push(opened(open, device, { ...listOfFirsts("", []), device }));
    if (packet) addFirsts(open.get(device), [parseInt(packet[1], 16)]);
  }
  if (open.size > 1) lists.forEach((list) => list.name = [list.device, list.name].filter(Boolean).join(" "));
  return lists.length > 0 ? lists : null;
}

// Notes that a list is the one to which what follows of a card or device belongs.
function opened(open, whose, list) {
  open.set(whose, list);
  return list;
}

function readXxd(text, inverses) {
  return readOffsets(text, inverses, /^[0-9a-f]{8}: ((?:[0-9a-f]{2,8} )+) ?.{0,16}$/i);
}

function readHexdump(text, inverses) {
  return readOffsets(text, inverses, /^[0-9a-f]{8}  ((?:[0-9a-f]{2} ? ?)+)(?:\|.*\|)?$/i);
}

// Lines that begin with an offset. A last line may be an offset alone.
function readOffsets(text, inverses, form) {
  const lines = text.trimEnd().split("\n").filter((line) => !/^[0-9a-f]{8}\r?$/i.test(line));
  const found = lines.map((line) => line.trimEnd().match(form));
  if (!found.every(Boolean) || found.length === 0) return null;
  const digits = found.map((it) => it[1]).join("").replace(/\s/g, "");
  return [listOfBytes("", bytesOfDigits(digits), inverses)];
}

// Words that begin with 0x, with commas and braces: quadlets, or bytes where none has more than two digits.
function readWords(text, inverses) {
  const words = text.trim().split(/[\s,{}]+/).filter(Boolean);
  if (words.length === 0 || !words.every((word) => /^0x[0-9a-f]{1,8}$/i.test(word))) return null;
  const numbers = words.map(Number);
  const bytes = words.every((word) => word.length <= 4) ? Uint8Array.from(numbers) : bytesOf(numbers);
  return [listOfBytes("", bytes, inverses)];
}

// Digits with white space or colons, or none.
function readDigits(text, inverses) {
  const digits = text.replace(/[\s:]/g, "");
  if (digits.length % 2 !== 0 || /[^0-9a-f]/i.test(digits)) return null;
  return [listOfBytes("", bytesOfDigits(digits), inverses)];
}

// ---- Bytes

// The text that bytes are, or null. Text has no control characters but tabs and the ends of lines. It is UTF-8; or
// UTF-16 after a byte order mark; or bytes of any letters in which an event of a trace or a driver's line is found. No
// capture is UTF-8, since its first byte is 80.
function textOf(bytes) {
  if (bytes.length === 0) return null;
  const marked = { "fffe": "utf-16le", "feff": "utf-16be" }[hexOf(bytes.subarray(0, 2))];
  if (marked) return new TextDecoder(marked).decode(bytes);
  if (bytes.some((byte) => byte < 32 && ![9, 10, 13].includes(byte))) return null;
  try {
    return new TextDecoder("utf-8", { fatal: true }).decode(bytes);
  } catch {
    const text = new TextDecoder("latin1").decode(bytes);
    return /\b(self_ids|packet_data|self_id_sequence)=|\bselfID [0n]:/.test(text) ? text : null;
  }
}

function hexOf(bytes) {
  return Array.from(bytes, (byte) => byte.toString(16).padStart(2, "0")).join("");
}

// Whether a pair of node 0 stands at a place, its quadlets with the lowest byte first.
function beginsTurned(bytes, at) {
  const pair = bytes.subarray(at, at + 8);
  const isPair = pair.length === 8 && [0, 1, 2, 3].every((k) => pair[k] + pair[k + 4] === 255);
  return isPair && pair[3] === 0x80 && pair[0] !== 0x80;
}

function turned(bytes, at, form) {
  const round = bytes.slice(at);
  for (let k = 0; k + 4 <= round.length; k += 4) round.subarray(k, k + 4).reverse();
  return { form, lists: [listOfPairs("", round)] };
}

function bytesOfDigits(digits) {
  return Uint8Array.from({ length: digits.length / 2 }, (_, at) => parseInt(digits.slice(2 * at, 2 * at + 2), 16));
}

// The bytes of quadlets, of each the highest first.
function bytesOf(quadlets) {
  const view = new DataView(new ArrayBuffer(4 * quadlets.length));
  quadlets.forEach((quadlet, at) => view.setUint32(4 * at, quadlet));
  return new Uint8Array(view.buffer);
}

function quadletsOf(bytes) {
  const view = new DataView(bytes.buffer, bytes.byteOffset, bytes.length);
  return Array.from({ length: Math.floor(bytes.length / 4) }, (_, at) => view.getUint32(4 * at));
}

// ---- Lists

// A list of which only the bytes are known. Where each quadlet begins with the bits 10, they stand without inverses,
// since the inverse of such a quadlet begins with 01.
function listOfBytes(name, bytes, inverses) {
  const quadlets = quadletsOf(bytes);
  const isWhole = bytes.length % 4 === 0;
  const areFirsts = quadlets.length > 0 && quadlets.every((quadlet) => quadlet >>> 30 === 2);
  const alone = inverses === "alone" || (inverses === "found" && areFirsts);
  return alone && isWhole ? listOfFirsts(name, quadlets) : listOfPairs(name, bytes);
}

function listOfFirsts(name, quadlets) {
  return { name, pairs: quadlets.map((first) => ({ first, second: null })), rest: 0 };
}

function addFirsts(list, quadlets) {
  for (const first of quadlets) list.pairs.push({ first, second: null });
}

function listOfPairs(name, bytes) {
  const quadlets = quadletsOf(bytes);
  const pairs = [];
  for (let at = 0; at + 1 < quadlets.length; at += 2) pairs.push({ first: quadlets[at], second: quadlets[at + 1] });
  return { name, pairs, rest: bytes.length % 8 };
}
