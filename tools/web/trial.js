"use strict";
// Uses the page as a person does, over the repository's cases, and writes at its end what was seen.

const failed = [];
const seen = {};

function expect(name, what, found, wanted) {
  if (found === wanted) return;
  failed.push(`FAILED ${name}: ${what}: ${JSON.stringify(found)}, and not ${JSON.stringify(wanted)}`);
}

function type(text, year = 2000, inverses = "found") {
  document.querySelector(`[name=standard][value="${year}"]`).checked = true;
  find("inverses").value = inverses;
  find("input").value = text;
  find("input").dispatchEvent(new Event("input"));
}

const verdict = () => find("verdict").firstChild.textContent;
const drawn = (kind) => document.querySelectorAll(`#tree svg .${kind}`).length;
const toBytes = (digits) => bytesOfDigits(digits);

// What the page shows has to be the whole answer of `busconf read`: its lines where there is a bus, and else its line.
function tryAnswer(name, wanted) {
  if (wanted.startsWith("refused")) {
    expect(name, "the verdict", verdict(), wanted.trim());
    expect(name, "no drawing", find("bus").hidden, true);
    return;
  }
  expect(name, "a drawing", find("bus").hidden, false);
  expect(name, "the nodes", find("nodes").textContent, wanted);
  expect(name, "the verdict", verdict(), wanted.trim().split("\n").at(-1));
  const nodes = wanted.match(/^node /gm).length;
  expect(name, "nodes of the drawing", drawn("node"), nodes);
  expect(name, "cables of the drawing", drawn("cable"), nodes - 1);
}

// Each case is pasted as digits, where it isn't empty, and comes as the bytes of a file. One that is taken for packets
// alone is read as a capture once that is said.
function tryRead({ name, hex: digits, year, wanted }) {
  const alone = digits.length > 0 && readText(digits, "found").lists[0].pairs.some((pair) => pair.second === null);
  if (alone) seen.alone = (seen.alone ?? 0) + 1;
  if (digits !== "") {
    type(digits, year, alone ? "pairs" : "found");
    tryAnswer(`${name} as digits`, wanted);
  }
  type("", year, alone ? "pairs" : "found");
  showBytes(name, toBytes(digits));
  tryAnswer(`${name} as bytes`, wanted);
}

// The rows have to be the lines of `busview packets`, and the verdict those on a refusal, but for its hints.
function tryPackets({ name, hex: digits, year, wanted }) {
  type(digits, year, "pairs");
  if (digits === "") showBytes(name, toBytes(digits));
  const shown = [...find("rows").children].map((row) => {
    const cells = [...row.children].map((cell) => cell.textContent.trim());
    return `pair ${cells.join(" ")}`.replace(/ \d+ bytes, cut$/, " cut").trim();
  });
  const lines = wanted.split("\n").filter((line) => line.startsWith("pair "));
  const cut = lines.map((line) => line.replace(/^(pair \d+) [0-9a-f]+ cut$/, "$1 cut"));
  expect(name, "the packets", shown.join("\n"), cut.join("\n"));
  const refused = wanted.match(/^(refused .*)\n(.*)$/m);
  if (!refused) return;
  expect(name, "the verdict", verdict(), refused[1]);
  expect(name, "the sentence", find("verdict").children[1].textContent, refused[2]);
}

const ONE = "nodes 1 root 0 irm none";
const TWO = "nodes 2 root 1 irm 1";
const HUB = "nodes 5 root 4 irm none";

// What a driver says of two cards whose buses reset at the same time.
function twoCards() {
  const says = ["2 selfIDs, generation 1, local node ID ffc0", "selfID 0: 807f8094, phy 0 [p--]", "selfID 0: 817f88d4, phy 1 [c--]"];
  return says.flatMap((it) => [`firewire_ohci 0000:05:00.0: ${it}`, `firewire_ohci 0000:06:00.0: ${it}`]).join("\n");
}

// Each form that the page reads, with what it is read as and the verdict.
function tryForms() {
  const pairs = "807f80947f807f6b817f88d47e80772b";
  const forms = [
    ["{0x807f8094,0x817f88d4}", "hexadecimal words", TWO],
    ["{0X807F8094, 0X817F88D4}\n", "hexadecimal words", TWO],
    ["0x80 0x7f 0x80 0x94 0x7f 0x80 0x7f 0x6b", "hexadecimal words", "refused pair 1 NoRoot"],
    ["self_ids={0x807f8094,0x817f88d4}", "a trace of the Linux kernel", TWO],
    ["self_ids=2155839636 2172618964 more=1", "a trace of the Linux kernel", TWO],
    ["packet_data={0x807f8094,0x7f807f6b,0x817f88d4,0x7e80772b}", "a trace of the Linux kernel", TWO],
    ["packet_data={0x807f8094,0x7f807f6a}", "a trace of the Linux kernel", "refused pair 0 BadInverse"],
    ["807f8094 817f88d4", "hexadecimal digits", TWO],
    [pairs, "hexadecimal digits", TWO],
    ["\uFEFF" + pairs.toUpperCase(), "hexadecimal digits", TWO],
    [pairs.match(/../g).join(":"), "hexadecimal digits", TWO],
    ["00000000: 807f 8094 7f80 7f6b 817f 88d4 7e80 772b  ..........  ..w+\n", "the output of xxd", TWO],
    ["00000000  80 7f 80 94 7f 80 7f 6b  81 7f 88 d4 7e 80 77 2b  |.......k....~.w+|\n00000010\n",
      "the output of hexdump -C", TWO],
    ["selfID 0: 807f8094, phy 0 [p--]\nselfID 0: 817f88d4, phy 1", "the log of the Linux kernel's driver", TWO],
    [twoCards(), "the log of the Linux kernel's driver", TWO, 2],
    [TEXTS["examples/traces/bus_reset_handle.txt"], "a trace of the Linux kernel", TWO, 3],
    [TEXTS["cases/busview/resets/drivers-own-log"], "the log of the Linux kernel's driver", ONE, 4],
  ];
  for (const [text, form, wanted, lists] of forms) {
    type(text);
    expect(text, "the form", find("form").textContent, `Read as ${form}.`);
    expect(text, "the verdict", verdict(), wanted);
    const choice = find("list").parentElement.hidden ? 1 : find("list").options.length;
    expect(text, "lists to choose from", choice, lists ?? 1);
  }
  seen.forms = forms.length;
}

// The resets of a text, one after the other.
function tryLists() {
  const wanted = {
    "examples/traces/bus_reset_handle.txt": [ONE, HUB, TWO],
    "examples/traces/self_id_sequence.txt": [ONE, HUB, TWO],
    "cases/busview/resets/straight-from-the-controller": [TWO, TWO, HUB],
    "cases/busview/resets/lists-as-other-tools-print-them": [TWO, TWO, TWO, TWO, TWO, TWO, "refused pair 0 Empty"],
  };
  for (const [path, verdicts] of Object.entries(wanted)) {
    type(TEXTS[path]);
    verdicts.forEach((line, at) => {
      find("list").value = at;
      find("list").dispatchEvent(new Event("change"));
      expect(path, `the verdict of reset ${at + 1}`, verdict(), line);
    });
  }
}

function tryOther() {
  type("");
  expect("nothing", "the verdict", verdict(), "No packets yet.");
  type("good morning");
  expect("other text", "the verdict", verdict(), "This text isn't in a form that this page reads.");
  expect("other text", "no drawing", find("bus").hidden, true);
  type("807f8");
  expect("half a byte", "the verdict", verdict(), "This text isn't in a form that this page reads.");
  type("407f8094 bf807f6b", 2000, "alone");
  expect("a link-on packet alone", "the verdict", verdict(), "refused pair 0 NotSelfId");
  for (const button of document.querySelectorAll("[data-example]")) button.click();
  expect("the last example", "the verdict", verdict(), TWO);
  document.querySelector("[data-example=missingChild]").click();
  expect("an example", "the verdict", verdict(), "refused pair 1 TooFewChildren found 1 wanted 2");
  expect("an example", "the row at fault", document.querySelector("tr.fault").firstChild.textContent, "1");
  document.querySelector("[data-example=hub]").click();
}

// What is said of gap counts is what `busview tree` says.
function tryTree({ name, hex: digits, year, wanted }) {
  type(digits, year, "pairs");
  if (wanted.startsWith("refused")) return;
  const lines = [...find("gaps").children].map((it) => it.textContent);
  expect(name, "the gap counts", lines.join("\n"), wanted.trim().split("\n").slice(-2).join("\n"));
}

// Whether the middle of the root lies in the region that shows the drawing.
function showsRoot() {
  const root = document.querySelector("#tree .root").getBoundingClientRect();
  const region = find("tree").getBoundingClientRect();
  return region.left <= root.left && root.right <= region.right;
}

// A drawing wider than the page begins at its root, is fitted to the page, and is saved as a file of its own.
function tryDrawing() {
  const wide = TREES.map((it) => it.wanted).reduce((a, b) => (a.length > b.length ? a : b));
  const { hex: digits, year } = TREES.find((it) => it.wanted === wide);
  type(digits, year, "pairs");
  expect("a wide drawing", "its root is seen", showsRoot(), true);
  find("fit").click();
  expect("a fitted drawing", "nothing is left to scroll", find("tree").scrollWidth <= find("tree").clientWidth, true);
  find("fit").click();
  expect("a drawing in its own size", "its root is seen", showsRoot(), true);
  const file = new DOMParser().parseFromString(textOfDrawing(find("tree").firstChild), "image/svg+xml");
  expect("a saved drawing", "it is whole", file.querySelectorAll("g.node").length, drawn("node"));
  expect("a saved drawing", "it has colours", file.querySelector("text").getAttribute("fill").startsWith("rgb"), true);
}

// Each refusal leads to what its kind means.
function tryKinds() {
  const kinds = new Set(READ.map(({ wanted }) => (wanted.startsWith("refused") ? wanted.split(/\s/)[3] : "Empty")));
  for (const kind of kinds) expect(kind, "what it means", find(kind) !== null, true);
  seen.kinds = kinds.size;
  document.querySelector("[data-example=missingChild]").click();
  find("verdict").querySelector("a").click();
  expect("a refusal", "what it means is open", find("kinds").open, true);
}

// A file that is dropped.
async function tryDrop() {
  const carried = new DataTransfer();
  carried.items.add(new File([toBytes("94807f806b7f807fd4887f812b77807e")], "turned.bin"));
  document.dispatchEvent(new DragEvent("drop", { dataTransfer: carried, cancelable: true }));
  for (let waits = 0; waits < 100 && !find("form").textContent.includes("turned.bin"); waits++) {
    await new Promise((done) => setTimeout(done, 20));
  }
  expect("a dropped file", "the form", find("form").textContent,
    "Read as a capture with the bytes of its quadlets turned round of the file turned.bin.");
  expect("a dropped file", "the verdict", verdict(), TWO);
  showBytes("buffer", toBytes("0000020094807f806b7f807fd4887f812b77807e"));
  expect("a buffer", "the verdict", verdict(), TWO);
}

const sleep = (milliseconds) => new Promise((done) => setTimeout(done, milliseconds));

// A long trace, and the most bytes that the programs take, are shown whole or said to be too long; none leaves the
// verdict of the bus before it.
async function trySizes() {
  const line = "firewire: bus_reset_handle: status=0 self_ids={0x807f8094,0x817f88d4}\n";
  showExample("hub");
  await takeFile(new File([line.repeat(Math.ceil(300000 / line.length))], "long.txt"));
  expect("a trace of 300 KB", "the verdict", verdict(), TWO);
  showExample("hub");
  await takeFile(new File([new Uint8Array(MOST).fill(0x80)], "most.bin"));
  expect("1,048,576 bytes", "the verdict", verdict(), "refused pair 0 BadOrder");
  expect("1,048,576 bytes", "the rows", find("rows").children.length, MOST_ROWS + 1);
  showExample("hub");
  await takeFile(new File([new Uint8Array(2 * MOST)], "two.bin"));
  expect("2 MB", "the verdict", verdict(), `two.bin has ${2 * MOST} bytes. This page reads ${MOST} at most.`);
  expect("2 MB", "no drawing", find("bus").hidden, true);
  showExample("hub");
  type("80".repeat(MOST));
  expect("a long text", "the verdict", verdict(), `This text has ${2 * MOST} characters. This page reads ${MOST} at most.`);
  type("80".repeat(MOST / 2));
  expect("131,072 quadlets alone", "the verdict", verdict(), "refused pair 0 BadOrder");
  type(`self_ids={${"0x807f8094,".repeat(90000)}0x0}`);
  expect("90,001 numbers", "the verdict", verdict().split(" ")[0], "refused");
}

// What `busview import` reads as a capture is read as the same packets here.
function tryImport({ name, hex: digits, wanted }) {
  const pairs = readBytes(toBytes(digits), "found").lists.at(-1).pairs;
  const quadlets = pairs.flatMap(({ first, second }) => [first, second ?? ~first >>> 0]);
  expect(name, "the packets", hexOf(bytesOf(quadlets)), wanted);
}

// A file that can't be read, one that comes late, and an error of the page itself.
async function tryFaults() {
  showExample("hub");
  await takeFile({ name: "folder", size: 4096, arrayBuffer: () => Promise.reject(new Error("no file")) });
  expect("a folder", "the verdict", verdict(), "folder can't be read. A folder is no file.");
  expect("a folder", "no drawing", find("bus").hidden, true);
  const late = toBytes("807f80947f807f6b817f88d47e80772b");
  const slow = takeFile({ name: "late", size: 16, arrayBuffer: async () => { await sleep(300); return late.buffer; } });
  showExample("hub");
  await slow;
  expect("a late file", "the verdict", verdict(), HUB);
  const { read } = library;
  library.read = () => { throw new Error("broken"); };
  type("807f8094");
  library.read = read;
  expect("an error", "the verdict", verdict(), "The page failed over this input, so there is no verdict on it.");
  expect("an error", "no packets", find("packets").hidden, true);
}

// Texts in other letters than ASCII, in each of the ways in which they come.
function tryLetters() {
  const line = "h\u00e9-1 self_ids={0x807f8094,0x817f88d4}\n";
  const utf16 = (text, isBig) => Uint8Array.from([...`\uFEFF${text}`].flatMap((letter) => {
    const pair = [letter.charCodeAt(0) % 256, letter.charCodeAt(0) >> 8];
    return isBig ? pair.reverse() : pair;
  }));
  const ways = {
    "UTF-8": new TextEncoder().encode(line),
    "UTF-8 after a mark": new TextEncoder().encode(`\uFEFF${line}`),
    "latin 1": Uint8Array.from(line, (it) => it.charCodeAt(0)),
    "UTF-16": utf16(line, false),
    "big-endian UTF-16": utf16(line, true),
  };
  for (const [name, bytes] of Object.entries(ways)) {
    showExample("hub");
    showBytes(name, bytes);
    expect(name, "the verdict", verdict(), TWO);
  }
}

async function runTrial() {
  try {
    READ.forEach(tryRead);
    PACKETS.forEach(tryPackets);
    tryForms();
    tryLists();
    tryOther();
    TREES.forEach(tryTree);
    IMPORTS.forEach(tryImport);
    tryDrawing();
    tryKinds();
    await tryDrop();
    await trySizes();
    await tryFaults();
    tryLetters();
  } catch (error) {
    failed.push(`FAILED: ${error.stack}`);
  }
  const told = document.createElement("pre");
  told.id = "trial";
  const passed = `passed: ${READ.length} captures as digits and as bytes (${seen.alone ?? 0} once it is said that they are `
    + `pairs), ${PACKETS.length} packet by packet, ${TREES.length} drawings, ${IMPORTS.length} imports, ${seen.kinds} kinds of faults, ${seen.forms} texts, resets, examples, files, sizes, faults and letters`;
  told.textContent = failed.length > 0 ? failed.slice(0, 20).join("\n") : passed;
  document.body.append(told);
}

runTrial();
