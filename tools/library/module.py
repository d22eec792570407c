"""Tries c/python/busconf.py: its numbers and records against the header's, and its calls over the cases of the programs.

The first argument is the top of the repository; BUSCONF_LIBRARY names the shared object.
"""
import array
import ctypes
import ctypes.util
import glob
import os
import pickle
import re
import subprocess
import sys

top = sys.argv[1]
sys.path.insert(0, os.path.join(top, "c", "python"))
sys.dont_write_bytecode = True

import busconf  # noqa: E402

bad = []


def text(path):
    with open(os.path.join(top, path), encoding="utf-8") as file:
        return file.read()


def data(path):
    with open(path, "rb") as file:
        return file.read()


def cases(folder):
    """The inputs of a folder of cases, the words of each, and what is wanted of it."""
    for wanted in sorted(glob.glob(os.path.join(top, "cases", folder, "*.stdout"))):
        path = wanted[: -len(".stdout")]
        words = data(path + ".args").decode().split() if os.path.exists(path + ".args") else []
        yield path, words, data(wanted).decode(errors="replace")


def expect(holds, what):
    if not holds:
        bad.append(what)


# ---- numbers and records

families = {
    "status": (busconf.Status, ""),
    "standard": (busconf.Standard, ""),
    "slot_status": (busconf.SlotStatus, "SLOT_"),
    "fault_kind": (busconf.FaultKind, "FAULT_"),
    "packet_kind": (busconf.PacketKind, "PACKET_"),
    "script_fault_kind": (busconf.ScriptFaultKind, "SCRIPT_"),
    "block_kind": (busconf.BlockKind, "BLOCK_"),
    "block_crc": (busconf.BlockCrc, "CRC_"),
    "rom_fault_kind": (busconf.RomFaultKind, "ROM_"),
    "grant_kind": (busconf.GrantKind, "GRANT_"),
    "change_kind": (busconf.ChangeKind, "CHANGE_"),
    "list": (busconf.Which, "LIST_"),
    "event_kind": (busconf.EventKind, "EVENT_"),
    "state": (busconf.State, "STATE_"),
    "signal": (busconf.Signal, "SIGNAL_"),
}
header = text("c/include/busconf.h")
for name, body in re.findall(r"^enum busconf_(\w+) \{\n(.*?)^\};", header, re.M | re.S):
    has = {it: int(number) for it, number in re.findall(r"\bBUSCONF_(\w+) = (\d+)", body)}
    if has:
        family, prefix = families.pop(name, (busconf.Status, "?"))
        expect(has == {prefix + it.name: it.value for it in family}, f"enum busconf_{name}")
expect(not families, f"no enum of the header: {', '.join(families)}")
for name in ("ID_NONE", "MAX_NODES", "MAX_SLOTS", "READER_QUADS", "NUMBER_NONE"):
    expect(f"#define BUSCONF_{name} {getattr(busconf, name)}u" in header, name)
version = re.search(r'VERSION: &str = "(.*)"', text("crates/about/src/lib.rt"))[1]
expect(version == ".".join(map(str, busconf.VERSION)), f"the version is {version}")


def record(name):
    return getattr(busconf, "_" + "".join(it.capitalize() for it in name.split("_")))


layout = text("tools/library/layout.c")
for name, size in re.findall(r"^SIZE\((\w+), (\d+)\);", layout, re.M):
    expect(ctypes.sizeof(record(name)) == int(size), f"the size of struct busconf_{name}")
for name, field, place in re.findall(r"^AT\((\w+), (\w+), (\d+)\);", layout, re.M):
    expect(getattr(record(name), field).offset == int(place), f"the place of {field} in struct busconf_{name}")


# ---- cases


def node_line(node):
    signs = {"ABSENT": " -", "UNPLUGGED": " .", "UP": " ^{}", "DOWN": " v{}"}
    slots = "".join(signs[it.status.name].format(it.peer) for it in node.slots)
    return (f"node {node.id} link {int(node.link)} gap {node.gap} speed {node.speed} contender {int(node.contender)} "
            f"power {node.power} initiated {int(node.initiated)} ports{slots}\n")


def said_of(call, *words):
    """What a call says, or the line of its refusal."""
    try:
        return call(*words)
    except busconf.Refused as refused:
        return f"{refused.line}\n"


def explained(call, *words):
    try:
        return call(*words)
    except busconf.Refused as refused:
        return f"{refused.line}\n{refused.sentence}\n"


def read(capture, standard):
    bus = busconf.read_capture(capture, standard)
    manager = "none" if bus.manager is None else bus.manager
    return "".join(map(node_line, bus.nodes)) + f"nodes {len(bus.nodes)} root {bus.root} irm {manager}\n"


def blocks(rom):
    lines = ""
    for it in busconf.rom_check(rom):
        crc = "good" if it.crc == busconf.BlockCrc.GOOD else f"bad {it.kept:04x} {it.computed:04x}"
        lines += f"{it.kind.name.lower()} {it.at} length {it.length} crc {crc}\n"
    return lines


def compare(folder, said, keep=lambda wanted: wanted):
    """Compares what is said of each input of a folder with what is wanted; None passes a case over."""
    count = 0
    for path, words, wanted in cases(folder):
        answer = said(data(path), words)
        if answer is not None:
            expect(answer == keep(wanted), os.path.relpath(path, top))
            count += 1
    print(f"library: module.py: {count} cases of {os.path.basename(folder)}")


def lines_of(pattern):
    return lambda wanted: "".join(it + "\n" for it in wanted.splitlines() if re.match(pattern, it))


def refusal(capture, words):
    said = explained(read, capture, 1995 if "--1995" in words else 2000)
    return said if said.startswith("refused ") else ""


def refusal_of(wanted):
    found = re.search(r"^refused pair .*\n.*\n", wanted, re.M)
    return found[0] if found else ""


def list_of(capture):
    return [int.from_bytes(capture[at : at + 4], "big") for at in range(0, len(capture) // 8 * 8, 8)]


def has_list(capture):
    pairs = [capture[at : at + 8] for at in range(0, len(capture), 8)]
    return all(len(it) == 8 and all(a ^ b == 0xFF for a, b in zip(it, it[4:])) for it in pairs)


def place(word, cable):
    return f" {word} port {cable.port} of node {cable.parent} on its port {cable.child_port}"


def another(word, it):
    """That another node is the root or the manager."""
    none = lambda number: "none" if number is None else number
    if it.old_id == it.new_id:
        return f"{word} is another node, again {it.old_id}"
    return f"{word} old {none(it.old_id)} new {none(it.new_id)}"


def change_line(it):
    """The line of a change, as `busview diff` writes it."""
    old, new, kind = it.old_cable, it.new_cable, it.kind
    both = f"node {it.old_id}" if it.old_id == it.new_id else f"node {it.old_id} now {it.new_id}"
    if kind == busconf.ChangeKind.WENT:
        return f"node {it.old_id}" + (place("went from", old) if old else " went")
    if kind == busconf.ChangeKind.CAME:
        return f"node {it.new_id}" + (place("came to", new) if new else " came")
    if kind == busconf.ChangeKind.MOVED:
        left = place("moved from" if new else "left", old) if old else ""
        return both + left + (place("to" if old else "joined", new) if new else "")
    if kind == busconf.ChangeKind.ROOT:
        return another("root", it)
    if kind == busconf.ChangeKind.MANAGER:
        return another("irm", it)
    return f"{both} {kind.name.lower()} {it.old_value} now {it.new_value}"


def differs(capture, words):
    """What differs between the captures that the words name, or the one refusal that is told; the module has no JSON."""
    if "--json" in words:
        return None
    standard, words = (1995, words[2:]) if "--1995" in words else (2000, words[1:])
    captures = [capture if it == "-" else data(os.path.join(top, "cases/busview/diff", it)) for it in words]
    if len(words) != 2 or not all(map(has_list, captures)):
        return None
    lists = list(map(list_of, captures))
    try:
        return "".join(f"{change_line(it)}\n" for it in busconf.diff(*lists, standard))
    except busconf.Refused as refused:
        return f"{words[refused.which - 1]}: {refused.line}\n"


def first_refusal(wanted):
    return re.sub(r"\A(\S+: refused .*\n)[^:]+: refused .*\n\Z", r"\1", wanted)


def captured(script, words):
    if len(words) != 2 or words[0] != "capture":
        return None
    try:
        return said_of(lambda: busconf.capture(script, words[1]).decode("latin-1"))
    except ValueError:
        return ""


compare("busconf/read", lambda it, words: said_of(read, it, 2000))
compare("busconf/read95", lambda it, words: said_of(read, it, 1995))
compare("busconf/rom", lambda it, words: said_of(blocks, it), lines_of("directory |leaf |refused "))
compare("busview/packets", refusal, refusal_of)
compare("busconf/run", lambda it, words: said_of(busconf.run, it))
compare("busconf/advice", lambda it, words: said_of(busconf.advice, it))
compare("busview/trace", lambda it, words: explained(busconf.trace, it))
compare("busview/trace", lambda it, words: explained(lambda: "".join(f"{event}\n" for event in busconf.events(it))))
compare("busview/waves", lambda it, words: explained(busconf.waves, it))
compare("busview/diff", differs, first_refusal)
for path, words, wanted in cases("busview/capture"):
    answer = captured(data(path), words)
    expect(answer in (None, data(path + ".stdout").decode("latin-1")), os.path.relpath(path, top))


# ---- the calls that no case has

script = data(os.path.join(top, "examples", "two-nodes.script"))
capture = busconf.capture(script, "a")
quads = [int.from_bytes(capture[at : at + 4], "big") for at in range(0, len(capture), 8)]
bus = busconf.read(quads)
at_nodes = [it for it in busconf.events(script) if it.node is not None]
expect({it.node for it in at_nodes} == {"a", "b"}, "the nodes of events")
expect(sum(it.what.startswith("phy_ID ") for it in at_nodes) >= len(bus.nodes), "each node takes an ID")
for it in at_nodes:
    if it.kind == busconf.EventKind.PHY_ID:
        expect(it.what == f"phy_ID {it.value}", "the ID of an event")
    if it.kind == busconf.EventKind.ENTERS:
        expect(it.what == f"enters {busconf.State(it.value).name}", "the state of an event")
    if it.kind == busconf.EventKind.SENDS and it.value == busconf.Signal.PACKET:
        expect(it.what == f"sends packet {it.second:08x}", "the packet of an event")
reader = busconf.Reader()
for quad in quads:
    expect(reader.state()[0] == busconf.Status.INCOMPLETE, "a list that goes on")
    reader.push(quad)
expect(reader.state() == (busconf.Status.OK, None) and reader.quads == quads, "a list that is whole")
for standard in busconf.Standard:
    expect(reader.bus(standard) == (busconf.Status.OK, busconf.read(quads, standard)), "the bus of a whole list")
reader.push(quads[0])
expect(reader.bus()[1] == reader.state()[1] and reader.bus()[0] == busconf.Status.REFUSED, "a fault that lasts")
expect(busconf.hops(quads) == len(bus.nodes) - 1, "hops")
best = busconf.plan(quads)
expect(best is None or best.gap == busconf.gap_for(best.hops), "a plan")
for image in (busconf.topology_map(quads, 7), busconf.speed_map(quads, 7)):
    expect(image[1] == 7 and image[0] & 0xFFFF == busconf.crc16(image[1:]), "an image")
expect(len(busconf.speed_rows(quads)) == 64 * len(bus.nodes), "rows")
for quad in [*quads, 0x01C50000, 0x42000000, 0x03040000, 0xC0000001]:
    expect(busconf.encode(busconf.decode(quad)) == quad, "a packet, both ways")
registers = busconf.Registers()
seen = registers.look()
registers.allocate(31, 915, seen)
expect(registers.read(0x220) == (4000, 0), "what is left")
try:
    registers.allocate(32, 1, seen)
    bad.append("what was seen changed")
except busconf.Denied as denied:
    expect(denied.kind == busconf.GrantKind.CHANGED and denied.now == 4000, "by which register")
registers.release(31, 915)
expect(registers.attempt(5) == (True, 5) and registers.attempt(6) == (False, 5), "one bus manager")
WIDE = 1 << 32
before = registers.values()
for what, wrong in {
    "a quadlet of a list": lambda: busconf.read([WIDE]),
    "a quadlet below 0": lambda: busconf.decode(-1),
    "a quadlet to decode": lambda: busconf.decode(WIDE + 5),
    "a quadlet of a reader": lambda: busconf.Reader().push(WIDE),
    "another standard": lambda: busconf.read([], 1996),
    "a wide standard": lambda: busconf.read(quads, WIDE + 2000),
    "a long script": lambda: busconf.run(b"\n" * 1048577),
    "a generation": lambda: busconf.topology_map(quads, -1),
    "a wide generation": lambda: busconf.speed_map(quads, WIDE),
    "a field that there is not": lambda: busconf.encode({"kind": busconf.PacketKind.SELF_ZERO, "gap_count": 5}),
    "an offset": lambda: registers.read(WIDE + 0x220),
    "a kind": lambda: registers.lock(0x220, 4915, 1, 258),
    "an argument": lambda: registers.lock(0x220, WIDE, 1),
    "a value": lambda: registers.lock(0x220, 4915, -1),
    "two numbers seen": lambda: registers.allocate(1, 1, (1, 2)),
    "a number seen": lambda: registers.allocate(1, 1, (WIDE, 0, 0)),
}.items():
    try:
        wrong()
        bad.append(f"{what}: no ValueError")
    except busconf.Refused:
        bad.append(f"{what}: refused in place of a ValueError")
    except ValueError:
        pass
expect(registers.values() == before, "a lock past its width writes nothing")

# Views count by their bytes, whatever their items.
for view in (array.array("I", capture), memoryview(capture).cast("I"), bytearray(capture)):
    expect(busconf.read_capture(view) == bus, f"a capture as {type(view).__name__}")

# Exceptions go from one process to another. What was seen before an allocation isn't there behind it.
others = busconf.Registers()
seen = others.look()
others.allocate(1, 1)
for wrong in (lambda: busconf.read(quads[:1]), lambda: others.allocate(2, 1, seen)):
    try:
        wrong()
        bad.append("no exception")
    except (busconf.Refused, busconf.Denied) as told:
        copy = pickle.loads(pickle.dumps(told))
        expect(type(copy) is type(told) and copy.__dict__ == told.__dict__ and str(copy) == str(told), "a copied exception")

# Libraries that can't be had, or are others.
for library, said in (("/nothing.so", "can't be loaded"), (ctypes.util.find_library("m") or "libm.so.6", "is no libbusconf")):
    how = {**os.environ, "BUSCONF_LIBRARY": library, "PYTHONPATH": os.path.join(top, "c", "python")}
    done = subprocess.run([sys.executable, "-c", "import busconf"], capture_output=True, text=True, env=how, check=False)
    expect("ImportError: " in done.stderr and said in done.stderr, f"the library {library}")

print("\n".join(f"library: module.py: {it}: not what is wanted" for it in bad) or "library: module.py: all of busconf.py")
sys.exit(1 if bad else 0)
