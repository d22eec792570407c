"""Compares the numbers, records and calls of c/include/busconf.h with those of the crates, whose contracts cite them."""
import os
import re
import sys

top = sys.argv[1]


def text(path):
    with open(f"{top}/{path}", encoding="utf-8") as it:
        return it.read()


def snake(name):
    return re.sub(r"(?<!^)(?=[A-Z])", "_", name).upper()


header = text("c/include/busconf.h")
enums = {
    name: {it: int(number) for it, number in re.findall(r"\bBUSCONF_(\w+) = (\d+)", body)}
    for name, body in re.findall(r"^enum busconf_(\w+) \{\n(.*?)^\};", header, re.M | re.S)
}
renamed = re.findall(r"^  BUSCONF_RENAMED\(BUSCONF_(\w+), BUSCONF_(\w+)\)", header, re.M)
has = {name: int(number) for name, number in re.findall(r"#define BUSCONF_(\w+) (\d+)u?\b", header)}
for body in enums.values():
    has |= body
wants = {}
crate, border, scripts = "crates/busconf_c", "crates/c_border", "crates/script_c"
records, heapless = "crates/c_records", "crates/heapless_c"


def want(prefix, path, pattern):
    for name, number in re.findall(pattern, text(path), re.M):
        wants[prefix + snake(name)] = int(number)


want("FAULT_", f"{records}/specs/Faults.antt", r"_record \(?(\w+).*?\)? =\s+fault_with (\d+)")
want("PACKET_", f"{heapless}/specs/Packets.antt", r"packet_record \((\w+)[^)]*\) =\s+record \(blank (\d+)\)")
want("ROM_", "crates/config_rom/specs/Line.antt", r"rom_refusal \((?:Rom)?(\w+).*?\) =\s+refusal_with (\d+)")
want("BLOCK_", f"{crate}/specs/Roms.antt", r"kind_number (\w+) = (\d+)")
want("CRC_", f"{crate}/specs/Roms.antt", r"block_of b \(?(\w+).*? = block_with b (\d+)")
want("GRANT_", f"{heapless}/specs/Registers.antt", r"grant_record \(?(\w+).* kind = (\d+) }")
want("SCRIPT_", f"{scripts}/specs/Faults.antt", r"^kind_number (\w+) = (\d+)$")
want("CHANGE_", f"{crate}/specs/Changes.antt", r"^change_record \((\w+) .*?\) = \w+ (\d+) ")
want("CHANGE_", f"{crate}/specs/Changes.antt", r"^quality_number (\w+) = (\d+)$")
want("LIST_", f"{crate}/specs/Changes.antt", r"no_(old|new) : (?:\(old : Tree\))?[^:]*?IsMarked (\d)")
want("EVENT_", f"{heapless}/specs/Events.antt", r"^what_record turn \((\w+) .*?\) =\s+(?:record \()?at_node (\d+) ")
want("SIGNAL_", f"{heapless}/specs/Events.antt", r"^signal_number \(?signal\.(\w+).*? = (\d+)$")
want("SLOT_", "crates/self_id/specs/Node.antt", r"^status_bits (\w+) = (\d)$")
for name, number in re.findall(r"^(bad_\w+) pair = fault_with (\d+)", text(f"{records}/specs/Faults.antt"), re.M):
    wants["FAULT_" + name.upper()] = int(number)
states = dict(re.findall(r"^state_words phase\.(\w+) = codes \" enters (\w+)\"$", text("crates/trace_event/specs/Event.antt"), re.M))
for phase, number in re.findall(r"^state_number phase\.(\w+) = (\d)$", text(f"{heapless}/specs/Events.antt"), re.M):
    wants["STATE_" + states[phase]] = int(number)
for name, number in re.findall(r"pub const (\w+): \w+ = ([\d_]+);", text(f"{border}/src/status.rt") + text(f"{records}/src/records.rt") + text(f"{heapless}/src/records.rt")):
    wants[name] = int(number)
for year in re.findall(r"year == (\d+) then Some", text(f"{records}/specs/Standards.antt")):
    wants[f"IEEE{year}"] = int(year)
wants["ID_NONE"] = int(re.search(r"^id_or_none None = (\d+)$", text(f"{records}/specs/Shown.antt"), re.M)[1])
wants["MAX_NODES"] = int(re.search(r"length \(walk t\) ≤ (\d+)", text("crates/topology_stack/specs/Tree.antt"))[1])
wants["VERSION"] = int(re.search(r"ensures \{ result ≡ (\d+) \}", text(f"{heapless}/src/version.rt"))[1])
bad = [f"{it}: header {has.get(it)}, contracts {wants.get(it)}" for it in sorted({*has, *wants}) if has.get(it) != wants.get(it)]

# The version is that of the programs. Each family of numbers but the answers has a prefix. Old names lead to names.
parts = re.search(r'^pub const VERSION: &str = "(\d+)\.(\d+)\.(\d+)";', text("crates/about/src/lib.rt"), re.M)
if has["VERSION"] != int(parts[1]) * 1000000 + int(parts[2]) * 1000 + int(parts[3]):
    bad.append(f"the version is {'.'.join(parts.groups())}")
for name, body in enums.items():
    if body and name != "status" and not re.match(r"[A-Z]+_|IEEE", os.path.commonprefix(list(body))):
        bad.append(f"enum busconf_{name}: no prefix")
bad += [f"{old} is {now}" for old, now in renamed if old in has or now not in has]

# What the heads of definitions say of the statuses, as `0 valid`, and that each digit behind a status is said there.
for file in [border, records, heapless, crate, scripts]:
    for path in sorted(os.listdir(f"{top}/{file}/specs")):
        said = text(f"{file}/specs/{path}")
        head = {int(number): name for line in re.findall(r"^-- Status\w*: (.*)\.$", said, re.M) for number, name in re.findall(r"(\d) ([a-z ]+)", line)}
        used = {int(number) for number in re.findall(r"status ≡ (\d)", said)}
        bad += [f"{path}: status {it}" for it in sorted(head) if wants.get(head[it].replace(" ", "_").upper()) != it]
        bad += [f"{path}: the head doesn't say what status {it} is" for it in sorted(used - set(head))]

widths = {"u8": "uint8_t", "u16": "uint16_t", "u32": "uint32_t", "usize": "size_t", "SlotRecord": "struct busconf_slot", "CableRecord": "struct busconf_cable"}
arrays = {"MAX_SLOTS": "BUSCONF_MAX_SLOTS", "READER_QUADS": "BUSCONF_READER_QUADS"}
in_header = {
    name: [(kind, field, size) for kind, field, size in re.findall(r"^  ([\w ]+) (\w+)(?:\[(\w+)\])?;", body, re.M)]
    for name, body in re.findall(r"^struct busconf_(\w+) \{\n(.*?)^\};", header, re.M | re.S)
}
shown = {}
for name, body in re.findall(r"pub struct (\w+)Record \{\n(.*?)^\}", "".join(text(f"{it}/src/records.rt") for it in (records, heapless, crate)) + text(f"{scripts}/src/record.rt"), re.M | re.S):
    fields = re.findall(r"pub (\w+): \[?(\w+)(?:; (\w+)\])?,", body)
    shown[snake(name).lower()] = [(widths[kind], field, arrays[size] if size else "") for field, kind, size in fields]
bad += [f"struct {it}: {in_header.get(it)}, crate {shown.get(it)}" for it in sorted({*in_header, *shown}) if in_header.get(it) != shown.get(it)]

# A call that is handed an allocator says in the header that it takes memory, and no other does. The crate of those that
# take none names no allocator.
exports, homes = {}, {}
for it in [heapless, crate, scripts]:
    for file in re.findall(r"^mod (\w+);", text(f"{it}/src/lib.rt"), re.M):
        for name, words in re.findall(r'pub extern "C" fn (\w+)\((.*?)\)\s*(?:->|\n|ensures)', text(f"{it}/src/{file}.rt"), re.S):
            exports[name], homes[name] = "alloc: Global" in words, os.path.basename(it)
for it in [records, heapless]:
    for folder, _, files in os.walk(f"{top}/{it}/src"):
        for file in files:
            if re.search(r"\bGlobal\b|\balloc\b|\bAlloc\w*|\bVec\b|\bBox\b", text(os.path.relpath(os.path.join(folder, file), top))):
                bad.append(f"{it}: {file} names an allocator or what takes memory")
declared = {}
for said, name in re.findall(r"/\*((?:(?!\*/).)*)\*/\n(?:enum )?\w+ (busconf_\w+)\(", header, re.S):
    declared[name] = "Takes memory." in said
# What is C alone takes memory where its file does.
alone = []
for it in ("heapless_c", "busconf_c", "script_c"):
    said = text(f"c/border/{it}.c")
    for name in re.findall(r"^(?:enum )?\w+ (busconf_\w+)\(", said, re.M):
        if f"PROVED({name});" not in said:
            exports[name] = "malloc(" in said
            alone.append(name)
bad += [f"{it}: only in one of the header and the crates" for it in sorted(set(exports) ^ set(declared))]
bad += [f"{it}: whether it takes memory" for it in sorted(set(exports) & set(declared)) if exports[it] != declared[it]]

# What takes a length has something before it, which makes a pointer to something of a null one, and stands in the file of
# the call's crate.
before = []
for it in ("heapless_c", "busconf_c", "script_c"):
    found = re.findall(r"^PROVED\((\w+)\);", text(f"c/border/{it}.c"), re.M)
    bad += [f"{name}: in c/border/{it}.c, and not in the crate {it}" for name in found if homes.get(name) != it]
    before += found
lengths = re.findall(r"^(?:enum )?\w+ (busconf_\w+)\([^;]*\bsize_t (?:count|room)\b[^;]*\);", header, re.M)
bad += [f"{it}: a length without c/border/, or the other way round" for it in sorted({*before, *alone} ^ set(lengths))]
print("\n".join(bad) or f"numbers: {len(wants)} numbers, {len(shown)} records and {len(exports)} calls of the header are the crates'")
sys.exit(1 if bad else 0)
