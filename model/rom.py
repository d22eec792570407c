"""Configuration ROMs: docs/ROMS.md."""

from .captures import quadlets
from .maps import crc16
from .packets import bits
from .reach import reached

BUS_NAME = 0x31333934
DIRECTORY, LEAF = "directory", "leaf"
ENTRY_TYPES = ("immediate", "offset", LEAF, DIRECTORY)


class RomFault(Exception):
    def __init__(self, place, kind):
        super().__init__(kind)
        self.place, self.kind = place, kind
        reached[f"fault {kind}"] += 1

    def line(self):
        return f"refused quadlet {self.place} {self.kind}\n"


def read_rom(data):
    """The quadlets, once the bus information block and the root directory are whole."""
    if len(data) % 4:
        raise RomFault(len(data) // 4, "RomLength")
    quads = quadlets(data)
    if len(quads) > 256:
        raise RomFault(256, "RomTooLong")
    if not quads:
        raise RomFault(0, "RomEmpty")
    info = bits(quads[0], 24, 8)
    if info == 0:
        raise RomFault(0, "NoInfo")
    if info == 1:
        raise RomFault(0, "Minimal")
    if len(quads) < 1 + info:
        raise RomFault(len(quads), "RomCut")
    if quads[1] != BUS_NAME:
        raise RomFault(1, "BusName")
    if not is_whole(quads, 1 + info):
        raise RomFault(len(quads), "RomCut")
    return quads


def is_whole(quads, place):
    return place < len(quads) and place + 1 + bits(quads[place], 16, 16) <= len(quads)


def entries(quads, place):
    """The entries of a directory: where each stands, its type, its key, its value, and where it leads or None."""
    for at in range(place + 1, place + 1 + bits(quads[place], 16, 16)):
        kind, key, value = ENTRY_TYPES[bits(quads[at], 30, 2)], bits(quads[at], 24, 6), bits(quads[at], 0, 24)
        yield at, kind, key, value, at + value if kind in (LEAF, DIRECTORY) else None


def blocks(quads):
    """The directories and leaves to which the root directory leads, by rising place, a directory before a leaf."""
    found = {(1 + bits(quads[0], 24, 8), DIRECTORY)}
    done = []
    while found:
        place, kind = min(found)  # 'directory' is less than 'leaf'
        found.remove((place, kind))
        done.append((place, kind))
        if not is_whole(quads, place):
            raise RomFault(place, "Outside")
        for at, entry, _, _, target in entries(quads, place) if kind == DIRECTORY else ():
            reached[f"entry {entry}"] += 1
            if target == at:
                raise RomFault(at, "SelfTarget")
            if target is not None and (target, entry) not in done:
                found.add((target, entry))
    return done


def crc_words(kept, quads):
    computed = crc16(quads)
    return "good" if kept == computed else f"bad {kept:04x} {computed:04x}"


def rom(data):
    quads = read_rom(data)
    info, covered = bits(quads[0], 24, 8), bits(quads[0], 16, 8)
    crc = crc_words(bits(quads[0], 0, 16), quads[1 : 1 + covered]) if covered < len(quads) else "past"
    lines = [f"rom quadlets {len(quads)} info {info} crc_length {covered} crc {crc}"]
    lines += [f"info {quad:08x}" for quad in quads[1 : 1 + info]]
    listed = blocks(quads)
    for place, kind in listed:
        length = bits(quads[place], 16, 16)
        crc = crc_words(bits(quads[place], 0, 16), quads[place + 1 : place + 1 + length])
        lines.append(f"{kind} {place} length {length} crc {crc}")
        for _, entry, key, value, target in entries(quads, place) if kind == DIRECTORY else ():
            lines.append(f"entry {entry} {key:02x} {value:06x}" + ("" if target is None else f" to {target}"))
    lines.append(f"blocks {len(listed)}")
    return "".join(line + "\n" for line in lines)
