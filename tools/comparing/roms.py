"""Configuration ROMs: good, damaged, cut, and of bytes alone. Each is made by a generator `words` (random.Random) alone.

docs/ROMS.md says what a ROM is."""
import struct

IMMEDIATE, OFFSET, LEAF, DIRECTORY = range(4)


def crc16(quads):
    """The CRC of IEEE Std 1212."""
    crc = 0
    for quad in quads:
        for shift in range(28, -4, -4):
            total = (crc >> 12 ^ quad >> shift) & 15
            crc = (crc << 4 ^ total << 12 ^ total << 5 ^ total) & 0xffff
    return crc


def block(quads):
    return [len(quads) << 16 | crc16(quads)] + quads


def entry(kind, key, value):
    return kind << 30 | key << 24 | value


def directory(words, entries, depth):
    """A directory with so many entries, and behind it the blocks to which they lead."""
    kinds = [words.choices([IMMEDIATE, OFFSET, LEAF, DIRECTORY], [4, 1, 4, 2 if depth else 0])[0] for _ in range(entries)]
    below, quads = [], []
    for at, kind in enumerate(kinds):
        value = words.randrange(1 << 24)
        if kind in (LEAF, DIRECTORY):
            value = entries - at + len(below)
            below += leaf(words) if kind == LEAF else directory(words, words.randrange(4), depth - 1)
        quads.append(entry(kind, words.choice([1, 3, 12, 17, 18, 19, words.randrange(64)]), value))
    return block(quads) + below


def leaf(words):
    return block([words.randrange(1 << 32) for _ in range(words.randrange(5))])


def good(words):
    """A general ROM, sealed."""
    info = [0x31333934] + [words.randrange(1 << 32) for _ in range(words.choice([3, 3, 3, 0, 1, 7]))]
    rest = directory(words, words.choice([0, 1, 2, 3, 5, 8]), words.choice([0, 1, 2]))[:255 - len(info)]
    covered = words.choice([len(info), len(info) + len(rest), words.randint(0, len(info) + len(rest))])
    return [len(info) << 24 | covered << 16 | crc16((info + rest)[:covered])] + info + rest


def damaged(words, quads):
    """A ROM of which some quadlets are others, mostly the entries and heads of blocks."""
    quads = list(quads)
    for _ in range(words.choice([1, 1, 2, 3])):
        at, how = words.randrange(len(quads)), words.randrange(6)
        if how == 0:
            quads[at] ^= 1 << words.randrange(32)
        elif how == 1:
            quads[at] = words.choice([LEAF, DIRECTORY]) << 30 | words.randrange(64) << 24 | words.randrange(len(quads) + 2)
        elif how == 2:
            quads[at] = quads[at] & 0xffff | words.randrange(len(quads) + 2) << 16
        elif how == 3:
            info, covered = words.choice([0, 1, 2, 4, len(quads) & 255, 255]), words.choice([0, 4, len(quads) & 255, 255])
            quads[0] = quads[0] & 0xffff | info << 24 | covered << 16
        elif how == 4:
            del quads[at:at + words.choice([1, 1, 4])]
            quads = quads or [0]
        else:
            quads += words.choice([[0], quads, [words.randrange(1 << 32)] * (256 - len(quads))])
    return quads


def rom(words):
    """A ROM of any of these sorts, as bytes."""
    sort = words.choices(["good", "damaged", "cut", "turned", "noise"], [35, 45, 10, 3, 7])[0]
    if sort == "noise":
        return bytes(words.choice([0, 1, 4, words.randrange(256)]) for _ in range(words.choice([0, 1, 3, 4, 8, 20, 1028])))
    quads = good(words)
    if sort == "damaged":
        quads = damaged(words, quads)
    data = struct.pack(f"{'<' if sort == 'turned' else '>'}{len(quads)}I", *quads)
    return data[:words.randint(0, len(data))] if sort == "cut" else data
