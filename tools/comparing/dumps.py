"""Recordings of `nosy-dump`: bus resets with self-ID packets, other packets between them, and such that are damaged.

Each is made by a generator `words` (random.Random) alone. docs/CAPTURES.md has the records.
"""
import struct

from . import captures

INVERSE = captures.INVERSE


def record(*quads):
    return struct.pack(f"<{len(quads) + 1}I", 4 * len(quads), *quads)


def packet(words, time, quad):
    """A PHY packet; now and then damaged on its way."""
    inverse = quad ^ INVERSE
    if words.random() < 0.03:
        inverse ^= 1 << words.randrange(32)
    return record(time, quad, inverse, words.choice([0, 0, 17]))


def other(words, time):
    """A record that is no self-ID packet of a reset."""
    return words.choice([
        record(time, words.randrange(1 << 32)), record(*[words.randrange(1 << 32) for _ in range(words.randint(2, 9))]),
        packet(words, time, words.choice([0x00c00000, 0x41000000, 0x00800000])), packet(words, time, 0x807f8054)])


def dump(words):
    data, time, quads = b"", words.randrange(1 << 20), captures.small_bus(words)
    if words.random() < 0.2:
        data += other(words, time)
    for _ in range(words.choice([0, 1, 2, 3, 4, 6])):
        time = (time + words.choice([1, 300, 200000])) % words.choice([1000000, 1 << 32])
        data += record(time)
        for quad in quads:
            data += packet(words, time, quad)
            if words.random() < 0.02:
                data += other(words, time)
        quads = captures.next_list(words, quads)
    how = words.randrange(12)
    if how == 0:
        data = data[:words.randint(0, len(data))]
    elif how == 1 and data:
        at = words.randrange(len(data))
        data = data[:at] + bytes([data[at] ^ 1 << words.randrange(8)]) + data[at + 1:]
    elif how == 2:
        data += struct.pack("<I", words.choice([0, 7, 65540, 65536, 4]))
    return data
