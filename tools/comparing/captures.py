"""Captures: of buses, with something near to them changed, cut, and of bytes alone, by both standards.

Each is made by a generator `words` (random.Random) alone. docs/CAPTURES.md says what a capture is.
"""
import struct

SHAPES = ["line", "star", "random", "hubs"]
STANDARDS = ["2000", "1995"]
SLOTS = {"2000": [3, 11, 16], "1995": [3, 11, 19, 27]}
ABSENT, UNPLUGGED, UP, DOWN = range(4)
FURTHER = 1 << 23
INVERSE = 0xffffffff


class Bus:
    """The list of a made bus: nodes in the order of self identify, each with the latest trees as its children."""

    def __init__(self, words, standard, shape, count):
        self.standard, self.shape, self.count = standard, shape, count
        self.groups = []
        gap = words.choice([words.randrange(64), 5, 63])
        speeds = words.choice([[0], [1], [2], [0, 1, 2], [0, 1, 2, 3]])
        waiting, most = 0, SLOTS[standard][-1]
        for node in range(count):
            is_root = node + 1 == count
            children = waiting if is_root else self.children(words, waiting, most)
            waiting += 1 - children
            self.groups.append(self.group(words, node, children, is_root, gap, words.choice(speeds)))

    def children(self, words, waiting, most):
        """How many of the trees that wait a node takes that is no root. No more wait than the root has slots."""
        wanted = {"line": 1, "star": 0, "random": words.randrange(4), "hubs": 0 if waiting < most - 1 else waiting}[self.shape]
        return min(max(wanted, waiting + 1 - most), waiting)

    def group(self, words, node, children, is_root, gap, speed):
        """The packets of a node, which may have ports without a cable and more slots than ports."""
        links = [DOWN] * children + ([] if is_root else [UP])
        ports = links + [UNPLUGGED] * min(words.randrange(4), SLOTS[self.standard][-1] - len(links))
        words.shuffle(ports)
        width = min(slots for slots in SLOTS[self.standard] if len(ports) <= slots)
        ports += [ABSENT] * (width - len(ports))
        head = 0x80000000 | node << 24
        own = words.randrange(2) << 22 | gap << 16 | speed << 14 | words.randrange(2) << 11 | words.randrange(8) << 8
        quads = [head | own | ports[0] << 6 | ports[1] << 4 | ports[2] << 2 | words.choice([0, 0, 0, 2])]
        for number, start in enumerate(range(3, width, 8)):
            quads[-1] |= 1
            fields = 0
            for port in (ports[start:start + 8] + [0] * 8)[:8]:
                fields = fields << 2 | port
            quads.append(head | FURTHER | number << 20 | fields << 2)
        return quads

    def quads(self):
        return [quad for group in self.groups for quad in group]


def capture(quads):
    """The bytes of packets: each quadlet and its inverse, big-endian."""
    return b"".join(struct.pack(">II", quad, quad ^ INVERSE) for quad in quads)


def any_bus(words):
    count = words.choice([1, 2, 3, 3, 4, 5, 6, 8, 12, 17, words.randint(1, 63), words.choice([62, 63])])
    return Bus(words, words.choice(STANDARDS), words.choice(SHAPES), count)


def near(words, quads):
    """A list of which a packet or a field is another."""
    quads = list(quads)
    for _ in range(words.choice([1, 1, 1, 2, 3])):
        at = words.randrange(len(quads)) if quads else 0
        how = words.randrange(10) if quads else 9
        if how <= 2:
            # a port's field is another
            shift = words.choice([2, 4, 6]) if not quads[at] & FURTHER else words.choice(range(2, 18, 2))
            quads[at] = quads[at] & ~(3 << shift) | words.randrange(4) << shift
        elif how == 3:
            quads[at] ^= 1 << words.randrange(32)
        elif how == 4:
            quads[at] ^= words.choice([1, FURTHER, 1 << 20, 1 << 24, 1 << 30, 1 << 31, 1 << 18, 1 << 1])
        elif how == 5:
            del quads[at]
        elif how == 6:
            quads.insert(at, quads[at])
        elif how == 7 and len(quads) > 1:
            other = words.randrange(len(quads))
            quads[at], quads[other] = quads[other], quads[at]
        elif how == 8:
            quads[at] = quads[at] & ~(0x3f << 24) | words.randrange(64) << 24
        else:
            quads += words.choice([quads, [0x80000000 | len(quads) << 24 & 0x3f000000], [0xbf7f8000], any_bus(words).quads()])
    return quads


def with_bytes_changed(words, data):
    """Bytes that are cut, or of which a bit or an inverse isn't right."""
    data = bytearray(data)
    how = words.randrange(4)
    if not data or how == 0:
        return bytes(data[:words.randint(0, len(data))])
    at = words.randrange(len(data))
    if how == 1:
        data[at] ^= 1 << words.randrange(8)
    elif how == 2:
        data[at & ~7:(at & ~7) + 4] = data[(at & ~7) + 4:(at & ~7) + 8]
    else:
        data += bytes(words.randrange(256) for _ in range(words.randint(1, 9)))
    return bytes(data)


def same_but_for_a_port(words, quads):
    """Two ports of a packet zero of which the fields change places: often another bus, and a valid one."""
    quads = list(quads)
    at = words.choice([k for k, quad in enumerate(quads) if not quad & FURTHER])
    one, other = words.sample([2, 4, 6], 2)
    fields = quads[at] >> one & 3, quads[at] >> other & 3
    quads[at] = quads[at] & ~(3 << one | 3 << other) | fields[1] << one | fields[0] << other
    return quads


def any_capture(words):
    """A capture of any of these sorts."""
    sort = words.choices(["bus", "near", "bytes", "noise"], [35, 45, 15, 5])[0]
    if sort == "noise":
        long = words.choice([0, 1, 4, 7, 8, 16, 24])
        return bytes(words.choice([0, 255, 127, 128, words.randrange(256)]) for _ in range(long))
    quads = any_bus(words).quads()
    if sort == "near":
        quads = near(words, quads)
    data = capture(quads)
    return with_bytes_changed(words, data) if sort == "bytes" else data


def small_bus(words):
    return Bus(words, words.choice(STANDARDS), words.choice(SHAPES), words.choice([1, 2, 3, 4, 5, 8, 12])).quads()


def next_list(words, quads):
    """The list of the next reset: the same, or of a bus that is near, or another."""
    how = words.choices(["same", "initiated", "ports", "near", "another"], [25, 25, 25, 10, 15])[0]
    if how == "another" or all(quad & FURTHER for quad in quads):
        return small_bus(words)
    if how == "initiated":
        at = words.randrange(len(quads))
        return [quad ^ 2 if k == at and not quad & FURTHER else quad for k, quad in enumerate(quads)]
    if how == "ports":
        return same_but_for_a_port(words, quads)
    return near(words, quads) if how == "near" else quads


def two_captures(words):
    """Two captures, of buses that mostly are near to each other."""
    bus = any_bus(words)
    quads = bus.quads()
    other = words.choices(["same", "initiated", "ports", "near", "another"], [10, 10, 40, 20, 20])[0]
    if other == "initiated":
        changed = [quad ^ words.choice([0, 2]) if not quad & FURTHER else quad for quad in quads]
    elif other == "ports":
        changed = quads
        for _ in range(words.randint(1, 3)):
            changed = same_but_for_a_port(words, changed)
        if words.random() < 0.5:
            at = words.choice([k for k, quad in enumerate(quads) if not quad & FURTHER])
            changed[at] ^= words.choice([1 << 22, 1 << 16, 1 << 14, 1 << 11, 1 << 8])
    else:
        changed = {"same": quads, "near": near(words, quads), "another": any_bus(words).quads()}[other]
    pair = [capture(quads), capture(changed)]
    words.shuffle(pair)
    return pair, bus.standard
