"""What `import` reads and writes: docs/CAPTURES.md, 'What `import` reads'."""

import re

from .captures import quadlets, write_pairs
from .maps import crc16
from .reach import reached

# What stands between words, and what ends a line's remark or its characters, by the form of the text.
BETWEEN = " \t\r\n,:;-\"'()[]{}"
FRONTS = (("00000000:", "xxd"), ("00000000  ", "hexdump -C"), ("0000000 ", "hexdump"), ("000000 ", "hexdump"), ("0000  ", "offsets"))
ENDS = {"words": r"#|//", "xxd": "  ", "hexdump -C": r"\|", "hexdump": r"\Z", "offsets": "  "}
# Where the bytes of a quadlet are, the highest first.
ORDERS = {"big": (0, 1, 2, 3), "little": (3, 2, 1, 0), "halves": (2, 3, 0, 1), "half bytes": (1, 0, 3, 2)}


class ImportFault(Exception):
    """An input that names no list, at a quadlet."""

    def __init__(self, quadlet, kind):
        super().__init__(quadlet, kind)
        self.quadlet, self.kind = quadlet, kind
        reached[f"import refused as {kind}"] += 1

    def line(self):
        return f"refused quadlet {self.quadlet} {self.kind}\n"


# ---- bytes

def form_of(text):
    return next((form for front, form in FRONTS if text.startswith(front)), "words")


def read_of(form, line):
    """What is read of a line."""
    if form != "words":
        line = re.sub(r"\A[^ \t]*[ \t]*", "", line)
    return re.split(ENDS[form], line, maxsplit=1)[0]


def word_bytes(word):
    """The bytes of a word, or None."""
    if re.fullmatch(r"[0-9]{10}", word):
        return int(word).to_bytes(4, "big") if int(word) < 1 << 32 else None
    digits = re.sub(r"[hHuU]\Z", "", re.sub(r"\A0[xX]", "", word))
    return bytes.fromhex(digits) if re.fullmatch(r"(?:[0-9a-fA-F]{2})+", digits) else None


def text_bytes(text):
    form = form_of(text)
    reached[f"import of {form}"] += 1
    data = "".join(read_of(form, line) + "\n" for line in text.split("\n"))
    within = data.partition("{")[2].partition("}")[0] if "{" in data else data
    found = b""
    for word in re.split(f"[{re.escape(BETWEEN)}]", within):
        spelled = word_bytes(word) if word else b""
        if spelled is None:
            raise ImportFault(len(found) // 4, "BadWord")
        found += spelled
    if data.count("{") > 1:
        raise ImportFault(len(found) // 4, "SecondList")
    return found


def named_bytes(data):
    text = data[3:] if data.startswith(b"\xef\xbb\xbf") else data
    if all(byte < 128 for byte in text):
        return text_bytes(text.decode("ascii"))
    reached["import of bytes"] += 1
    for end in (b"\n", b"\r\n"):
        if len(data) % 4 == len(end) and data.endswith(end):
            return data[: -len(end)]
    return data


# ---- packets

def is_inverse(quad, other):
    return quad ^ other == 0xFFFFFFFF


def good_firsts(quads):
    """The first quadlets of the pairs before the first that isn't one."""
    found = []
    for at in range(0, len(quads) - 1, 2):
        if not is_inverse(quads[at], quads[at + 1]):
            break
        found.append(quads[at])
    return found


def is_map(quads):
    return len(quads) >= 3 and quads[0] >> 16 < len(quads) and (quads[2] & 0xFFFF) + 2 == quads[0] >> 16


def map_list(quads):
    """The list of a topology map."""
    image = quads[: (quads[0] >> 16) + 1]
    if image[0] & 0xFFFF != crc16(image[1:]):
        raise ImportFault(0, "BadCrc")
    found = image[3:]
    nodes = sum(1 for quad in found if quad >> 30 == 2 and not quad >> 23 & 1)
    if image[2] >> 16 != nodes:
        raise ImportFault(2, "BadCounts")
    return found


def leads_up(packet):
    """Whether a port of this packet leads to the parent."""
    ports = 8 if packet >> 23 & 1 else 3
    return any(packet >> 2 + 2 * port & 3 == 2 for port in range(ports))


def to_root(packets):
    """The packets up to those of the first node of which no port leads to a parent."""
    up = False
    for at, packet in enumerate(packets):
        up = up or leads_up(packet)
        if not packet & 1:
            if not up:
                return packets[: at + 1]
            up = False
    return packets


# ---- the order of bytes

def turned(order, quad):
    found = quad.to_bytes(4, "big")
    return int.from_bytes(bytes(found[place] for place in ORDERS[order]), "big")


def are_packets(packets):
    return all(packet >> 30 == 2 for packet in packets)


def go_up(packets):
    ids = [packet >> 24 & 63 for packet in packets]
    return are_packets(packets) and ids[:1] == [0] and all(after - before in (0, 1) for before, after in zip(ids, ids[1:]))


def begins_at_0(packets):
    return bool(packets) and packets[0] >> 24 == 128


def in_order(quads, orders, tests):
    """The packets in the first order that passes the first test that one passes."""
    for test in tests:
        for order in orders:
            packets = [turned(order, quad) for quad in quads]
            if test(packets):
                reached[f"import with the order {order}"] += 1
                return packets
    return None


def no_packets(quads):
    """The place of the first that is no packet, or the first."""
    return next((at for at, quad in enumerate(quads) if quad >> 30 != 2), 0)


def import_list(quads):
    """The packets that quadlets name."""
    if is_inverse(*quads[:2]) if len(quads) > 1 else False:
        reached["import of pairs"] += 1
        firsts = good_firsts(quads)
        if 2 * len(firsts) != len(quads):
            raise ImportFault(2 * len(firsts) + 1, "BadInverse")
        packets, place = in_order(firsts, ORDERS, (go_up, are_packets)), 2 * no_packets(firsts)
    elif len(quads) > 2 and is_inverse(*quads[1:3]):
        reached["import of a buffer"] += 1
        firsts = good_firsts(quads[1:])
        packets, place = in_order(firsts, ("little", "big"), (go_up, begins_at_0)), 2 * no_packets(firsts) + 1
        packets = packets and to_root(packets)
    elif is_map(quads):
        reached["import of a topology map"] += 1
        return map_list(quads)
    else:
        reached["import of packets alone"] += 1
        packets, place = in_order(quads, ORDERS, (go_up, are_packets)), no_packets(quads)
    if packets is None:
        raise ImportFault(place, "NotSelfId")
    return packets


def import_capture(data):
    found = named_bytes(data)
    if not found:
        raise ImportFault(0, "Empty")
    if len(found) % 4:
        raise ImportFault(len(found) // 4, "BadLength")
    return write_pairs(import_list(quadlets(found)))
