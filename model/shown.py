"""A capture pair by pair: docs/VIEW-CAPTURES.md, 'packets'. The line on what other bytes look like isn't modelled."""

from .captures import quadlets, read_capture
from .packets import ListFault, bits, is_packet_zero, is_self_id
from .reach import reached

STATUSES = ("absent", "inactive", "parent", "child")


def packet_words(quad):
    """The fields of a PHY packet."""
    phy = bits(quad, 24, 6)
    top = bits(quad, 30, 2)
    if is_self_id(quad):
        return zero_words(quad) if is_packet_zero(quad) else further_words(quad)
    if top == 1:
        return f"link-on phy_ID {phy}" + unless_zero("rsv", bits(quad, 0, 24))
    if top == 0 and bits(quad, 22, 2) == 0:
        return f"extended phy_ID {phy} type {bits(quad, 18, 4)}"
    if top == 0:
        said = f"PHY configuration root_ID {phy} R {bits(quad, 23, 1)} T {bits(quad, 22, 1)}"
        return said + f" gap_cnt {bits(quad, 16, 6)}" + unless_zero("rsv", bits(quad, 0, 16))
    return "no PHY packet"


def unless_zero(field, value):
    return f" {field} {value}" if value else ""


def zero_words(quad):
    said = f"self-ID zero phy_ID {bits(quad, 24, 6)} L {bits(quad, 22, 1)} gap_cnt {bits(quad, 16, 6)}"
    said += f" sp {bits(quad, 14, 2)}" + unless_zero("del", bits(quad, 12, 2))
    said += f" c {bits(quad, 11, 1)} pwr {bits(quad, 8, 3)}"
    said += "".join(f" p{port} {STATUSES[bits(quad, 6 - 2 * port, 2)]}" for port in range(3))
    return said + f" i {bits(quad, 1, 1)} m {bits(quad, 0, 1)}"


def further_words(quad):
    number = bits(quad, 20, 3)
    said = f"self-ID n {number} phy_ID {bits(quad, 24, 6)}" + unless_zero("rsv", bits(quad, 18, 2))
    said += "".join(f" p{3 + 8 * number + at} {STATUSES[bits(quad, 16 - 2 * at, 2)]}" for at in range(8))
    return said + unless_zero("r", bits(quad, 1, 1)) + f" m {bits(quad, 0, 1)}"


def sentence(fault, quads):
    """What was found at a fault and what was wanted; `quads` are all of the capture."""
    here, inverse = (quads[2 * fault.place :] + [0, 0])[:2]
    waiting = f"trees of nodes that wait for a parent: {fault.found}, wanted {fault.wanted}"
    return {
        "BadLength": "the end of the input inside this pair, wanted 8 bytes: a quadlet and its inverse.",
        "BadInverse": f"the second quadlet {inverse:08x}, wanted {here ^ 0xFFFFFFFF:08x}, the bitwise inverse of the "
        "first.",
        "Empty": "no packet, wanted those of one node at least.",
        "NotSelfId": f"the top two bits {bits(here, 30, 2):02b}, wanted 10, those of a self-ID packet.",
        "WrongId": f"a self-ID packet of node {fault.found}, wanted one of node {fault.wanted}: IDs count up from 0, "
        "and a node's packets stand together.",
        "BadOrder": f"another packet of the node, wanted its packet {fault.packet}.",
        "Cut": "the end of the list, wanted a further packet: m is 1 in the one before.",
        "TwoParents": "more than one port to a parent in this node's packets, wanted one at most.",
        "TooFewChildren": f"{waiting}, as many as this node has ports to children.",
        "TreesLeft": f"{waiting}: this node has no port to a parent, so it is the root, and those are its children.",
        "AfterRoot": "a packet behind the root's, wanted none: the node without a parent comes last.",
        "NoRoot": "the end of the list, wanted the root: each node has a port to a parent.",
        "TooMany": "a packet of a 64th node, wanted 63 nodes at most.",
    }[fault.kind]


def pair_line(at, quads):
    return f"pair {at} {quads[2 * at]:08x} {quads[2 * at + 1]:08x} {packet_words(quads[2 * at])}"


def packets(data, standard):
    quads = quadlets(data[: len(data) // 8 * 8])
    lines = [pair_line(at, quads) for at in range(len(quads) // 2)]
    if len(data) % 8:
        lines.append(f"pair {len(lines)} {data[len(quads) * 4 :].hex()} cut")
    status = 0
    try:
        read_capture(data, standard)
    except ListFault as fault:
        status = 1
        reached["sentence on a capture"] += 1
        lines[fault.place + 1 : fault.place + 1] = [fault.line().rstrip(), "Found " + sentence(fault, quads)]
    return status, "".join(line + "\n" for line in lines)
