"""Self-ID packets, and the packets of a node, which are its group: docs/CAPTURES.md, 'The quadlets of a node'.

A node is a dictionary: what it says of itself, and its ports, each with one of the four statuses.
"""

from .reach import reached

ABSENT, INACTIVE, PARENT, CHILD = range(4)  # the two bits of a port

# How many ports each packet of a node has, by the two standards: packet zero, then n = 0, n = 1, n = 2.
PORTS_OF_PACKETS = {2000: (3, 8, 5), 1995: (3, 8, 8, 8)}


class ListFault(Exception):
    """What is wrong with a list of packets: the place, the kind, and what was found and wanted, if that is said."""

    def __init__(self, place, kind, found=None, wanted=None, packet=None):
        super().__init__(kind)
        self.place, self.kind, self.found, self.wanted = place, kind, found, wanted
        self.packet = packet  # the packet that a `BadOrder` wants

    def line(self):
        said = "" if self.found is None else f" found {self.found} wanted {self.wanted}"
        return f"refused pair {self.place} {self.kind}{said}\n"


def bits(quad, low, width):
    return quad >> low & (1 << width) - 1


def is_self_id(quad):
    return bits(quad, 30, 2) == 2


def is_packet_zero(quad):
    return is_self_id(quad) and bits(quad, 23, 1) == 0


def says_more_follow(quad):
    return bits(quad, 0, 1) == 1


def ports_of_packet(quad, place, standard):
    """The statuses of the ports in the packet at this place of its group."""
    count = PORTS_OF_PACKETS[standard][place]
    top = 6 if place == 0 else 16
    return [bits(quad, top - 2 * port, 2) for port in range(count)]


def read_group(quads, at, wanted, standard):
    """The node whose group stands at this place of a list, and the place after it. Its ID has to be the one wanted."""
    ports = []
    packets = len(PORTS_OF_PACKETS[standard])
    for place in range(packets):
        here = at + place
        if here == len(quads):
            raise ListFault(here, "Cut")
        quad = quads[here]
        if not is_self_id(quad):
            raise ListFault(here, "NotSelfId")
        if bits(quad, 24, 6) != wanted:
            raise ListFault(here, "WrongId", bits(quad, 24, 6), wanted)
        if place == 0 and not is_packet_zero(quad):
            raise ListFault(here, "BadOrder", packet="zero")
        if place > 0 and (is_packet_zero(quad) or bits(quad, 20, 3) != place - 1):
            raise ListFault(here, "BadOrder", packet=f"n {place - 1}")
        ports += ports_of_packet(quad, place, standard)
        if place + 1 == packets or not says_more_follow(quad):
            break
    if ports.count(PARENT) > 1:
        raise ListFault(at, "TwoParents")
    reached[f"group of {place + 1} packets by {standard}"] += 1
    zero = quads[at]
    return {
        "id": wanted,
        "link": bits(zero, 22, 1),
        "gap": bits(zero, 16, 6),
        "speed": bits(zero, 14, 2),
        "contender": bits(zero, 11, 1),
        "power": bits(zero, 8, 3),
        "initiated": bits(zero, 1, 1),
        "ports": ports,
    }, here + 1


def write_group(node):
    """The packets that a node of a script sends: one for three ports, two for eleven, three for sixteen."""
    slots = 3 if len(node["ports"]) <= 3 else 11 if len(node["ports"]) <= 11 else 16
    ports = node["ports"] + [ABSENT] * (slots - len(node["ports"]))
    parts = [ports[:3]] + [ports[3:11]] * (slots > 3) + [ports[11:16]] * (slots > 11)
    quads = []
    for place, part in enumerate(parts):
        quad = 2 << 30 | node["id"] << 24 | (place + 1 < len(parts))
        if place == 0:
            quad |= node["link"] << 22 | node["gap"] << 16 | node["speed"] << 14 | node["contender"] << 11
            quad |= node["power"] << 8 | node["initiated"] << 1
        else:
            quad |= 1 << 23 | place - 1 << 20
        top = 6 if place == 0 else 16
        for port, status in enumerate(part):
            quad |= status << top - 2 * port
        quads.append(quad)
    return quads
