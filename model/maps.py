"""The topology map and the speed map: docs/CAPTURES.md, 'The maps'."""

from .captures import read_capture


def crc16(quads):
    """The CRC of IEEE Std 1212: polynomial 0x1021, from 0, the highest bit of each quadlet first."""
    crc = 0
    for quad in quads:
        for bit in range(31, -1, -1):
            top = crc >> 15 ^ quad >> bit & 1
            crc = (crc << 1 & 0xFFFF) ^ (0x1021 if top else 0)
    return crc


def sealed(quads):
    """A block: its length and its CRC stand before it."""
    return [len(quads) << 16 | crc16(quads)] + quads


def topology_map(quads, nodes, generation):
    return sealed([generation, len(nodes) << 16 | len(quads)] + quads)


def path(nodes, start, end):
    """The IDs on the path between two nodes of a tree, both included."""
    parents = [next((node["far"][p] for p, s in enumerate(node["ports"]) if s == 2), None) for node in nodes]

    def upward(node):
        return [] if node is None else [node] + upward(parents[node])

    up, down = upward(start), upward(end)
    meet = next(node for node in up if node in down)
    return up[: up.index(meet) + 1] + down[: down.index(meet)][::-1]


def speed_rows(nodes):
    """64 bytes for each node: the least speed on the path to each node, both included, where the code 3 counts as 2."""
    rows = []
    for start in range(len(nodes)):
        row = [min(min(nodes[on]["speed"], 2) for on in path(nodes, start, end)) for end in range(len(nodes))]
        rows += row + [0] * (64 - len(row))
    return rows


def speed_map(nodes, generation):
    rows = speed_rows(nodes)
    quads = [int.from_bytes(bytes(rows[at : at + 4]), "big") for at in range(0, len(rows), 4)]
    return sealed([generation] + quads)


def maps_text(quads, nodes, generation):
    lines = ["topology"] + [f"{quad:08x}" for quad in topology_map(quads, nodes, generation)]
    lines += ["speed"] + [f"{quad:08x}" for quad in speed_map(nodes, generation)]
    return "".join(line + "\n" for line in lines)


def maps(data):
    quads, nodes = read_capture(data, 2000)
    return maps_text(quads, nodes, 1)
