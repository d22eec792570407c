"""Captures: pairs of quadlets, the tree that they describe, and its text. docs/CAPTURES.md, 'What `read`
answers' and 'Which fault is named, and where'.

A tree is the list of its nodes by ID. A node of a tree also has 'far': for each port the ID at the other end, or None.
"""

from .packets import ABSENT, CHILD, INACTIVE, PARENT, ListFault, read_group
from .reach import reached

MAX_NODES = 63


def quadlets(data):
    return [int.from_bytes(data[at : at + 4], "big") for at in range(0, len(data) - 3, 4)]


def read_pairs(data):
    """The first quadlet of each pair of a capture."""
    if len(data) % 8:
        raise ListFault(len(data) // 8, "BadLength")
    quads = quadlets(data)
    for pair in range(len(quads) // 2):
        if quads[2 * pair] ^ quads[2 * pair + 1] != 0xFFFFFFFF:
            raise ListFault(pair, "BadInverse")
    return quads[::2]


def write_pairs(quads):
    return b"".join(quad.to_bytes(4, "big") + (quad ^ 0xFFFFFFFF).to_bytes(4, "big") for quad in quads)


def read_tree(quads, standard):
    """The nodes of the one tree by this standard that sends the list, or the list's fault."""
    if not quads:
        raise ListFault(0, "Empty")
    nodes = []
    waiting = []  # the nodes whose parent hasn't come yet
    at = 0
    while True:
        if at == len(quads):
            raise ListFault(at, "NoRoot")
        if len(nodes) == MAX_NODES:
            raise ListFault(at, "TooMany")
        node, after = read_group(quads, at, len(nodes), standard)
        children = node["ports"].count(CHILD)
        is_root = PARENT not in node["ports"]
        if children > len(waiting):
            raise ListFault(at, "TooFewChildren", len(waiting), children)
        if is_root and children < len(waiting):
            raise ListFault(at, "TreesLeft", len(waiting), children)
        join(nodes, node, waiting[len(waiting) - children :])
        waiting = waiting[: len(waiting) - children] + [node["id"]]
        nodes.append(node)
        at = after
        if is_root:
            if at < len(quads):
                raise ListFault(at, "AfterRoot")
            return nodes


def join(nodes, node, children):
    """The node's ports to children lead to these nodes, both in rising order."""
    node["far"] = [None] * len(node["ports"])
    ports = [port for port, status in enumerate(node["ports"]) if status == CHILD]
    for port, child in zip(ports, children):
        node["far"][port] = child
        nodes[child]["far"][nodes[child]["ports"].index(PARENT)] = node["id"]


def manager_of(nodes):
    """The isochronous resource manager: the highest ID with an active link that contends, or None."""
    return max((node["id"] for node in nodes if node["link"] and node["contender"]), default=None)


def tree_text(nodes, names=None):
    lines = []
    for node in nodes:
        marks = {ABSENT: "-", INACTIVE: ".", PARENT: "^", CHILD: "v"}
        ports = [marks[status] + ("" if far is None else str(far)) for status, far in zip(node["ports"], node["far"])]
        fields = " ".join(f"{key} {node[key]}" for key in ("link", "gap", "speed", "contender", "power", "initiated"))
        name = f" name {names[node['id']]}" if names else ""
        lines.append(f"node {node['id']} {fields} ports {' '.join(ports)}{name}\n")
    manager = manager_of(nodes)
    lines.append(f"nodes {len(nodes)} root {len(nodes) - 1} irm {'none' if manager is None else manager}\n")
    return "".join(lines)


def read_capture(data, standard):
    """The list and the nodes of a capture."""
    try:
        quads = read_pairs(data)
        nodes = read_tree(quads, standard)
    except ListFault as fault:
        reached[f"fault {fault.kind}"] += 1
        reached[f"fault {fault.kind} by {standard}"] += 1
        raise
    reached[f"capture accepted by {standard}"] += 1
    return quads, nodes


def read(data, standard):
    return tree_text(read_capture(data, standard)[1])
