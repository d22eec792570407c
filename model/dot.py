"""Graphs for Graphviz: docs/VIEW-CAPTURES.md, 'dot', and docs/VIEW-SCRIPTS.md, 'dot-run'."""

from .captures import manager_of, read_capture
from .packets import CHILD, PARENT
from .run import Script
from .view import SPEEDS

HEAD = [
    "graph bus {",
    "  rankdir=LR;",
    "  ranksep=1.1;",
    "  node [shape=box];",
    "  edge [headport=w, fontsize=11, labelfontsize=9, labeldistance=2.2, labelangle=-24];",
]


def graph(lines):
    return "".join(line + "\n" for line in HEAD + lines + ["}"])


def tree_lines(nodes, numbers, names=None):
    """The nodes of a tree by ID, then its cables; in the graph a node has a number of its own."""
    manager = manager_of(nodes)
    lines = []
    for at, node in enumerate(nodes):
        is_root, is_manager = at == len(nodes) - 1, at == manager
        label = f"{names[at]}\\n" if names else ""
        label += f"node {at}{' root' * is_root}{' irm' * is_manager}\\n"
        label += f"link {node['link']} contender {node['contender']} power {node['power']}\\n"
        label += f"initiated {node['initiated']} speed {node['speed']} gap {node['gap']}"
        marks = ", peripheries=2" * is_root + ", style=bold" * is_manager
        lines.append(f'  n{numbers[at]} [label="{label}"{marks}];')
    for at, node in enumerate(nodes):
        for port, status in enumerate(node["ports"]):
            if status == CHILD:
                child = node["far"][port]
                speed = min(node["speed"], nodes[child]["speed"], 2)
                label = f'label="{SPEEDS[speed]}", penwidth={speed + 1}, '
                lines.append(cable(numbers[at], numbers[child], label, port, nodes[child]["ports"].index(PARENT)))
    return lines


def cable(one, other, label, port, far_port):
    return f'  n{one} -- n{other} [{label}taillabel="{port}", headlabel="{far_port}"];'


def other_lines(world, part):
    """A component that is no tree: its nodes, and its cables from their earlier ends."""
    lines = []
    for node in part["nodes"]:
        said = f'\\n{part["kind"]}", style=filled' if node in part["end"] else '"'
        lines.append(f'  n{node} [label="{world.nodes[node].name}{said}];')
    for (node, port), (far, far_port) in sorted(world.far.items()):
        if node in part["nodes"] and node < far:
            lines.append(cable(node, far, "headport=_, ", port, far_port))
    return lines


def dot(data, standard):
    nodes = read_capture(data, standard)[1]
    return graph(tree_lines(nodes, range(len(nodes))))


def dot_run(data):
    script = Script().run(data)
    lines = []
    for part in script.report["parts"]:
        if part["kind"] == "tree":
            names = [script.world.nodes[node].name for node in part["end"]]
            lines += tree_lines(part["tree"], part["end"], names)
        else:
            lines += other_lines(script.world, part)
    return graph(lines)
